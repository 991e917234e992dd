! Arrays within a structure, backwards and of any rank.
program objects
    use iso_c_binding
    implicit none
    interface
        integer(c_int) function raise(number) bind(c)
            import c_int
            integer(c_int), value :: number
        end function
    end interface
    type holder
        integer(4) :: pad
        real(8), allocatable :: vals(:)
    end type
    type(holder) :: held
    real(8), target :: whole(10)
    real(8), pointer :: part(:)
    integer :: i
    whole = [(real(i, 8), i=1, 10)]
    part => whole(8:2:-2)
    allocate (held%vals(3:5))
    held%pad = 7
    held%vals = [1.5d0, 2d0, 3d0]
    call show(reshape([1, 2, 3, 4, 5, 6], [2, 3]))
contains
    subroutine show(any)
        integer(4), intent(in) :: any(..)
        if (raise(4) /= 0) held%pad = 8
    end subroutine
end program
