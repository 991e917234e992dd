! Arrays whose bounds stand in their descriptors: an allocatable one, and a part of it that a call hands over.
program bounds
    use iso_c_binding
    implicit none
    interface
        integer(c_int) function raise(number) bind(c)
            import c_int
            integer(c_int), value :: number
        end function
    end interface
    integer(4), allocatable :: table(:, :)
    allocate (table(3:7, -1:1))
    table = 5
    call show(table(4:7:2, :))
contains
    subroutine show(part)
        integer(4), intent(inout) :: part(:, 2:)
        part(1, 2) = 9
        if (raise(4) /= 0) part(1, 2) = 8
    end subroutine
end program
