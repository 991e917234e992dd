! Arrays of any rank, characters of any length, common blocks, constants, and procedures within procedures. It stops at
! the one place that this names: stop(1).
module kinds
    implicit none
    integer, parameter :: answer = 42
    integer :: shared = 3
contains
    subroutine ranked(any, text)
        use iso_c_binding
        integer(4), intent(inout) :: any(..)
        character(len=*), intent(in) :: text
        interface
            integer(c_int) function raise(number) bind(c)
                import c_int
                integer(c_int), value :: number
            end function
        end interface
        integer(c_int) :: four
        four = len(text)
        if (raise(four - 1) /= 0) shared = 8
    end subroutine

    subroutine texts(given, short)
        character(len=*), intent(in) :: given
        character(len=3), intent(inout) :: short
        integer, parameter :: constant = 17
        real(8), parameter :: number = 3.25d0
        integer :: first, second(3)
        common /block/ first, second
        integer(4) :: four(4), square(2, 3)
        complex(8) :: point
        logical :: is_set
        first = 5
        second = (/ 6, 7, 8 /)
        four = constant
        square = reshape((/ 1, 2, 3, 4, 5, 6 /), (/ 2, 3 /))
        point = (1d0, 2d0)
        is_set = .true.
        call inside(2)
        short = given(1:2)
    contains
        subroutine inside(given_too)
            integer, intent(in) :: given_too
            integer :: local
            local = given_too + first + four(2)
            call ranked(square, 'fives')
            four(1) = local
        end subroutine
    end subroutine
end module

program arrays
    use kinds
    implicit none
    character(len=3) :: short = 'abc'
    call texts('hello', short)
end program
