! The same in Fortran: arguments printed, and their number as the status.
program arguments
    implicit none
    character(len=256) :: word
    integer :: i, length

    do i = 1, command_argument_count()
        call get_command_argument(i, word, length)
        print '(i0, " <", a, ">")', i, word(:length)
    end do
    stop command_argument_count(), quiet=.true.
end program arguments
