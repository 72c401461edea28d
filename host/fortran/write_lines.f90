! Writes the lines of a good block as a Fortran program does: numbers by a format such as (20I6), cards by A80.
!   write_lines BLOCK FORMAT
program write_lines
    use words, only: block_most, bytes_of, lines_of, read_block
    implicit none
    character(256) :: name, numbers
    integer :: block(block_most), first

    call get_command_argument(1, name)
    call get_command_argument(2, numbers)
    call read_block(trim(name), block)
    first = 2
    do while (first < block(1))
        associate (record => block(first:first + block(first) - 1))
            select case (record(2))
            case (2001)
                call write_cards(2101, record)
            case (3002)
                call write_cards(3101, record)
            case (1002)
                call write_data(record)
            end select
        end associate
        first = first + block(first)
    end do

contains

    subroutine write_cards(kind, record)
        integer, intent(in) :: kind, record(:)
        character(80) :: card
        integer :: at

        write (*, numbers) size(record) / 40, kind, record(3:20)
        do at = 40, size(record) - 40, 40
            card = transfer(bytes_of(record(at + 1:at + 40)), card)
            write (*, '(A80)') card
        end do
    end subroutine

    subroutine write_data(record)
        integer, intent(in) :: record(:)
        integer :: row, at

        associate (lprol => record(13), jpar => record(14), mpar => record(15), nrow => record(16))
            write (*, numbers) lines_of(lprol) + 2 * lines_of(jpar) + (nrow + 1) * lines_of(mpar), 1101, record(3:lprol)
            call write_part(record(lprol + 1:lprol + jpar))
            call write_part(record(lprol + jpar + 1:lprol + 2 * jpar))
            do row = 0, nrow
                at = lprol + 2 * jpar + row * mpar
                call write_part(record(at + 1:at + mpar))
            end do
        end associate
    end subroutine

    ! The format begins a new line after 20 numbers. Without any it would leave an empty one.
    subroutine write_part(part)
        integer, intent(in) :: part(:)

        if (size(part) > 0) write (*, numbers) part
    end subroutine

end program
