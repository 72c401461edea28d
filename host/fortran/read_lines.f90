! Reads lines as a Fortran program does, numbers by 20I6 and cards by A80, and writes their block.
!   read_lines LINES BLOCK
program read_lines
    use words, only: block_most, word_of, write_block
    implicit none
    character(256) :: lines, name
    integer :: block(block_most), first(20), unit, status, count

    call get_command_argument(1, lines)
    call get_command_argument(2, name)
    open (newunit=unit, file=trim(lines), action='read', status='old')
    count = 1
    do
        read (unit, '(20I6)', iostat=status) first
        if (status /= 0) exit
        select case (first(2))
        case (2101)
            call read_cards(2001, first(1))
        case (3101)
            call read_cards(3002, first(1))
        case (1101)
            call read_data(first(13), first(14), first(15), first(16))
        end select
    end do
    count = count + 1
    block(1) = count
    block(count) = iparity(block(1:count - 1))
    call write_block(trim(name), block, count)

contains

    subroutine read_cards(kind, lines)
        integer, intent(in) :: kind, lines
        character(80) :: card
        character(2) :: bytes(40)
        integer :: line

        block(count + 1:count + 40) = 0
        block(count + 1:count + 20) = [40 * lines, kind, first(3:20)]
        count = count + 40
        do line = 2, lines
            read (unit, '(A80)') card
            bytes = transfer(card, bytes)
            block(count + 1:count + 40) = word_of(bytes)
            count = count + 40
        end do
    end subroutine

    ! The prologue may go on after its first line, so that line is read once more.
    subroutine read_data(lprol, jpar, mpar, nrow)
        integer, intent(in) :: lprol, jpar, mpar, nrow
        integer :: start, row

        start = count
        backspace (unit)
        call read_part(lprol)
        call read_part(jpar)
        call read_part(jpar)
        do row = 0, nrow
            call read_part(mpar)
        end do
        block(start + 1:start + 2) = [count - start, 1002]
    end subroutine

    subroutine read_part(fields)
        integer, intent(in) :: fields

        if (fields == 0) return
        read (unit, '(20I6)') block(count + 1:count + fields)
        count = count + fields
    end subroutine

end program
