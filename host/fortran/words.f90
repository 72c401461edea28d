! Blocks as words, high byte first, for the two programs beside this file.
module words
    implicit none

    integer, parameter :: block_most = 8000

contains

    elemental integer function word_of(bytes)
        character(2), intent(in) :: bytes

        word_of = 256 * ichar(bytes(1:1)) + ichar(bytes(2:2))
        if (word_of > 32767) word_of = word_of - 65536
    end function

    elemental character(2) function bytes_of(word)
        integer, intent(in) :: word

        bytes_of = char(modulo(word, 65536) / 256)//char(modulo(word, 256))
    end function

    ! The first word says how many there are.
    subroutine read_block(name, block)
        character(*), intent(in) :: name
        integer, intent(out) :: block(block_most)
        character(2) :: bytes(block_most)
        integer :: unit, count

        open (newunit=unit, file=name, access='stream', form='unformatted', action='read', status='old')
        read (unit) bytes(1)
        count = word_of(bytes(1))
        read (unit) bytes(2:count)
        close (unit)
        block(:count) = word_of(bytes(:count))
    end subroutine

    subroutine write_block(name, block, count)
        character(*), intent(in) :: name
        integer, intent(in) :: block(block_most), count
        integer :: unit

        open (newunit=unit, file=name, access='stream', form='unformatted', action='write', status='replace')
        write (unit) bytes_of(block(:count))
        close (unit)
    end subroutine

    integer function lines_of(fields)
        integer, intent(in) :: fields

        lines_of = (fields + 19) / 20
    end function

end module
