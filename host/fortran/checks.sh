# Lines exchanged with Fortran, whose formats they were made for; sourced by host/run, after its examples are compiled.
# What Fortran reads and writes are files, so its programs are the machine's own.

can_fortran() {
    echo 'end' | gfortran -x f95 - -o "$build/can-fortran" 2>/dev/null
}

need can_fortran gfortran
for program in write_lines read_lines; do
    gfortran -std=f2008 -Wall -Wextra -Werror -J "$build" host/fortran/words.f90 "host/fortran/$program.f90" \
        -o "$build/$program"
done

# made LINES BLOCK: the library makes the block.
made() {
    run block "$1" >"$2"
}

# written BLOCK FORMAT: the library reads the lines that Fortran writes of the block.
written() {
    "$build/write_lines" "$1" "$2" >"$build/written" && run block "$build/written" | cmp "$1" -
}

# read_back BLOCK: Fortran reads the lines that the library writes of the block, and would write them so.
read_back() {
    run lines "$1" >"$build/lined" && "$build/read_lines" "$build/lined" "$build/read" && cmp "$1" "$build/read" &&
        "$build/write_lines" "$1" '(20I6)' | cmp "$build/lined" -
}

# Numbers of every width and sign; the other blocks have all kinds of records.
check host/fortran/numbers.lines made host/fortran/numbers.lines "$build/numbers.block"
for block in "$build/numbers.block" example/k.block example/catalogue.block example/header.block example/data.block \
    example/kinds.block; do
    # As it is usual, with plus signs, with leading zeros, with both.
    for format in '(20I6)' '(SP,20I6)' '(20I6.5)' '(SP,20I6.5)'; do
        check "Fortran's lines $format of $block" written "$block" "$format"
    done
    check "the lines of $block in Fortran" read_back "$block"
done
