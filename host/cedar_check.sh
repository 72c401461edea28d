# What ./cedar check says of lines and blocks. Sourced by host/programs, whose functions it uses, and those of host/calls.sh and
# host/files.sh.

# good FILE LINE: `cedar check FILE` writes this line and no other, and says nothing.
good() {
    expected "$2"
    check "cedar check $1" gives 0 '' ./cedar check "$1"
}

# bad FILE TAKEN REFUSAL SENTENCE: it writes the refusal alone, and says what the file was taken for.
bad() {
    expected "$3"
    check "cedar check $1" gives 1 "cedar: $1, taken as $2: $4" ./cedar check "$1"
}

good example/k.block 'block: 52 bytes, 1 record'
good example/catalogue.block 'block: 3204 bytes, 1 record'
good example/header.block 'block: 3764 bytes, 1 record'
good example/data.block 'block: 84 bytes, 1 record'
good example/kinds.block 'block: 1016 bytes, 5 records'
good example/night-repacked.block 'block: 1144 bytes, 7 records'
good "$night" '3 blocks: 1152 bytes, 7 records'
good example/k.lines 'lines: block of 52 bytes'
good example/k-typed.lines 'lines: block of 52 bytes'
good example/catalogue.lines 'lines: block of 3204 bytes'
good example/header.lines 'lines: block of 3764 bytes'
good example/data.lines 'lines: block of 84 bytes'
bad example/k-damaged.block 'a block' 'refused 9 1 1 0' "$counts_wrong"
bad example/k-mistyped.lines lines 'refused 22 3 1 0' 'a field is no number from -32,768 to 32,767: line 3, column 1'

# The size that is said is what `cedar block` writes.
{
    cat "$work/cards"
    data 38
} >"$work/full.lines"
for file in example/*.lines "$work/cards" "$work/rows" "$work/all" "$work/full.lines"; do
    [ "$file" != example/k-mistyped.lines ] || continue
    expected "lines: block of $(($(./cedar block "$file" | wc -c))) bytes"
    check "the size of the block of $file" gives 0 '' ./cedar check "$file"
done
good "$work/full.lines" 'lines: block of 16000 bytes'

# Texts with nothing in them, too much, and what ends lines or must not be in them.
bad "$work/empty" lines 'refused 21 0 0 0' 'the text has no record'
bad "$work/most" lines 'refused 21 0 0 0' 'the text has no record'
bad "$work/more" lines 'refused 30 0 0 0' 'the text is over 65,536 bytes'
bad "$work/short" lines 'refused 25 6 1 0' 'the text ends inside a record, where this line must stand: line 6, column 1'
{
    cat "$work/cards"
    data 39
} >"$work/over.lines"
bad "$work/over.lines" lines 'refused 28 200 1 0' 'with this record the text has over 7,998 record words: line 200, column 1'
{
    echo
    cat example/k.lines
} >"$work/lf"
awk '{ printf "%s\r\n", $0 }' "$work/lf" >"$work/cr-lf"
good "$work/lf" 'lines: block of 52 bytes'
good "$work/cr-lf" 'lines: block of 52 bytes'
bad_byte='a line has a column past 120, or a byte that is not 32 to 126'
for start in '\11' '\357\273\277' '\177'; do
    {
        printf "$start"
        cat example/k.lines
    } >"$work/start"
    bad "$work/start" lines 'refused 20 1 1 0' "$bad_byte: line 1, column 1"
done

# put_in COLUMN OCTAL: the lines of K with this byte in that column of the first.
put_in() {
    head -c $(($1 - 1)) example/k.lines
    printf "\\$2"
    tail -c +$(($1 + 1)) example/k.lines
}

# takes AS COLUMN OCTAL: for what such lines are taken, all of which are refused.
takes() {
    put_in "$2" "$3" >"$work/put"
    ./cedar check "$work/put" >"$work/found" 2>"$work/said"
    ended=$?
    [ "$ended" -eq 1 ] && grep -q "^cedar: $work/put, taken as $1: " "$work/said" && return
    echo "status $ended and"
    cat "$work/said"
    return 1
}

put_in 6 0 >"$work/nul"
bad "$work/nul" 'a block' 'refused 2 0 0 0' "word 1 is not the count of the block's words"
put_in 7 0 >"$work/nul"
bad "$work/nul" lines 'refused 20 1 7 0' "$bad_byte: line 1, column 7"
check "a text with NUL in column 1" takes blocks 1 0
for column in 2 3 4 5 6; do
    check "a text with NUL in column $column" takes 'a block' "$column" 0
done
for byte in 0 1 2 3 4 5 6 7 10 13 14 16 17 20 21 22 23 24 25 26 27 30 31 32 33 34 35 36 37; do
    check "a text with byte $byte, in octal" takes 'a block' 6 "$byte"
done
for byte in 11 12 15 40 176 177 200 377; do
    check "a text with byte $byte, in octal" takes lines 6 "$byte"
done

# begins FILE BYTES: with these six.
begins() {
    [ "$(od -A n -N 6 -t u1 "$1" | tr -s ' ')" = " $2" ]
}

# blank KIND LINES: the lines of a record of this kind, whose cards are blank.
blank() {
    printf '%6d' "$2" "$1" 30 1 1983 508 1422 0 1983 508 1422 0 0 0 0
    empty_lines "$2"
}

# tall ROWS: the lines of a Data record with so many rows of one value.
tall() {
    printf '%6d' $(($1 + 2)) 1101 30 1 1983 508 1422 0 1983 508 1422 0 16 0 1 "$1"
    printf '\n%6d' $(seq $(($1 + 1)))
}

# block_begins BYTES LINE: $work/text makes a block that begins with these bytes, and is taken as one.
block_begins() {
    ./cedar block "$work/text" >"$work/text.block"
    check "a block that begins with $1" begins "$work/text.block" "$1"
    good "$work/text.block" "$2"
}

# Blocks of which only the fifth byte is none of a text: the first ones are tabs, LF, CR and bytes from 32 on.
blank 2101 63 >"$work/text"
block_begins '9 218 9 216 7 209' 'block: 5044 bytes, 1 record'
blank 2101 65 >"$work/text"
block_begins '10 42 10 40 7 209' 'block: 5204 bytes, 1 record'
blank 3101 84 >"$work/text"
block_begins '13 34 13 32 11 186' 'block: 6724 bytes, 1 record'
tall 2575 >"$work/text"
block_begins '10 34 10 32 3 234' 'block: 5188 bytes, 1 record'
tall 3343 >"$work/text"
block_begins '13 34 13 32 3 234' 'block: 6724 bytes, 1 record'

# Bytes too few, one too many, and blocks of which one is refused.
printf '\0' >"$work/single"
bad "$work/single" 'a block' 'refused 1 0 0 0' 'the length of the block is odd, under 36 or over 16,000 bytes'
bad "$work/odd" 'a block' 'refused 1 0 0 0' 'the length of the block is odd, under 36 or over 16,000 bytes'
bad "$work/one-bit" 'a block' 'refused 3 0 0 1' 'the checksum is wrong in 1 of its 16 bits'
bad "$work/one-byte" blocks 'refused 51 2 0 0' "block 2: $past"
bad "$work/under-18" blocks 'refused 1 0 0 0' "block 2: $first_wrong"
bad "$work/too-few-words" blocks 'refused 3 0 0 6' 'block 1: the checksum is wrong in 6 of its 16 bits'
bad "$work/cut" blocks 'refused 51 5 0 0' "block 5: $past"
bad "$work/damaged" blocks 'refused 9 1 1 0' "block 2: $counts_wrong"
bad "$work/long-damaged" blocks 'refused 9 1 1 0' "block 14: $counts_wrong"
bad "$work/first-wrong" blocks 'refused 1 0 0 0' "block 1: $first_wrong"
printf 'x' >"$work/single"
bad "$work/single" lines 'refused 22 1 1 0' 'a field is no number from -32,768 to 32,767: line 1, column 1'

# One block of many; the others are not judged.
expected 'block: 1016 bytes, 5 records'
check "cedar check of block 2 of 3" gives 0 '' ./cedar check -b 2 "$night"
expected 'block: 52 bytes, 1 record'
check "cedar check of block 1 of 1" gives 0 '' ./cedar check -b 1 example/k.block
check "cedar check of a block after a damaged one" gives 0 '' ./cedar check -b 3 "$work/damaged"
expected 'refused 9 1 1 0'
check "cedar check of a damaged block" \
    gives 1 "cedar: $work/damaged, taken as blocks: block 2: $counts_wrong" ./cedar check -b 2 "$work/damaged"
check "cedar check of block 1 of 1, damaged" \
    gives 1 "cedar: example/k-damaged.block, taken as a block: $counts_wrong" ./cedar check -b 1 example/k-damaged.block
: >"$work/expected"
check "cedar check of block 4 of 3" \
    gives 2 "cedar: $night: there is no block 4: the number of blocks is 3" ./cedar check -b 4 "$night"
check "cedar check of block 1 of lines" \
    gives 2 'cedar: example/k.lines, taken as lines: there is no block 1' ./cedar check -b 1 example/k.lines
check "cedar check of block 0" gives 2 'cedar: -b takes the number of a block, from 1' ./cedar check -b 0 "$night"
check "cedar check -b without a file" gives 2 'cedar: -b takes the number of a block, and then FILE' ./cedar check -b 1
check "cedar check without a file" gives 2 "$page" ./cedar check
check "cedar check of two files" gives 2 "$page" ./cedar check example/k.lines example/k.block

# Standard input, pipes that go on, and bytes without end.
expected 'lines: block of 52 bytes'
check "cedar check of lines on standard input" gives 0 '' ./cedar check - <example/k.lines
expected '3 blocks: 1152 bytes, 7 records'
check "cedar check of blocks on standard input" gives 0 '' ./cedar check - <"$night"
expected '8 blocks: 81152 bytes, 17 records'
check "cedar check of 81,152 bytes" gives 0 '' ./cedar check "$work/many"
check "cedar check of a pipe" gives 0 '' piped "$work/64000" "$work/rest" ./cedar check -
expected 'refused 21 0 0 0'
check "what cedar check says of standard input" \
    gives 1 'cedar: standard input, taken as lines: the text has no record' ./cedar check - </dev/null
expected 'refused 1 0 0 0'
check "cedar check of endless bytes" \
    small gives 1 "cedar: /dev/zero, taken as blocks: block 1: $first_wrong" ./cedar check /dev/zero
check "cedar check of a block and endless bytes" \
    small gives 1 "cedar: standard input, taken as blocks: block 2: $first_wrong" piped example/k.block /dev/zero ./cedar check -

# endless COMMAND..: lines without end come from a pipe.
endless() {
    yes '' 2>/dev/null | "$@"
}

expected 'refused 30 0 0 0'
check "cedar check of endless lines" \
    small gives 1 'cedar: standard input, taken as lines: the text is over 65,536 bytes' endless ./cedar check -

# What cannot be read or written.
: >"$work/expected"
check "cedar check of no standard input" gives 2 'cedar: standard input: cannot be read: it is closed' ./cedar check - <&-
check "cedar check of a folder" gives 2 "cedar: $work: cannot be read: Is a directory" env LC_ALL=C ./cedar check "$work"
check "cedar check of a missing file" \
    gives 2 "cedar: $work/missing: cannot be read: No such file or directory" env LC_ALL=C ./cedar check "$work/missing"
cp example/k.lines "$work/itself"
check "cedar check onto its own file" \
    ends 2 "cedar: $work/itself: is also where the output goes, and the shell may have emptied it" onto_itself check "$work/itself"

# to_full FILE: no output can be written.
to_full() {
    ./cedar check "$1" >/dev/full 2>/dev/null
    [ $? -eq 2 ]
}

check "cedar check of lines to a full device" to_full example/k.lines
check "cedar check of a refused block to a full device" to_full example/k-damaged.block

# makes_nothing FILE: no file, in the folder or in that for temporary ones; and the file stays what it was.
makes_nothing() {
    rm -rf "$work/alone"
    mkdir "$work/alone"
    cp "$1" "$work/alone/file"
    (cd "$work/alone" && TMPDIR=$work/room "$work/names/link" check file >/dev/null) && [ "$(ls -A "$work/alone")$(ls -A "$work/room")" = file ] && cmp "$1" "$work/alone/file"
}

for file in example/k.lines "$night"; do
    check "what cedar check of $file leaves" makes_nothing "$file"
done
