# What ./cedar does with files of many blocks. Sourced by host/programs, whose functions it uses.

# expected LINE..: what must come on standard output.
expected() {
    printf '%s\n' "$@" >"$work/expected"
}

# gives STATUS SAID COMMAND..: as ends, and the command writes what is expected.
gives() {
    ends "$@" && cmp "$work/expected" "$work/found"
}

# Many blocks: all of them, and each alone.
night=example/night.block
expected 'block 1' '1 2 1002 24 6 30 MLH' 'block 2' '1 2 2001 160 4 5140 AQF' '2 162 3002 40 1 7240 ---' \
    '3 202 1002 210 16 -5 ---' '4 412 1002 16 1 6320 CSL' '5 428 3002 80 2 -32768 ---' 'block 3' '1 2 1002 40 7 72 EIS'
check "cedar list of many blocks" gives 0 '' ./cedar list "$night"
number=0
: >"$work/all"
for name in k kinds data; do
    number=$((number + 1))
    ./cedar lines "example/$name.block" >"$work/expected"
    cat "$work/expected" >>"$work/all"
    check "cedar lines of block $number" gives 0 '' ./cedar lines -b "$number" "$night"
    ./cedar list "example/$name.block" >"$work/expected"
    check "cedar list of block $number" gives 0 '' ./cedar list -b "$number" "$night"
done
cp "$work/all" "$work/expected"
check "cedar lines of many blocks" gives 0 '' ./cedar lines "$night"
check "cedar lines of many blocks on standard input" gives 0 '' ./cedar lines - <"$night"
cp example/night-repacked.block "$work/expected"
check "cedar repack" gives 0 '' ./cedar repack "$night"
check "cedar repack of what was repacked" gives 0 '' ./cedar repack example/night-repacked.block
check "the lines of many blocks as one block" gives 0 '' ./cedar block "$work/all"

# One block is a file of blocks, too.
expected '1 2 1002 24 6 30 MLH'
check "cedar list of block 1 of 1" gives 0 '' ./cedar list -b 1 example/k.block
expected 'refused 9 1 1 0'
counts_wrong="Data: a count is under its least value (LPROL 16; JPAR, MPAR, NROW 0), or LTOT is not the sum that the counts give: \
record 1, word 1"
check "cedar list of block 1 of 1, damaged" \
    gives 1 "cedar: example/k-damaged.block: $counts_wrong" ./cedar list -b 1 example/k-damaged.block
check "cedar repack of a damaged block" \
    gives 1 "cedar: example/k-damaged.block: block 1: $counts_wrong" ./cedar repack example/k-damaged.block

# Numbers of blocks that are not there, and calls that take none.
: >"$work/expected"
check "cedar list of block 4 of 3" \
    gives 2 "cedar: $night: there is no block 4: the number of blocks is 3" ./cedar list -b 4 "$night"
check "cedar lines of block 2 of 1" \
    gives 2 'cedar: example/k.block: there is no block 2: the number of blocks is 1' ./cedar lines -b 2 example/k.block
for number in 0 01 -1 x ''; do
    check "cedar list of block '$number'" gives 2 'cedar: -b takes the number of a block, from 1' ./cedar list -b "$number" "$night"
done
page=$(./cedar help)
check "cedar list -b without a number" gives 2 'cedar: -b takes the number of a block, and then FILE' ./cedar list -b "$night"
check "cedar lines -b without a file" gives 2 'cedar: -b takes the number of a block, and then FILE' ./cedar lines -b 1
check "cedar repack -b" gives 2 "$page" ./cedar repack -b 1 "$night"
check "cedar block -b" gives 2 "$page" ./cedar block -b 1 example/k.lines
check "cedar repack of no block" gives 0 '' ./cedar repack "$work/empty"

# refuse FILE REFUSAL SENTENCE: list, lines and repack all give the refusal alone, and say the sentence.
refuse() {
    expected "$2"
    for word in list lines repack; do
        check "cedar $word of $1" gives 1 "cedar: $work/$1: $3" ./cedar "$word" "$work/$1"
    done
}

# after_k FILE BYTES: a file of K and these bytes, as printf reads them.
after_k() {
    {
        cat example/k.block
        printf "$2"
    } >"$work/$1"
}

past='the block runs past the end, or only one byte is left'
first_wrong='word 1, which says how long the block is, is under 18 or over 8,000'
after_k one-byte '\0'
after_k two-bytes '\0\22'
after_k three-bytes '\0\22\0'
after_k under-18 '\0\21'
after_k over-8000 '\37\101'
{
    cat example/k.block "$night"
    head -c 50 example/k.block
} >"$work/cut"
cat example/k.block example/k-damaged.block "$work/one-byte" >"$work/damaged"
for name in one-byte two-bytes three-bytes; do
    refuse "$name" 'refused 51 2 0 0' "block 2: $past"
done
for name in under-18 over-8000; do
    refuse "$name" 'refused 1 0 0 0' "block 2: $first_wrong"
done
{
    printf '\0\22'
    tail -c +3 example/k.block
} >"$work/too-few-words"
refuse too-few-words 'refused 3 0 0 6' 'block 1: the checksum is wrong in 6 of its 16 bits'
refuse cut 'refused 51 5 0 0' "block 5: $past"
refuse damaged 'refused 9 1 1 0' "block 2: $counts_wrong"

# Blocks before the one that is wanted are not judged; what cannot be cut stops the way to it, and is not met before it.
expected '1 2 1002 24 6 30 MLH'
check "cedar list of a block after a damaged one" gives 0 '' ./cedar list -b 3 "$work/damaged"
check "cedar list of a block before a cut one" gives 0 '' ./cedar list -b 2 "$work/cut"
expected 'refused 9 1 1 0'
check "cedar list of a damaged block" gives 1 "cedar: $work/damaged: block 2: $counts_wrong" ./cedar list -b 2 "$work/damaged"
expected 'refused 51 5 0 0'
check "cedar list of a cut block" gives 1 "cedar: $work/cut: block 5: $past" ./cedar list -b 5 "$work/cut"
check "cedar lines of a block after a cut one" gives 1 "cedar: $work/cut: block 5: $past" ./cedar lines -b 7 "$work/cut"
expected 'refused 1 0 0 0'
check "cedar lines of a block after a wrong length" \
    gives 1 "cedar: $work/under-18: block 2: $first_wrong" ./cedar lines -b 3 "$work/under-18"

# A long file with two damaged blocks: the first of them is told.
for number in $(seq 20); do
    cat example/k.block
    case $number in 13 | 17) cat example/k-damaged.block ;; esac
done >"$work/long-damaged"
refuse long-damaged 'refused 9 1 1 0' "block 14: $counts_wrong"

# data WORDS: the lines of a Data record of 21 to 40 words, all of them prologue.
data() {
    printf '%6d' 2 1101 30 1 1983 508 1422 0 1983 508 1422 0 "$1" 0 0 0 0 0 0 0
    printf '\n'
    printf '%6d' $(seq 21 "$1")
    printf '\n'
}

# A record of 7,960 words, as $work/cards has, and one of 38 fill a block; one of 39 is a word too long, before it or after it.
data 38 | ./cedar block - >"$work/38.block"
data 39 | ./cedar block - >"$work/39.block"
cat "$work/cards.block" "$work/38.block" "$work/39.block" "$work/cards.block" >"$work/loose"
expected 'block 1' '1 2 2001 7960 199 30 MLH' '2 7962 1002 38 2 30 MLH' 'block 2' '1 2 1002 39 2 30 MLH' \
    'block 3' '1 2 2001 7960 199 30 MLH'
./cedar repack "$work/loose" >"$work/packed"
check "cedar list of what was repacked" gives 0 '' ./cedar list "$work/packed"

# The most bytes that are repacked, and one more. The others have no such limit, and read a file that is a pipe only once.
{
    cat "$work/cards"
    data 38
} | ./cedar block - >"$work/full"
cat "$work/full" "$work/full" "$work/full" "$work/full" >"$work/64000"
cp "$work/64000" "$work/expected"
check "cedar repack of 64,000 bytes" gives 0 '' ./cedar repack "$work/64000"
{
    cat "$work/64000"
    printf '\0'
} >"$work/64001"
expected 'refused 52 0 0 0'
check "cedar repack of 64,001 bytes" \
    gives 1 "cedar: $work/64001: the blocks are over 64,000 bytes together" ./cedar repack "$work/64001"
check "cedar repack of endless bytes" small gives 1 'cedar: /dev/zero: the blocks are over 64,000 bytes together' ./cedar repack /dev/zero
expected 'refused 51 5 0 0'
check "cedar list of 64,001 bytes" gives 1 "cedar: $work/64001: block 5: $past" ./cedar list "$work/64001"
cat "$work/full" "$night" >"$work/rest"
cat "$work/64000" "$work/rest" >"$work/many"
for number in 1 2 3 4 5; do
    echo "block $number"
    ./cedar list "$work/full"
done >"$work/expected"
./cedar list "$night" | awk '/^block/ { $2 += 5 } { print }' >>"$work/expected"
check "cedar list of 81,152 bytes" gives 0 '' ./cedar list "$work/many"

# piped FILE AFTER COMMAND..: the two files come from a pipe.
piped() {
    file=$1 after=$2
    shift 2
    cat "$file" "$after" 2>/dev/null | "$@"
}

check "cedar list of a pipe with a name" gives 0 '' piped "$work/64000" "$work/rest" ./cedar list /dev/stdin
expected 'refused 1 0 0 0'
check "cedar list of a block and endless bytes" \
    small gives 1 "cedar: standard input: block 2: $first_wrong" piped example/k.block /dev/zero ./cedar list -
{
    printf '\0\0'
    tail -c +3 "$work/64000"
} >"$work/first-wrong"
refuse first-wrong 'refused 1 0 0 0' "block 1: $first_wrong"

# A block taken out of a file is that block, and the blocks so taken are the file: lines and back is the identity.
for number in 1 2 3; do
    ./cedar lines -b "$number" "$night" | ./cedar block -
done >"$work/taken"
check "the blocks of a file, one by one" cmp "$work/taken" "$night"

# onto_itself WORD FILE: the output goes to the file that is read.
onto_itself() {
    ./cedar "$1" "$2" 1<>"$2"
}

for word in list lines repack; do
    cp "$night" "$work/itself"
    check "cedar $word onto its own file" \
        ends 2 "cedar: $work/itself: is also where the output goes, and the shell may have emptied it" onto_itself "$word" "$work/itself"
done
