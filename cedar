#!/bin/sh
# The proved programs, on the command line. `./cedar help` says how.
set -u
home=$(cd "$(dirname "$(readlink -f -- "$0")")" && pwd) || exit 2
notes=$home/target/cedar

usage() {
    cat <<'END'
usage: cedar check [-b N] FILE   whether the lines or the block in FILE are good: how many
                                 bytes the block has, or the refusal; nothing is made of it
       cedar list [-b N] FILE    a line for each record of the block in FILE: number,
                                 position, kind, words, lines, instrument, prefix
       cedar lines [-b N] FILE   the block in FILE as character lines
       cedar block FILE          the character lines in FILE as a block
       cedar repack FILE         the records of the blocks in FILE, in their order, in as few
                                 blocks as possible; FILE has at most 64,000 bytes, or none
       cedar help                this page
FILE may have many blocks, one after the other. check, list and lines then take all of them,
list with a line `block N` before each. With -b they take block N alone, and judge no other;
it is found by the first words of those before it. FILE is taken as one block unless its
first word says that a block ends inside it.
check takes FILE as blocks if one of its first six bytes is a control character that no text
has (0 to 8, 11, 12, 14 to 31), else as lines, and says which; for a good FILE that is never
wrong. list judges any FILE as blocks, block any as lines. What lines look like is told in
include/cedar.h.
FILE - is standard input. What is refused gives one line, `refused` and its four numbers,
and on standard error what they mean and where to look. Send the output to another file than
FILE, which the shell would empty first.
Exit status: 0 all is written; 1 refused; 2 the call is wrong, or a file cannot be read or
written, or a program cannot be built. Keep the output only where the status is 0.
END
}

say() {
    printf 'cedar: %s\n' "$*" >&2
}

die() {
    say "$*"
    exit 2
}

# sum FILE..: of the files, and those in folders, but for what rt makes there.
sum() {
    (cd "$home" && find "$@" -regex 'crates/[^/]*/out' -prune -o -type f -exec cksum {} + | LC_ALL=C sort | cksum)
}

# is_built PROGRAM: from the crates as they are now. Their times would not tell: a copy of them has new ones.
is_built() {
    [ -x "$home/target/bin/$1" ] && [ -r "$notes/$1.sums" ] &&
        [ "$(sum crates crates.txt) $(sum "target/bin/$1")" = "$(cat "$notes/$1.sums")" ]
}

# can_write: all of target/, and where rt makes things.
can_write() {
    mkdir -p "$notes" 2>/dev/null &&
        [ -z "$(cd "$home" && find target crates -regex 'crates/[^/]*/[^/]*' ! -name out -prune -o ! -writable -print 2>&1)" ]
}

# prove PROGRAM: also compiles it, and runs it on nothing. One call at a time: two in a pipe may both have to.
prove() {
    (flock 9 && cd "$home/crates/$1" && rt run </dev/null >"$notes/$1.log" 2>&1) 9>"$notes/lock" && return
    tail -n 20 "$notes/$1.log" >&2
    return 1
}

# take PROGRAM: to where it stays whatever rt does in its crate.
take() {
    mkdir -p "$home/target/bin" && cp --remove-destination "$home/crates/$1/out/$1" "$home/target/bin/" 2>/dev/null
}

# build PROGRAM: unless that is done.
build() {
    is_built "$1" && return
    command -v rt >/dev/null || die "the Rattle kit's rt is needed to build $1"
    can_write || die "$1 is still to be built, by a call of somebody who may write to $home/target and $home/crates"
    crates=$(sum crates crates.txt)
    say "proving and building $1, which may take some minutes"
    prove "$1" || die "$1 cannot be built; $notes/$1.log says all"
    take "$1" || die "$1 is proved but gone; remove $home/crates/$1/out and try again"
    echo "$crates $(sum "target/bin/$1")" >"$notes/$1.sums"
}

# find_tools: programs are for x86-64; on another machine the kit's emulator and C library run them.
find_tools() {
    tools=
    [ "$(uname -m)" = x86_64 ] || tools=$(dirname "$(rt doc)")/on/$(uname -m)/toolchain
}

# run PROGRAM
run() {
    if [ -z "$tools" ]; then
        "$home/target/bin/$1"
    else
        "$tools/bin/qemu-x86_64" "$tools/lib/ld-linux-x86-64.so.2" --library-path "$tools/lib" "$home/target/bin/$1"
    fi
}

# clean: at the end, also after a signal.
clean() {
    [ -z "$copying" ] || kill "$copying" 2>/dev/null
    rm -rf "$work"
}

# make_room: a temporary folder for as long as the call takes.
make_room() {
    copying='' work=''
    trap clean EXIT
    trap 'exit 129' HUP
    trap 'exit 130' INT
    trap 'exit 143' TERM
    work=$(mktemp -d 2>/dev/null) || die "cannot make a temporary folder in ${TMPDIR:-/tmp}"
}

# open FILE: once, since a pipe does not give its bytes again.
open() {
    if [ "$1" = - ]; then
        { command exec 3<&0; } 2>/dev/null || die "$name: cannot be read: it is closed"
    else
        { command exec 3<"$1"; } 2>/dev/null || die "$name: cannot be read: $(cat -- "$1" 2>&1 >/dev/null | sed 's/.*: //')"
        [ ! -f "$1" ] || [ ! "$1" -ef /dev/stdout ] || die "$name: is also where the output goes, and the shell may have emptied it"
    fi
}

# copy COMMAND..: what the command reads of the file; it says why a file cannot be read.
copy() {
    # A shell that waits hears a signal at once.
    "$@" <&3 >>"$work/in" 2>"$work/why" &
    copying=$!
    wait "$copying" || die "$name: cannot be read: $(sed 's/.*: //' "$work/why")"
    copying=
}

# answer PROGRAM INPUT OUTPUT: what it writes, through cat, which tells a file that cannot be written from a program that fails.
answer() {
    { run "$1" <"$2" || : >"$work/failed"; } | cat >"$3" || die "$3 cannot be written"
    [ ! -e "$work/failed" ] || die "$name: $1 did not run"
}

# is_refused OUTPUT: nothing else begins so: a block that did would have more than 8,000 words.
is_refused() {
    head -c 8 "$1" | grep -q '^refused '
}

# cut_up: finds the blocks by their first words. A line for each: its number, the words before it, its words. Where a block
# cannot be cut, the last line is its number and the refusal that repack gives.
cut_up() {
    od -A n -v -t u1 "$work/in" | awk '
        !fault && start < at + int(NF / 2) {
            if (cut != "") print cut
            i = 2 * (start - at) + 1
            count = 256 * $i + $(i + 1)
            cut = ++number " " start + 0 " " count
            if (count >= 18 && count <= 8000) start += count
            else { fault = "refused 1 0 0 0"; cut = "" }
        }
        { at += int(NF / 2); odd = NF % 2 }
        END {
            if (start > at) { fault = "refused 51 " number " 0 0"; cut = "" }
            if (cut != "") print cut
            if (!fault && odd) fault = "refused 51 " (number += 1) " 0 0"
            if (fault) print number, fault
        }' >"$work/cuts" || die "$work/cuts cannot be written"
}

# cuts: how many.
cuts() {
    echo $(($(wc -l <"$work/cuts")))
}

# choose N: of the cuts leaves that of block N, or the one that ends the way there.
choose() {
    awk -v n="$1" '$1 == n || $2 == "refused" { print; exit }' "$work/cuts" >"$work/chosen" || die "$work/chosen cannot be written"
    [ -s "$work/chosen" ] || die "$name: there is no block $1: the number of blocks is $(cuts)"
    mv "$work/chosen" "$work/cuts"
}

# heading PROGRAM: what tells the records of one block from those of the next.
heading() {
    [ "$1" != listing ] || [ -n "$only" ] || echo "block $number"
}

# each PROGRAM: what it writes for each of the cuts, or the first refusal alone.
each() {
    while read -r number start count; do
        if [ "$start" = refused ]; then
            echo "refused $count" >"$work/out"
            return
        fi
        dd ibs=2 obs=16000 skip="$start" count="$count" if="$work/in" of="$work/block" 2>/dev/null ||
            die "$work/block cannot be written"
        answer "$1" "$work/block" "$work/part"
        if is_refused "$work/part"; then
            mv "$work/part" "$work/out"
            return
        fi
        { heading "$1" && cat "$work/part"; } >>"$work/out" || die "$work/out cannot be written"
    done <"$work/cuts"
}

# blocks PROGRAM: what it writes for a file of one block or many; a file that does not go on after its first block is one.
blocks() {
    cut_up
    # Only where a block may go on is the rest worth reading: a device has no end.
    if grep -q ' refused 51 ' "$work/cuts"; then
        copy cat
        cut_up
    fi
    if [ "$(cuts)" -le 1 ] && [ "${only:-1}" = 1 ]; then
        answer "$1" "$work/in" "$work/out"
        # So many bytes are not one block, though only the first can be found.
        [ "$(wc -c <"$work/in")" -le 16000 ] || number=1
        return
    fi
    [ -z "$only" ] || choose "$only"
    each "$1"
}

# find_block: the block that repack refuses, by halving: the last one of the shortest beginning of the file that is refused.
find_block() {
    grep -q '^refused [1-9] ' "$work/out" || return 0
    cut_up
    least=1 number=$(cuts)
    while [ "$least" -lt "$number" ]; do
        middle=$(((least + number) / 2))
        bytes=$(awk -v n="$middle" '$1 == n { print 2 * ($2 + $3) }' "$work/cuts")
        head -c "$bytes" "$work/in" >"$work/block" || die "$work/block cannot be written"
        answer repack "$work/block" "$work/part"
        if is_refused "$work/part"; then number=$middle; else least=$((middle + 1)); fi
    done
}

# is_text: none of the first six bytes is a control character that no text has. A good block's fifth is: 3, 7 or 11, of its first
# record's kind.
is_text() {
    [ "$(head -c 6 "$work/in" | LC_ALL=C tr -d '\11\12\15\40-\377' | wc -c)" -eq 0 ]
}

# shorten COMMAND..: keeps of what a program wrote only what the command makes of it, or the refusal.
shorten() {
    is_refused "$work/out" && return
    "$@" <"$work/out" >"$work/part" || die "$work/part cannot be written"
    mv "$work/part" "$work/out"
}

# judge_lines: the size of their block.
judge_lines() {
    taken=', taken as lines'
    [ -z "$only" ] || die "$name$taken: there is no block $only"
    answer check_lines "$work/in" "$work/out"
    shorten sed 's/.*/lines: block of & bytes/'
}

# sum_up: a listing, in which one block alone has no heading. Each block has two words beside its records.
sum_up() {
    awk '
        /^block / { blocks++; next }
        { records++; words += $4 }
        END {
            what = blocks ? blocks " blocks" : "block"
            bytes = 2 * words + 4 * (blocks ? blocks : 1)
            print what ": " bytes " bytes, " records " record" (records == 1 ? "" : "s")
        }'
}

# judge_blocks: their size and the count of their records.
judge_blocks() {
    blocks listing
    taken=', taken as a block'
    [ -z "$number" ] || taken=', taken as blocks'
    shorten sum_up
}

# judge: by what the file looks like.
judge() {
    if is_text; then judge_lines; else judge_blocks; fi
}

# told PROGRAM FILE: passes on what the program writes, and its refusal as the exit status.
told() {
    name=$2 number='' taken=''
    [ "$2" != - ] || name='standard input'
    build "$1"
    # Only what it reads tells whether check needs the other one.
    [ "$1" != check_lines ] || build listing
    find_tools
    make_room
    open "$2"
    # As much as the programs read of any file.
    copy head -c 65537
    case $1 in
    check_lines) judge ;;
    listing | block_to_lines) blocks "$1" ;;
    *) answer "$1" "$work/in" "$work/out" ;;
    esac
    cat "$work/out" || exit 2
    is_refused "$work/out" || return 0
    [ "$1" != repack ] || find_block
    say "$name$taken: $(explain "$(cat "$work/out")" "$number")"
    return 1
}

# explain REFUSAL BLOCK: the line of a refusal as a sentence for a person: what it means, and where to look. The number of the
# block may be empty.
explain() {
    awk -F '\t' -v refusal="$1" -v block="$2" '
        BEGIN { split(refusal, number, " ") }
        # A block that was cut by its first word is refused so for that word alone.
        block != "" && $1 == 1 { $3 = "word 1, which says how long the block is, is under 18 or over 8,000" }
        $1 == number[2] {
            if ($2 == "record") place = ": record " number[3] ", word " number[4]
            if ($2 == "line") place = ": line " number[3] ", column " number[4]
            if ($2 == "bits") place = " in " number[5] " of its 16 bits"
            if ($2 == "bytes") place = ": " number[3] " bytes"
            if ($2 == "word") place = ", which is " number[3]
            if ($2 == "block") block = number[3]
            if (block != "") printf "block %s: ", block
            print $3 place
        }' "$home/include/refusals.txt"
}

only=
case ${1-} in
help | -h | --help)
    usage
    exit
    ;;
check) program=check_lines ;;
list) program=listing ;;
lines) program=block_to_lines ;;
block) program=lines_to_block ;;
repack) program=repack ;;
*) program= ;;
esac
case "${1-} ${2-}" in
'check -b' | 'list -b' | 'lines -b')
    [ $# -eq 4 ] || die "-b takes the number of a block, and then FILE"
    only=$3
    case $only in '' | 0* | *[!0-9]*) die "-b takes the number of a block, from 1" ;; esac
    shift 2
    ;;
esac
if [ -z "$program" ] || [ $# -ne 2 ]; then
    usage >&2
    exit 2
fi
[ -n "$2" ] || die "the file's name is empty"
case $program in
lines_to_block | repack) [ ! -t 1 ] || die "a block is binary; send it to a file" ;;
esac
told "$program" "$2"
