# What ./cedar does with names, inputs, outputs and signals. Sourced by host/programs, whose functions it uses.

# Names, from another folder and by a link.
mkdir "$work/names"
ln -s "$PWD/cedar" "$work/names/link"
newline='
'

# lists NAME: K, under this name.
lists() {
    cp example/k.block "$work/names/$1"
    (cd "$work/names" && ends 0 '' ./link list "$1") && [ "$(cat "$work/found")" = '1 2 1002 24 6 30 MLH' ]
}

for name in 'a b' -x "a${newline}b" 'a\tb' '*'; do
    check "cedar list of a file named $name" lists "$name"
done
cp "$work/empty" "$work/names/a\\tb"
expect_sentence block "$work/names/a\\tb" 'the text has no record'
check "what cedar says of standard input" ends 1 'cedar: standard input: the text has no record' ./cedar block - </dev/null
check "what cedar says of no standard input" ends 2 'cedar: standard input: cannot be read: it is closed' ./cedar list - <&-
check "what cedar says of no name" ends 2 "cedar: the file's name is empty" ./cedar list ''
check "what cedar says of a missing file" ends 2 "cedar: $work/missing: cannot be read: No such file or directory" \
    env LC_ALL=C ./cedar list "$work/missing"
check "what cedar says of a missing TMPDIR" ends 2 "cedar: cannot make a temporary folder in $work/missing" \
    env TMPDIR="$work/missing" ./cedar list example/k.block

# asks_help WORD: the word gives the page that `help` gives.
asks_help() {
    ends 0 '' ./cedar "$1" && ./cedar help | cmp - "$work/found"
}

check "cedar -h" asks_help -h
check "cedar --help" asks_help --help

# small COMMAND..: where no file can grow past some 100 KB, which a copy of endless bytes would.
small() {
    (
        ulimit -f 200
        "$@"
    )
}

echo 'refused 1 0 0 0' >"$work/refused"
check "cedar list of endless bytes" small writes 1 list /dev/zero "$work/refused"
check "cedar lines of endless bytes" small writes 1 lines /dev/zero "$work/refused"
echo 'refused 30 0 0 0' >"$work/refused"
check "cedar block of endless bytes" small writes 1 block /dev/zero "$work/refused"

# on_terminal COMMAND..: the other end of a terminal is one, too.
on_terminal() {
    "$@" >/dev/ptmx
}

if on_terminal test -t 1 2>/dev/null; then
    for word in check list; do
        check "cedar $word to a terminal" ends 0 '' on_terminal ./cedar "$word" example/k.block
    done
    for word in block repack; do
        check "cedar $word to a terminal" ends 2 'cedar: a block is binary; send it to a file' on_terminal ./cedar "$word" example/k.lines
    done
fi

# A block of 438 bytes that has 1,504 bytes of lines: 200 rows of one value.
{
    printf '%6d' 202 1101 30 1 1983 508 1422 0 1983 508 1422 0 16 0 1 200
    printf '\n%6d' $(seq 201)
} >"$work/rows"
./cedar block "$work/rows" >"$work/rows.block"

# fills_up: where a file has room for the block and not for its lines, the call fails.
fills_up() {
    (
        trap '' XFSZ
        ulimit -f 1
        exec ./cedar lines "$work/rows.block" >/dev/null 2>&1
    )
    [ $? -eq 2 ]
}

check "cedar lines of rows" ends 0 '' ./cedar lines "$work/rows.block"
check "cedar lines without room" fills_up

# stopped STATUS SIGNAL SHELL WORD: how a call that waits for its input ends on the signal. Its temporary folder is gone then.
stopped() {
    TMPDIR=$work/room timeout --foreground --preserve-status -s KILL 20 "$3" ./cedar "$4" - <&4 &
    tries=0
    until [ -n "$(find "$work/room" -name in)" ] || [ $((tries += 1)) -gt 100 ]; do sleep 0.1; done
    kill -s "$2" $!
    wait $!
    ended=$?
    [ "$ended" -eq "$1" ] && [ -z "$(ls "$work/room")" ] && return
    echo "status $ended, and there is still: $(ls "$work/room")"
    rm -rf "$work"/room/*
    return 1
}

mkdir "$work/room"
mkfifo "$work/idle"
exec 4<>"$work/idle"
for shell in sh bash; do
    command -v "$shell" >/dev/null || continue
    for word in check list; do
        check "cedar $word in $shell, hung up" stopped 129 HUP "$shell" "$word"
        check "cedar $word in $shell, interrupted" stopped 130 INT "$shell" "$word"
        check "cedar $word in $shell, ended" stopped 143 TERM "$shell" "$word"
    done
done
exec 4<&-
