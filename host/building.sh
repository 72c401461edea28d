# How ./cedar builds a program. Sourced by host/programs, whose functions it uses.
# The clone has one small crate, and the kit builds a program that says what no real one does, refusal 43.
kit=$work/kit clone=$work/clone
mkdir -p "$kit/bin" "$kit/on/$(uname -m)/toolchain/bin" "$clone/crates/listing" "$clone/crates/check_lines" \
    "$clone/crates/block_to_lines" "$clone/crates/lines_to_block" "$work/open"
chmod 755 "$work"
chmod 777 "$work/open"
cp -r cedar include "$clone"
echo 1 >"$clone/crates/crate"
echo crate: >"$clone/crates.txt"

cat >"$kit/bin/rt" <<END
#!/bin/sh
[ "\$1" != doc ] || exec echo "$kit/guide"
name=\$(basename "\$PWD")
echo "what rt says of \$name"
mkdir "$kit/busy" || exit 1
sleep 0.2
rmdir "$kit/busy"
[ ! -e "$kit/ends" ] || exit "\$(cat "$kit/ends")"
mkdir -p out && cp "$kit/program" "out/\$name"
END
printf '#!/bin/sh\necho refused 43 900 0 0\n' >"$kit/program"
# Where programs are emulated: the loader, its flag and the library come before the program.
printf '#!/bin/sh\nshift 3\nexec "$@"\n' >"$kit/on/$(uname -m)/toolchain/bin/qemu-x86_64"
chmod 755 "$kit/bin/rt" "$kit/program" "$kit/on/$(uname -m)/toolchain/bin/qemu-x86_64"

# call WORD [COMMAND..]: the clone's cedar, by way of the command.
call() {
    verb=$1
    shift
    "$@" env PATH="$kit/bin:$PATH" TMPDIR="$work/open" "$clone/cedar" "$verb" - </dev/null
}

# as_other COMMAND..: by somebody who may not write to the clone.
as_other() {
    if [ "$(id -u)" -eq 0 ]; then
        setpriv --reuid=65534 --regid=65534 --clear-groups "$@"
        return
    fi
    chmod -R a-w "$clone"
    "$@"
    ended=$?
    chmod -R u+w "$clone"
    return "$ended"
}

# Both build, at the same time.
together() {
    call lines >/dev/null 2>&1 &
    call block >/dev/null 2>&1
    first=$?
    wait $!
    [ $? -eq 1 ] && [ "$first" -eq 1 ]
}

answer='cedar: standard input: the old value is not what stands there, which is 900'
building='cedar: proving and building listing, which may take some minutes'
check "a call that builds" ends 1 "$building$newline$answer" call list
check "what rt said, in a file" grep -q '^what rt says of listing$' "$clone/target/cedar/listing.log"
check "a call once that is built" ends 1 "$answer" call list
touch "$clone/crates/crate"
check "a call once the crates have new times" ends 1 "$answer" call list
check "a call by another user" ends 1 "$answer" call list as_other
echo 2 >"$clone/crates/crate"
check "a call by another user, with changed crates" \
    ends 2 "cedar: listing is still to be built, by a call of somebody who may write to $clone/target and $clone/crates" call list as_other
check "a call with changed crates" ends 1 "$building$newline$answer" call list
echo >>"$clone/target/bin/listing"
check "a call with a changed program" ends 1 "$building$newline$answer" call list
check "two calls at once" together
rm -r "$clone/target"
check "a check, which builds what it needs for lines and for blocks" \
    ends 1 "cedar: proving and building check_lines, which may take some minutes$newline$building${newline}\
cedar: standard input, taken as lines: the old value is not what stands there, which is 900" call check

rm "$clone/target/bin/listing" "$clone/crates/listing/out/listing"
echo 0 >"$kit/ends"
check "a call whose program is gone" \
    ends 2 "$building${newline}cedar: listing is proved but gone; remove $clone/crates/listing/out and try again" call list
echo 1 >"$kit/ends"
check "a call that cannot build" ends 2 "$building${newline}what rt says of listing${newline}cedar: listing cannot be built; \
$clone/target/cedar/listing.log says all" call list
rm "$kit/ends"
printf '#!/bin/sh\nexit 3\n' >"$kit/program"
check "a call whose program fails" ends 2 "$building${newline}cedar: standard input: listing did not run" call list
