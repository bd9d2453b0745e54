#!/usr/bin/env bash
# The listing program and the script that runs it, where something goes wrong: input that is closed, a folder or too long, output
# that is full or closed; and the script's options, statuses and explanations, from other folders and through links.
set -euo pipefail
. tests/common/x86.sh

work=$PWD/target/list-test
rm -rf "$work"
mkdir -p "$work/folder"
trap 'rm -rf "$work/bare"; find "$work" -type l -delete' EXIT # rt refuses links below the repository, and a second crates.txt
test -x target/bin/list || { echo "list: target/bin/list is not built"; exit 1; }
touch target/bin/list # as new as its sources, which the prover has just read

program() { RUN86 target/bin/list "$@"; }
failed=0
# expect NAME STATUS OUTPUT ERRORS COMMAND..: STATUS - stands for any: the program's own is nought also in trouble, and the script's counts
expect() {
    local name=$1 status=$2 output=$3 errors=$4 got=0
    shift 4
    "$@" > "$work/out" 2> "$work/err" || got=$?
    if { [ "$status" != - ] && [ "$got" != "$status" ]; } || [ "$(< "$work/out")" != "$output" ] || [ "$(< "$work/err")" != "$errors" ]; then
        echo "list: $name: status $got, wrote '$(< "$work/out")', said '$(< "$work/err")'"
        failed=1
    fi
}

five=$'gates 1 labels 2\n0 5 + 0 0 1\ntrue 0 false 1'
unread='list: cannot read standard input'
unwritten='list: cannot write standard output'
long() { head -c 16385 /dev/zero | tr '\0' ' '; }
for list in program ./list; do
    if [ "$list" = program ]; then table=0 refusal=0 trouble=- ; else table=0 refusal=1 trouble=2; fi
    at() { printf '%s' "$1" | "$list"; }
    closed_in() { "$list" <&-; }
    folder_in() { "$list" < "$work/folder"; }
    too_long() { long | "$list"; }
    longest() { long | tail -c +3 | { printf 5; cat; } | "$list"; }
    endless() { "$list" < <(yes '5+'); }
    full() { printf 5 | "$list" > /dev/full; }
    closed_out() { printf 5 | "$list" >&-; }
    slow() { { printf 1; sleep 0.2; printf 0; sleep 0.2; } | "$list"; }
    expect "$list: a table" $table "$five" '' at 5
    expect "$list: a refusal" $refusal 'refused 5 at 0' '' at ''
    expect "$list: input in pieces" $table "${five/ 5 / 10 }" '' slow
    expect "$list: closed input" $trouble '' "$unread" closed_in
    expect "$list: a folder as input" $trouble '' "$unread" folder_in
    expect "$list: 16,385 bytes" $refusal 'refused 1 at 16384' '' too_long
    expect "$list: 16,384 bytes" $table "$five" '' longest
    expect "$list: input without end" $refusal 'refused 1 at 16384' '' endless
    expect "$list: a full disk" $trouble '' "$unwritten" full
    expect "$list: closed output" $trouble '' "$unwritten" closed_out
done

# a terminal: one end of input, typed once, ends it
need python3 python3
for command in "$runner86 target/bin/list" ./list; do
    got=$(python3 - $command << 'PY'
import os, pty, subprocess, sys
ours, theirs = pty.openpty()
program = subprocess.Popen(sys.argv[1:], stdin=theirs, stdout=subprocess.PIPE, text=True)
os.write(ours, b'5\n\x04')
try:
    print(program.communicate(timeout=60)[0], end='')
except subprocess.TimeoutExpired:
    program.kill()
    print('it waits for more')
PY
    )
    if [ "$got" != "$five" ]; then echo "list: $command at a terminal: $got" && failed=1; fi
done

# the script alone
printf '1+\n(2*&)\n' > "$work/text"
explained="list: line 2, column 4: $(sed -n 's/.*"\(The text has a byte that is not allowed.*\)"$/\1/p' include/blist.h)only digits, + * - ! ( ) space and newline may stand there."$'\n''    (2*&)'$'\n''       ^'
ended='list: line 1, column 3: The text is not an expression. Up to the place given it could still become one; mend what stands there.'$'\n''    1+'$'\n''      ^'
expect 'a file' 1 'refused 2 at 6' '' ./list "$work/text"
expect 'a refusal explained' 1 'refused 2 at 6' "$explained" ./list --explain "$work/text"
expect 'an end explained' 1 'refused 5 at 2' "$ended" ./list --explain -e '1+'
expect 'a table explained' 0 "$five" '' ./list --explain -e 5
expect 'an empty text' 1 'refused 5 at 0' '' ./list -e ''
expect 'a file that is none' 2 '' "list: cannot read $work/none" ./list "$work/none"
expect 'a folder' 2 '' "list: $work/folder is a folder" ./list "$work/folder"
expect 'no such option' 2 '' 'list: --nothing is no option (list --help)' ./list --nothing
expect 'an option without its text' 2 '' 'list: -e wants a text (list --help)' ./list -e
expect 'two files' 2 '' 'list: more than one file (list --help)' ./list a b
expect 'the version' 0 "list $(sed -n 's/^.define BLIST_VERSION "\(.*\)"/\1/p' include/blist.h)" '' ./list --version
./list --help | grep -q '^usage:'
ln -s "$PWD/list" "$work/folder/first"
ln -s folder/first "$work/second"
elsewhere() { (cd "$work/folder" && ../second -e 5); }
expect 'from another folder, through two links' 0 "$five" '' elsewhere

# every refusal that a text can give has its sentence in an explanation
for number in 1 2 3 4 5 6; do
    case $number in
    1) long > "$work/text" ;;
    2) printf '&' > "$work/text" ;;
    3) printf '1024' > "$work/text" ;;
    4) printf '(%.0s' {0..64} > "$work/text" ;;
    5) printf ')' > "$work/text" ;;
    6) printf '1+%.0s' {0..1024} > "$work/text" && printf 1 >> "$work/text" ;;
    esac
    got=0
    ./list --explain "$work/text" > "$work/out" 2> "$work/err" || got=$?
    if [ "$got" != 1 ] || ! grep -q "^refused $number at " "$work/out" || ! head -n 1 "$work/err" | grep -Eq '^list: line 1, column [0-9]+: [A-Z].*\.$'; then
        echo "list: refusal $number is not explained: $(< "$work/out") $(head -n 1 "$work/err")"
        failed=1
    fi
done

# what is missing is said: no prover, and no program that could run without one
bare() { (mkdir -p "$work/bare/crates" && cp list crates.txt "$work/bare" && cd "$work/bare" && PATH=/usr/bin:/bin ./list -e 5); }
if ! PATH=/usr/bin:/bin command -v rt > /dev/null; then
    expect 'no rt' 2 '' 'list: rt, the Rattle toolchain, is not on the path. It stands in the folder bin of the Rattle kit: add that folder to PATH' bare
fi

# a program that the prover refuses: its words are shown
refused() { (PATH=$work/fake:$PATH && cd "$work/bare" && ./list -e 5); }
mkdir -p "$work/fake" "$work/bare"
printf '#!/bin/sh\necho "the words of the prover"\necho "rt: list NOT PROVED (exit 1, 0 s)"\nexit 1\n' > "$work/fake/rt"
chmod +x "$work/fake/rt"
cp list crates.txt "$work/bare"
mkdir -p "$work/bare/crates/list"
got=0
refused > "$work/out" 2> "$work/err" || got=$?
if [ "$got" != 2 ] || [ -s "$work/out" ] || ! grep -q '^the words of the prover$' "$work/err"; then
    echo "list: a program that is not proved: status $got, said '$(< "$work/err")'"
    failed=1
fi
# another processor, played on this one: the kit's emulator and loader run the program, and without an emulator that is said
if [ "$(uname -m)" = x86_64 ] && command -v rt > /dev/null; then
    real=$(readlink -f "$(command -v rt)")
    tools=$work/kit/on/aarch64/toolchain
    mkdir -p "$tools/bin" "$work/other"
    ln -s "$(dirname "$(dirname "$real")")/toolchain/lib" "$tools/lib"
    printf '#!/bin/sh\necho aarch64\n' > "$work/other/uname"
    printf '#!/bin/sh\n[ "$1" != -s ] || shift 2\necho "$1" >> "%s/emulated"\nexec "$@"\n' "$work" > "$tools/bin/qemu-x86_64"
    chmod +x "$work/other/uname" "$tools/bin/qemu-x86_64"
    emulated() { PATH=$work/other:$PATH RATTLE_HOME=$work/kit STACK=1048576 ./list -e 5; }
    expect 'the emulator of the kit' 0 "$five" '' emulated
    expect 'the loader of the kit' 0 "$tools/lib/ld-linux-x86-64.so.2" '' cat "$work/emulated"
    rm "$tools/bin/qemu-x86_64"
    no_emulator() { PATH=$work/other:/usr/bin:/bin RATTLE_HOME=$work/kit ./list -e 5 2>&1 | grep -o 'there is no emulator: the Rattle kit has one'; }
    if ! PATH=/usr/bin:/bin command -v qemu-x86_64 qemu-x86_64-static > /dev/null; then
        expect 'no emulator' 2 'there is no emulator: the Rattle kit has one' '' no_emulator
    fi
fi
[ "$failed" = 0 ]
echo "list: ok"
