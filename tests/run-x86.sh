#!/usr/bin/env bash
# Runs a program built for x86-64: as it is on such a machine; elsewhere under the emulator that the Rattle kit has beside
# its compiler, with the kit's loader and C library; or under an emulator on the path. It installs nothing. STACK sets the
# program's stack in bytes. With --ready instead of a program it only says whether there is what it needs.
set -euo pipefail

# the kit's folder for this machine, or its only one, found as rt finds it
kit_tools() {
    local self link
    if [ -z "${RATTLE_HOME:-}" ]; then
        self=$(command -v rt) || return 1
        while [ -L "$self" ]; do
            link=$(readlink "$self")
            case $link in /*) self=$link ;; *) self=$(dirname "$self")/$link ;; esac
        done
        RATTLE_HOME=$(cd "$(dirname "$self")/.." && pwd -P)
    fi
    if [ -d "$RATTLE_HOME/on/$(uname -m)/toolchain" ]; then
        printf '%s\n' "$RATTLE_HOME/on/$(uname -m)/toolchain"
    else
        printf '%s\n' "$RATTLE_HOME/toolchain"
    fi
}

emulator='' loader=/lib64/ld-linux-x86-64.so.2
tools=$(kit_tools) || tools=
if [ "$(uname -m)" != x86_64 ]; then
    if [ -n "$tools" ] && [ -x "$tools/bin/qemu-x86_64" ]; then
        emulator=$tools/bin/qemu-x86_64
    else
        emulator=$(command -v qemu-x86_64-static || command -v qemu-x86_64) || {
            echo "run-x86: programs are built for x86-64, this machine is $(uname -m), and there is no emulator: the Rattle kit has one beside its compiler (put rt on the path), and systems have qemu-x86_64 in the package qemu-user" >&2
            exit 2
        }
    fi
fi

if [ "$1" = --ready ]; then exit; fi

# a program that is not static names its loader near its start
if head -c 4096 "$1" | LC_ALL=C grep -aq "$loader"; then
    if [ -n "$tools" ] && [ -e "$tools/lib/ld-linux-x86-64.so.2" ] && { [ -n "$emulator" ] || [ ! -e "$loader" ]; }; then
        set -- "$tools/lib/ld-linux-x86-64.so.2" --library-path "$tools/lib" "$@"
    elif [ ! -e "$loader" ]; then
        echo "run-x86: $1 needs the C library for x86-64: the Rattle kit has one (put rt on the path), and systems have it in the package libc6:amd64" >&2
        exit 2
    fi
fi

if [ -n "$emulator" ]; then exec "$emulator" ${STACK:+-s "$STACK"} "$@"; fi
if [ -n "${STACK:-}" ]; then ulimit -s $((STACK / 1024)); fi
exec "$@"
