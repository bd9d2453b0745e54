# Sourced by the tests of the library and its programs, which are for x86-64: how to compile and run for it here.
#   CC86 FILES..           the C compiler, whose name is $cc86
#   RUN86 PROGRAM..        runs a program for x86-64
#   need COMMAND PACKAGE   installs what is lacking, as the gate does

need() {
    command -v "$1" > /dev/null && return
    echo "installing $2"
    apt-get update -qq && apt-get install -y -qq "$2" > /dev/null
}

runner86=$PWD/tests/run-x86.sh
RUN86() { "$runner86" "$@"; }

if [ "$(uname -m)" = x86_64 ]; then
    cc86=gcc
    need gcc gcc
    CC86() { gcc "$@"; }
else
    cc86=x86_64-linux-gnu-gcc
    need "$cc86" gcc-x86-64-linux-gnu
    "$runner86" --ready || need qemu-x86_64-static qemu-user-static
    CC86() { "$cc86" -static "$@"; }
fi
