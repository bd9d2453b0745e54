# Sourced by what compares or times: builds the programs that compare and time the library and the second program.
# The library is the one in the folder that BLIST_LIBRARY names, or else the repository's, made if it is missing.

. tests/common/x86.sh
. tests/common/rust86.sh

build_compare() {
    if [ -z "${BLIST_LIBRARY:-}" ]; then
        BLIST_LIBRARY=$PWD/target/staticlib
        [ -e "$BLIST_LIBRARY/libblist.a" ] || make --silent
    fi
    export BLIST_LIBRARY
    CARGO86 build --release --offline --quiet --features library --manifest-path second/compare/Cargo.toml
}

run_compare() { # run_compare PROGRAM ARGUMENT..
    local program=$1
    shift
    RUN86 "second/compare/target/$rust86/release/$program" "$@"
}
