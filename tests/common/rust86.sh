# Sourced behind x86.sh: Rust for x86-64.
#   CARGO86 COMMAND..  cargo; a package's programs come to its target/$rust86/release, for RUN86

rust86=x86_64-unknown-linux-gnu

need_rust86() { # a Rust that compiles for x86-64, and what its programs run with, on another processor
    [ -d "/usr/lib/rustlib/$rust86/lib" ] && [ -x /usr/bin/cargo ] && return
    echo "installing Rust for x86-64"
    dpkg --add-architecture amd64
    apt-get update -qq && apt-get install -y -qq rustc cargo libstd-rust-dev:amd64 > /dev/null
}

if [ "$(uname -m)" = x86_64 ]; then
    CARGO86() { cargo "$@" --target "$rust86"; }
else
    CARGO86() {
        need_rust86
        RUSTC=/usr/bin/rustc CARGO_TARGET_X86_64_UNKNOWN_LINUX_GNU_LINKER=x86_64-linux-gnu-gcc \
            /usr/bin/cargo "$@" --target "$rust86"
    }
fi
