#!/usr/bin/env bash
# The library as its users meet it: made, installed, found by pkg-config, CMake and Cargo, linked from C, C++ and Rust.
set -euo pipefail
. tests/common/x86.sh
. tests/common/rust86.sh
need make make
need pkg-config pkg-config
need nm binutils

work=$PWD/target/library
rm -rf "$work"
mkdir -p "$work"
trap 'find "$work" -type l -delete' EXIT # rt refuses links below the repository
version=$(sed -n 's/^.define BLIST_VERSION "\(.*\)"/\1/p' include/blist.h)
functions=$(sed -n 's/^[a-z].* \**\(blist_[a-z]*\)(.*);$/\1/p' include/blist.h | sort)
strict=(-std=c99 -Wall -Wextra -Wpedantic -Werror -O2)

echo "installed under a relative prefix, a staged one, and moved as a whole"
make --silent
make --silent install PREFIX=target/library/first
make --silent install PREFIX=/usr DESTDIR="$work/staged"
diff <(cd "$work/first" && find . -type f | sort) <(cd "$work/staged/usr" && find . -type f | sort)
if grep -rlI "$work" "$work/first"; then echo "library: the files above name the folder that they were installed in" && exit 1; fi
make --silent uninstall PREFIX=/usr DESTDIR="$work/staged"
test -z "$(find "$work/staged" -type f)"
mv "$work/first" "$work/installed"
export PKG_CONFIG_PATH=$work/installed/lib/pkgconfig
read -ra flags <<< "$(pkg-config --cflags --libs blist)"
archive=$work/installed/lib/libblist.a
test "$("$work/installed/bin/list" -e '1+2*3')" = "$(cat crates/list/stdout)"
test "$("$work/installed/bin/list" --version)" = "list $version"

echo "header, pkg-config file and wrapper have one version"
test "$(pkg-config --modversion blist)" = "$version"
grep -q "^version = \"$version\"$" examples/rust/Cargo.toml
echo "$version" | sed 's/\(.*\)\.\(.*\)\.\(.*\)/\1 \2 \3/' | {
    read -r major minor patch
    printf '#include "blist.h"\n_Static_assert(BLIST_VERSION_MAJOR == %s && BLIST_VERSION_MINOR == %s && BLIST_VERSION_PATCH == %s, "version");\n' \
        "$major" "$minor" "$patch"
} | CC86 -xc -fsyntax-only -Iinclude -

echo "the archive has the functions of the header, no data of its own, and calls nothing but the compiler's own memory functions"
diff <(nm -g --defined-only "$archive" | awk 'NF == 3 { print $2, $3 }' | sort) <(sed 's/^/T /' <<< "$functions")
test -z "$(nm "$archive" | awk '$2 ~ /^[BbCDd]$/')"
test -z "$(nm -u "$archive" | awk 'NF == 2 && $2 !~ /^mem(cpy|set|move|cmp)$/')"

echo "the manual pages have every function and every option"
for function in $functions; do grep -q "$function" "$work/installed/share/man/man3/blist.3"; done
sed -n 's/^    \(--*[a-z][-a-z]*\)).*/\1/p' list | sort -u | while read -r option; do
    sed 's/\\-/-/g' "$work/installed/share/man/man1/list.1" | grep -q -e "^$option " || { echo "library: list.1 has no $option" && exit 1; }
done

echo "C: the smallest program, and calls to the edges of what the header allows"
CC86 "${strict[@]}" examples/c/smallest.c -o "$work/smallest" "${flags[@]}"
RUN86 "$work/smallest" | diff - examples/c/smallest.out
CC86 "${strict[@]}" tests/library/calls.c -o "$work/calls" "${flags[@]}"
RUN86 "$work/calls"
echo "the stack that compiling takes"
CC86 -std=gnu11 -Wall -Wextra -Werror -O2 tests/library/stack.c -o "$work/stack" "${flags[@]}" -lpthread
RUN86 "$work/stack" | tee "$work/taken"
told=$(sed -n 's/.*worst that was found, take \([0-9,]*\) bytes.*/\1/p' include/blist.h | tr -d ,)
most=$(awk '$1 > most { most = $1 } END { print most }' "$work/taken")
if ((most > told + 64)); then echo "library: blist.h tells $told bytes of stack, and it took $most" && exit 1; fi # what the call itself takes is the C compiler's
for standard in c99 c11 c17; do CC86 -xc -std=$standard -Wall -Wextra -Wpedantic -Werror -fsyntax-only include/blist.h; done
if command -v g++ > /dev/null; then g++ -xc++ -std=c++11 -Wall -Wextra -Wpedantic -Werror -fsyntax-only include/blist.h; fi

echo "Rust: the wrapper over the installed library, its tests, and the smallest program"
export CARGO_TARGET_DIR=$work/rust CARGO_TARGET_X86_64_UNKNOWN_LINUX_GNU_RUNNER=$runner86
cargo=(--release --offline --quiet --manifest-path examples/rust/Cargo.toml)
CARGO86 test "${cargo[@]}"
CARGO86 run "${cargo[@]}" --bin smallest | diff - examples/c/smallest.out
grep -rlF "native=$work/installed/lib/pkgconfig/../../lib" "$work/rust" > /dev/null

if command -v cmake > /dev/null; then
    echo "CMake: find_package"
    mkdir -p "$work/cmake"
    printf '%s\n' 'cmake_minimum_required(VERSION 3.10)' 'project(smallest C)' "find_package(blist $version REQUIRED)" \
        "add_executable(smallest $PWD/examples/c/smallest.c)" 'target_link_libraries(smallest blist::blist)' > "$work/cmake/CMakeLists.txt"
    static=
    [ "$cc86" = gcc ] || static=-static
    cmake -S "$work/cmake" -B "$work/cmake/build" -DCMAKE_C_COMPILER="$cc86" -DCMAKE_PREFIX_PATH="$work/installed" \
        -DCMAKE_EXE_LINKER_FLAGS="$static" > "$work/cmake/said"
    cmake --build "$work/cmake/build" >> "$work/cmake/said"
    RUN86 "$work/cmake/build/smallest" | diff - examples/c/smallest.out
else
    echo "CMake is not here, and find_package is not tried"
fi

if [ "$cc86" = gcc ]; then
    echo "the shared library"
    make --silent install-shared PREFIX="$work/shared"
    PKG_CONFIG_PATH=$work/shared/lib/pkgconfig
    read -ra flags <<< "$(pkg-config --cflags --libs blist)"
    gcc "${strict[@]}" examples/c/smallest.c -o "$work/with-shared" "${flags[@]}" -Wl,-rpath,"$work/shared/lib"
    "$work/with-shared" | diff - examples/c/smallest.out
    readelf -d "$work/with-shared" | grep -qF "libblist.so.${version%.*}]"
else
    echo "the shared library is not tried: what is compiled for x86-64 here is linked statically"
fi

echo "the pictures of README are those that the program draws"
bash examples/c/pictures.sh --check docs/pictures 2> /dev/null
echo "library: ok"
