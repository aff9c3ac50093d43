#!/bin/sh
# Builds the library for other languages, runs the examples in C, Python and Rust and the tests of the packages, and has `ring_tool
# check` judge each history that was saved; with -v it prints what the C program measures, too. trials/sanitizers.sh runs the programs
# in C under sanitizers. Word: a `ring_tool` that judges in place of one that is proved and built here. PYTHONS names interpreters to
# try in place of python3. Needs rt, a C and a C++ compiler, Python 3.8 or later and cargo.
set -eu
. "$(dirname "$0")/../tools/common.sh"
measure=
[ "${1:-}" != -v ] || { measure=1; shift; }
tool=${1:-}
[ -n "$tool" ] || { build ring_tool --help; tool=$top/crates/ring_tool/out/ring_tool; }
case $tool in /*) ;; *) tool=$PWD/$tool ;; esac

echo "proving and building wozgirt_c"
(cd "$top/crates/wozgirt_c" && rt lib >"$out/wozgirt_c-build.log" 2>&1) || { cat "$out/wozgirt_c-build.log"; exit 1; }
folder=$out/languages
mkdir -p "$folder"
"$top/release/library" "$folder"
library=$folder/libwozgirt.a
strict="-Wall -Wextra -Wpedantic -Werror -I$top/clients/c"
flags="-std=c11 $strict"

# judge NAME: what the separate checker says of the history that an example saved
judge() {
    printf '%s: ' "$1"
    "$tool" check "$folder/$1.txt"
}

for name in refusals journal locks waits four_threads speed; do
    cc $flags -O2 -o "$folder/$name" "$top/examples/c/$name.c" "$library" -pthread
done
for header in wozgirt wozgirt_wait; do
    printf '#include "%s.h"\nint main(void) { return wozgirt_version() == WOZGIRT_VERSION ? 0 : 1; }\n' $header >"$folder/header.c"
    for compiler in "cc -std=c99" "cc -std=c11" "c++ -x c++ -std=c++11" "c++ -x c++ -std=c++17"; do
        $compiler $strict -c -o "$folder/header.o" "$folder/header.c"
    done
    cc -o "$folder/header" "$folder/header.o" "$library" -pthread
    "$folder/header"
done
(cd "$folder" && c++ -x c++ -std=c++11 $strict -o first "$top/examples/c/first.c" -x none "$library" && ./first && mv history.txt first.txt)
judge first
"$folder/refusals"
rm -rf "$folder/chain" && mkdir "$folder/chain"
"$folder/journal" "$folder/chain"
printf 'journal: ' && "$tool" check "$folder/chain"
"$folder/locks"
"$folder/waits" endless
"$folder/four_threads" "$folder/c.txt"
judge c

cc $flags -O1 -o "$folder/memory" "$top/trials/languages_memory.c" "$library"
cc -shared -fPIC -O1 -o "$folder/refuse_memory.so" "$top/trials/refuse_memory.c" -ldl
number=0
while :; do
    number=$((number + 1))
    rm -f "$folder/refused"
    REFUSED_REQUEST=$number REFUSED_MARK=$folder/refused LD_PRELOAD=$folder/refuse_memory.so "$folder/memory" ||
        { echo "request $number refused: status $?"; exit 1; }
    [ -e "$folder/refused" ] || break
done
echo "$((number - 1)) requests for memory refused in turn"

export WOZGIRT_LIBRARY="$folder/libwozgirt.so.0" WOZGIRT_LIBRARIES="$folder" PYTHONDONTWRITEBYTECODE=1
for python in ${PYTHONS:-python3}; do
    "$python" --version
    "$python" -m unittest discover -q -s "$top/clients/python/tests"
    PYTHONPATH=$top/clients/python "$python" "$top/examples/python/four_threads.py" "$folder/python.txt"
    judge python
done

rust=$folder/rust-target
(cd "$top/clients/rust" && export CARGO_TARGET_DIR="$rust" &&
    cargo test -q --release --offline && cargo build -q --release --offline --example four_threads &&
    cargo doc -q --offline --no-deps && cargo package -q --offline --workspace --allow-dirty)
"$rust/release/examples/four_threads" "$folder/rust.txt"
judge rust

if [ -n "$measure" ]; then
    program "$top" book_bench "$folder" --help
    "$folder/book_bench"
    "$folder/speed" "$folder/speed.txt"
    judge speed
    echo "the same with memory in huge pages, for which this setting has glibc ask (from 2.35 on):"
    export GLIBC_TUNABLES=glibc.malloc.hugetlb=1
    "$folder/book_bench"
    "$folder/speed" "$folder/speed.txt"
fi
