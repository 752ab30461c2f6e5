#!/bin/sh
# The cache's functions from C, over the static library, also in a stack of 64 KiB and under the sanitizers; with the argument bench, their speed.
set -eu
root=$(cd "$(dirname "$0")/.." && pwd)
"$root/tools/library"
program=cache${1:+_$1}
build() { cc "$@" -Wall -I"$root/c/include" "$root/c/tests/$program.c" "$root/target/staticlib/libkurgashel.a"; }
build -O2 -o "$root/target/$program"
"$root/target/$program"
[ "$program" = cache ] || exit 0
(ulimit -s 64 && "$root/target/$program")
build -O1 -g -fsanitize=address,undefined -o "$root/target/${program}_sanitized"
"$root/target/${program}_sanitized"
