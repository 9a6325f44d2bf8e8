#!/bin/sh
# Builds examples/host.c over an installed copy of the header and the two libraries, runs each list of events examples/NAME.events on examples/NAME.xml
# and compares with examples/NAME.out. Needs a C compiler for x86-64; without one it says so and ends well.
set -u
cd "$(dirname "$0")/.." || exit 2

say() { echo "host: $*"; }

compiler=''
for c in cc x86_64-linux-gnu-gcc; do
    case $("$c" -dumpmachine 2>/dev/null) in x86_64-*) compiler=$c; break ;; esac
done
[ -n "$compiler" ] || { say "not run: there is no C compiler for x86-64 (cc, x86_64-linux-gnu-gcc)"; exit 0; }

folder=$PWD/target/host
./steamfiddle install "$folder" || { say "FAILED: ./steamfiddle install"; exit 1; }
# what `pkg-config --cflags --libs steamfiddle_converter steamfiddle_logger` says of that folder
"$compiler" -std=c99 -Wall -Wextra -pedantic -Werror -O2 "-I$folder/include" -o "$folder/host" examples/host.c \
    "-L$folder/lib" -lsteamfiddle_converter -lsteamfiddle_logger || { say "FAILED: examples/host.c does not compile or link"; exit 1; }
for events in examples/*.events; do
    name=${events%.events}
    "$folder/host" "$name.xml" "$events" >"$folder/out" || { say "FAILED: the program ended with status $? on $events"; exit 1; }
    diff -u "$name.out" "$folder/out" || { say "FAILED: what was printed is not what $name.out has"; exit 1; }
done
say "ok, examples/*.xml converted, loaded and run on examples/*.events from C; examples/*.out has what was printed"
