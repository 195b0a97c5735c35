#!/bin/sh
# Proves the program and all that it stands on, from a fresh clone, as the processors and the memory allow, and tells how far it is: see build/prove. It
# leaves the program as crates/forth83/out/forth83; `build.sh embed` the library for C as crates/embed/out/libembed.a. What is built already is taken as it is.
command -v rt > /dev/null || { echo 'build.sh: the toolchain (rt) is not in the path: see docs/PROGRAM.md, "From a clone"' >&2; exit 1; }
exec "$(dirname "$0")/build/prove" "$@"
