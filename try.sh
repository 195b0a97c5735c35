#!/bin/sh
# Builds the program as it stands, with no proof, and runs it: over a demonstration image in out/try, or with the words that it is given, as the program is.
# What was built is kept there, and built anew where a source changed.
# usage: ./try.sh                      a session over the image, at a terminal or of the lines of standard input
#        ./try.sh new a.img --blocks 64 --layout 3, and whatever else `forth83 --help` tells
set -eu
root=$(cd "$(dirname "$0")" && pwd)
image=$root/out/try/demo.img
say() { echo "try.sh: $1" >&2; }

command -v rt > /dev/null || { say 'the toolchain (rt) is not in the path: see docs/PROGRAM.md, "From a clone"'; exit 1; }
program=$("$root/trials/tests" --program)
say 'this build is not proved; ./build.sh proves it'
[ $# = 0 ] || exec "$program" "$@"
if [ ! -f "$image" ]; then
    # (under another name until it is whole)
    rm -f "$image.new"
    "$program" new "$image.new" --blocks 64 --layout 3
    "$program" put "$image.new" 1 /dev/stdin <<'END'
( TO BE TRIED: 5 SQUARES, OR 7 BOTH SAME )
: SQUARED  DUP * ;
: SQUARES  1+ 1 DO I SQUARED . LOOP ;
( TWO BLOCKS WITH ONE NUMBER, SAVED TOGETHER )
: BOTH  DUP 2 BLOCK ! UPDATE  3 BLOCK ! UPDATE  SAVE-BUFFERS ;
: SAME  2 BLOCK @ . 3 BLOCK @ . ;
END
    mv "$image.new" "$image"
fi
[ ! -t 0 ] || say 'block 1 has words to try: 1 LOAD, then 5 SQUARES or 7 BOTH SAME'
exec "$program" run "$image"
