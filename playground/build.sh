#!/bin/bash
# Makes the page with its module into playground/out: what the library for C is made of, compiled for WebAssembly.
#
# The toolchain proves nothing for that target. What it hands to its own compiler, for the processor that it proves for, is caught here, and given the
# other target's name and layout of data.
# usage: build.sh [FOLDER]          where embed/module.sh has built the library; it is built where it isn't there
set -euo pipefail
if [ $# -gt 0 ]; then
    folder=$(mkdir -p "$1" && cd "$1" && pwd)
else
    folder=$(mktemp -d)
    trap 'rm -rf "$folder"' EXIT
fi
cd "$(dirname "$0")/.."
kit=$(rt doc)
kit=${kit%/*}
[ -f "$folder/module.ll" ] || embed/module.sh "$folder"
made=$folder/wasm64
mkdir -p "$made" playground/out/examples
embed/retarget.py wasm64 < "$folder/module.ll" > "$made/module.ll"
# shellcheck disable=SC2046
"$kit/toolchain/bin/clang" $(embed/retarget.py --flags wasm64) --no-default-config -Wno-override-module -ffunction-sections -fdata-sections -O3 \
    -c -x ir "$made/module.ll" -o "$made/library.o"
exports=()
while read -r it; do exports+=("--export=$it"); done < embed/expected/exports
# (the toolchain's programs are one, which goes by the name that it is called by)
(exec -a wasm-ld "$kit/toolchain/bin/clang" -mwasm64 --no-entry --allow-undefined --gc-sections --strip-all --export=__heap_base -z stack-size=131072 \
    --stack-first "${exports[@]}" "$made/library.o" -o playground/out/silgwyrad.wasm)
cp playground/index.html playground/system.js playground/out/
cp examples/logger.scr examples/units.scr examples/editor.scr playground/out/examples/
ls -l playground/out/silgwyrad.wasm
