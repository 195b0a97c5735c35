#!/bin/sh
# Prints each program of a folder (untuned where none is named, or ported) with its half: those that are `chosen` may be looked at where a form or a row of
# the table is chosen, those that are `kept` never. The digest of a name decides: the half with the least is chosen.
set -eu
cd "$(dirname "$0")/${1:-untuned}"
for text in *.fth; do
    name=${text%.fth}
    echo "$(printf %s "$name" | sha256sum | cut -c1-16) $name"
done | sort | awk '{ name[NR] = $2 } END { for (i = 1; i <= NR; i++) print (i <= NR / 2 ? "chosen" : "kept"), name[i] }'
