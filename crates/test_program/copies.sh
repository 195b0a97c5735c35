#!/bin/sh
# Copies what tests ask for from the tests of storage to those of the program: a library may not end a program, so it stands in both.
# usage: crates/test_program/copies.sh             copies it
#        crates/test_program/copies.sh --check     shows how the two differ, and ends with status 1 where they do
set -eu
cd "$(dirname "$0")/../.."
asked=src/assertions.rt
if [ "${1:-}" = --check ]; then
    exec diff "crates/test_program/$asked" "crates/test_storage/$asked"
fi
cp "crates/test_storage/$asked" "crates/test_program/$asked"
