#!/bin/sh
# Builds and runs every test, text and page, and proves nothing: see trials/tests, which has the words. Its last line is `N passed, N failed`.
command -v rt > /dev/null || { echo 'test.sh: the toolchain (rt) is not in the path: see docs/PROGRAM.md, "From a clone"' >&2; exit 1; }
exec "$(dirname "$0")/trials/tests" "$@"
