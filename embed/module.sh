#!/bin/bash
# Builds the library into a folder as library.sh does, and keeps there as module.ll what the toolchain hands to its compiler: the whole library as one
# module of LLVM's language, before anything is optimized. Of it the library is made for processors that the toolchain doesn't prove for.
# usage: module.sh FOLDER
set -euo pipefail
[ $# = 1 ] || { echo 'usage: module.sh FOLDER' >&2; exit 2; }
mkdir -p "$1"
folder=$(cd "$1" && pwd)
cd "$(dirname "$0")"
kit=$(rt doc)
kit=${kit%/*}
shim=$(mktemp -d)
trap 'rm -rf "$shim"' EXIT

# The toolchain, with a compiler that writes the module down before it compiles it.
mkdir "$shim/bin"
ln -s "$kit/toolchain/lib" "$shim/lib"
for it in "$kit/toolchain/bin"/*; do ln -s "$it" "$shim/bin/"; done
rm "$shim/bin/clang"
cat > "$shim/bin/clang" <<END
#!/bin/bash
for word in "\$@"; do
    case \$word in
        module.bc) '$kit/toolchain/bin/clang' --no-default-config -x ir module.bc -S -emit-llvm -Xclang -disable-llvm-passes -O3 -o '$folder/module.ll' || exit ;;
    esac
done
exec '$kit/toolchain/bin/clang' "\$@"
END
chmod +x "$shim/bin/clang"
TOOLCHAIN=$shim ./library.sh "$folder"
# (it was written before the library was: one that is older than the library is of another one)
touch "$folder/module.ll"
