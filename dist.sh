#!/bin/sh
# Makes forth83-VERSION-x86_64-linux.tar.gz of the program as it is built, with install.sh, its manual page, completions, examples, library, pages and the
# sources of embed/, or with --deb two packages: forth83_VERSION_amd64.deb of the same, and libsilgwyrad-dev_VERSION_amd64.deb of the library for C with its
# header, examples and silgwyrad.pc. It prints the SHA-256 of each. The same files give the same bytes at each making: names are sorted, and their time is that
# of the commit, or SOURCE_DATE_EPOCH, or where there is no commit the version's day. The version is what the program tells; the manual page, the changelog and
# the header have to say the same. A page with a link to what isn't there is refused.
# The library for C is in the archive, and its package is made, where `./build.sh embed` has built it; with it are host.c and heap.c, compiled by cc. With it is
# the library for each board of embed/boards, where `embed/module.sh crates/embed/out` has kept its module and the board's compiler is installed. The page of
# playground/ is in the archive where playground/build.sh has made it.
# usage: ./dist.sh [--deb] [FOLDER]          FOLDER is the current one where none is given
set -eu
kind=archive
if [ "${1:-}" = --deb ]; then
    kind=package
    shift
fi
folder=${1:-.}
[ $# -le 1 ] || folder=-
case $folder in
    -*) echo 'usage: ./dist.sh [--deb] [FOLDER]' >&2; exit 2 ;;
esac
[ -d "$folder" ] || { echo "dist.sh: $folder is no folder" >&2; exit 2; }
folder=$(cd "$folder" && pwd)
cd "$(dirname "$0")"
program=crates/forth83/out/forth83
built=crates/embed/out
library=$built/libembed.a
[ -x "$program" ] || { echo "dist.sh: $program is not built: see README.md, \"Get it\"" >&2; exit 1; }
version=$("$program" --version)
version=${version#forth83 }
grep -q "^\.TH FORTH83 1 .* \"forth83 $version\"" share/man/man1/forth83.1 ||
    { echo "dist.sh: share/man/man1/forth83.1 is of another version than $version" >&2; exit 1; }
grep -q "^#define SILGWYRAD_VERSION \"$version\"\$" embed/silgwyrad.h ||
    { echo "dist.sh: embed/silgwyrad.h is of another version than $version" >&2; exit 1; }
day=$(sed -n "s/^## \[$version\] - //p" CHANGELOG.md)
[ -n "$day" ] || { echo "dist.sh: CHANGELOG.md has no day of version $version" >&2; exit 1; }
epoch=${SOURCE_DATE_EPOCH:-$(git log -1 --format=%ct 2> /dev/null || date -u -d "$day" +%s)}
maintainer='Silgwyrad maintainers <maintainers@users.noreply.silgwyrad.example>'
tree=$(mktemp -d)
trap 'rm -rf "$tree"' EXIT
trap 'exit 1' HUP INT TERM

# A gzipped archive of what is in a folder, in which times, owners, rights and the order of names are those of no machine.
packed() {
    find "$1" -type d -exec chmod 755 {} +
    find "$1" -type f -perm -u=x -exec chmod 755 {} +
    find "$1" -type f ! -perm -u=x -exec chmod 644 {} +
    tar -C "$1" --sort=name --format=ustar --mtime="@$epoch" --owner=0 --group=0 --numeric-owner -cf "$tree/packed" "$2"
    gzip -n -9 < "$tree/packed"
}

# A member of an archive of ar, in which a package is: its head, what it has, and a byte where that is odd.
member() {
    size=$(wc -c < "$2")
    printf '%-16s%-12s%-6s%-6s%-8s%-10s`\n' "$1" 0 0 0 100644 "$size"
    cat "$2"
    [ $((size % 2)) = 0 ] || echo
}

# The library for C, with the names that embed/host.c has for the host's two functions, and with host.c and heap.c, whose place a program's own may take.
put_library() {
    [ -f "$library" ] || return 0
    for it in cc objcopy ar; do
        command -v $it > /dev/null || { echo "dist.sh: $it, of a compiler for C or of binutils, is not in the path" >&2; exit 1; }
    done
    mkdir -p "$1"
    objcopy -D --strip-debug --redefine-sym read=silgwyrad_host_read --redefine-sym write=silgwyrad_host_write "$library" "$1/libsilgwyrad.a"
    for it in host heap; do (cd embed && cc -std=c99 -O2 -g0 -fPIC -ffunction-sections -fdata-sections -c $it.c -o "$tree/$it.o"); done
    ar rD "$1/libsilgwyrad.a" "$tree/host.o" "$tree/heap.o"
}

# The library for each board, where firmware looks for it. Boards of one processor have one.
put_boards() {
    [ -f "$library" ] || return 0
    if [ ! -f "$built/module.ll" ] || [ "$library" -nt "$built/module.ll" ]; then
        echo "dist.sh: $built/module.ll is not there, as by embed/module.sh $built: no board has its library" >&2
        return 0
    fi
    for board in virt mps2 lm3s; do
        lacks=$(embed/boards/board.sh lacks $board | tr '\n' ' ')
        [ -z "$lacks" ] || { echo "dist.sh: $board has no library, since this is not installed here: $lacks" >&2; continue; }
        mkdir -p "$1/$board"
        cp "$(embed/boards/board.sh library $board "$built")" "$1/$board/library.o"
    done
    [ ! -d "$1/mps2" ] || { rm -r "$1/lm3s" && ln -s mps2 "$1/lm3s"; }
}

# Fails where a page in a folder has a link to what isn't there.
look_at_links() {
    dead=$(grep -roE '\]\([^)#:]+[)#]' --include='*.md' "$1" | while IFS=: read -r page link; do
        link=${link#??}
        [ -e "$(dirname "$page")/${link%?}" ] || echo "dist.sh: ${page#"$1"/} has a dead link: ${link%?}"
    done)
    [ -z "$dead" ] || { echo "$dead" >&2; exit 1; }
}

make_archive() {
    made=forth83-$version-x86_64-linux.tar.gz
    top=$tree/tree/${made%.tar.gz}
    mkdir -p "$top/bin"
    cp "$program" "$top/bin/forth83"
    cp -R README.md LICENSE CHANGELOG.md docs examples library embed share install.sh "$top/"
    mkdir "$top/bench"
    cp bench/*.md "$top/bench/"
    look_at_links "$top"
    put_library "$top/lib"
    put_boards "$top/lib/silgwyrad"
    if [ -f playground/out/silgwyrad.wasm ]; then
        mkdir "$top/playground"
        cp playground/out/index.html playground/out/system.js playground/out/silgwyrad.wasm "$top/playground/"
    fi
    packed "$tree/tree" "${made%.tar.gz}" > "$folder/$made"
}

# What changed in this version, in the form that Debian's tools read.
changes() {
    printf '%s (%s) unstable; urgency=medium\n\n' "$1" "$version"
    awk -v head="## [$version]" '/^## / { is_own = index($0, head) == 1; next } is_own && /./' CHANGELOG.md | fold -s -w 76 | sed 's/^/  /'
    printf '\n -- %s  %s\n' "$maintainer" "$(LC_ALL=C date -u -R -d "$day")"
}

# Packs a folder as the package of a name, with the lines of its control file that are its own.
make_deb() {
    name=$1 from=$2 own=$3
    made="$made ${name}_${version}_amd64.deb"
    changes "$name" | gzip -n -9 > "$from/usr/share/doc/$name/changelog.gz"
    cp share/copyright "$from/usr/share/doc/$name/"
    look_at_links "$from"
    # (files alone: how much a folder takes is the file system's)
    installed=$(find "$from" -type f -printf '%s\n' | awk '{ kb += int(($1 + 1023) / 1024) } END { print kb }')
    rm -rf "$tree/control"
    mkdir "$tree/control"
    cat > "$tree/control/control" <<END
Package: $name
Version: $version
Architecture: amd64
Maintainer: $maintainer
Installed-Size: $installed
Priority: optional
$own
END
    (cd "$from" && find usr -type f -print0 | LC_ALL=C sort -z | xargs -0 md5sum) > "$tree/control/md5sums"
    echo 2.0 > "$tree/debian-binary"
    packed "$tree/control" . > "$tree/control.tar.gz"
    packed "$from" . > "$tree/data.tar.gz"
    { echo '!<arch>'; for it in debian-binary control.tar.gz data.tar.gz; do member "$it" "$tree/$it"; done; } > "$folder/${name}_${version}_amd64.deb"
}

make_program_deb() {
    data=$tree/data/usr
    doc=$data/share/doc/forth83
    mkdir -p "$data/bin" "$data/share/man/man1" "$data/share/bash-completion/completions" "$doc/bench" "$data/share/forth83"
    cp "$program" "$data/bin/forth83"
    gzip -n -9 -c share/man/man1/forth83.1 > "$data/share/man/man1/forth83.1.gz"
    cp share/completions/forth83.bash "$data/share/bash-completion/completions/forth83"
    cp -R README.md CHANGELOG.md docs "$doc/"
    cp bench/*.md "$doc/bench/"
    cp -R examples library embed share/vim share/capitals.awk "$data/share/forth83/"
    # (where the pages' links look for them)
    for it in examples library embed; do ln -s "../../forth83/$it" "$doc/$it"; done
    for it in docs README.md; do ln -s "../doc/forth83/$it" "$data/share/forth83/$it"; done
    ln -s copyright "$doc/LICENSE"
    # (the program stays byte by byte what was linked and tried, with its symbols)
    mkdir -p "$data/share/lintian/overrides"
    echo 'forth83: unstripped-binary-or-object *usr/bin/forth83*' > "$data/share/lintian/overrides/forth83"
    # (the newest version of the C library whose names it asks for)
    needed=$(grep -ao 'GLIBC_[0-9][0-9.]*' "$program" | sort -u -V | tail -n 1)
    [ -n "$needed" ] || { echo "dist.sh: $program asks for no C library" >&2; exit 1; }
    make_deb forth83 "$tree/data" "Section: devel
Depends: libc6 (>= ${needed#GLIBC_})
Suggests: libsilgwyrad-dev, python3
Description: Forth-83 system whose blocks a loss of power can't tear
 Source and data are blocks of 1,024 bytes in one file. A save changes all
 blocks that were changed since the last one, or none."
}

make_library_deb() {
    [ -f "$library" ] || { echo "dist.sh: $library is not built, as by ./build.sh embed: libsilgwyrad-dev is not made" >&2; return 0; }
    dev=$tree/dev/usr
    place=lib/x86_64-linux-gnu
    doc=$dev/share/doc/libsilgwyrad-dev
    mkdir -p "$dev/include" "$dev/$place/pkgconfig" "$doc/examples/records"
    cp embed/silgwyrad.h "$dev/include/"
    put_library "$dev/$place"
    put_boards "$dev/lib/silgwyrad"
    # (the boards' processors are none of Debian's)
    mkdir -p "$dev/share/lintian/overrides"
    echo 'libsilgwyrad-dev: binary-from-other-architecture *usr/lib/silgwyrad/*' > "$dev/share/lintian/overrides/libsilgwyrad-dev"
    cat > "$dev/$place/pkgconfig/silgwyrad.pc" <<END
prefix=/usr
libdir=\${prefix}/$place
includedir=\${prefix}/include

Name: silgwyrad
Description: Blocks that are saved all or none, and a Forth-83 system over them
Version: $version
Cflags: -I\${includedir}
Libs: -L\${libdir} -lsilgwyrad
END
    cp embed/logger.c embed/forth.c embed/host.c embed/heap.c "$doc/examples/"
    cp examples/records/records.c examples/records/records.h examples/records/stock.c "$doc/examples/records/"
    make_deb libsilgwyrad-dev "$tree/dev" "Section: libdevel
Depends: libc6-dev
Suggests: forth83, pkgconf
Description: blocks for C that a loss of power can't tear, static library
 Blocks of 1,024 bytes on a device of the program's own, of which a save
 changes all that it is given, or none. The calls on blocks take no heap and
 ask for no operating system. A Forth-83 system over the same blocks is in it.
 .
 It is there for three boards too, with Cortex-M3 and RISC-V. The pages on it,
 and firmware for these boards, are in the package forth83."
}

make_package() {
    made=''
    make_program_deb
    make_library_deb
}

make_$kind
# shellcheck disable=SC2086
(cd "$folder" && sha256sum $made)
