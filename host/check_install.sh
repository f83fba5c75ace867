#!/usr/bin/env bash
# check_install.sh ROOT PREFIX VERSION: the tree installed for PREFIX below ROOT holds the tool, the header, the archive and the .pc
# file and nothing else, all of this version; the README's example compiles against it through pkg-config, from a folder elsewhere,
# and runs; the header names no file that is not installed with it.
set -eu
root=$1 prefix=$2 version=$3
host=$(cd "$(dirname "$0")" && pwd)
work=$(mktemp -d)
trap 'rm -rf "$work"' EXIT
cd "$work"

(cd "$root$prefix" && find . -type f | LC_ALL=C sort) >found
printf './%s\n' bin/decklewren include/decklewren.h lib/libdecklewren.a lib/pkgconfig/decklewren.pc | diff - found
grep -qxF "prefix=$prefix" "$root$prefix/lib/pkgconfig/decklewren.pc" || { echo "the .pc file does not name $prefix"; exit 1; }

"$root$prefix/bin/decklewren" --version | diff - <(echo "decklewren $version")
if grep -nE 'docs/|crates/|host/|[A-Za-z_]+\.(md|c|antt|rt)\b' "$root$prefix/include/decklewren.h"; then
  echo "the header names what is not installed"
  exit 1
fi

export PKG_CONFIG_LIBDIR=$root$prefix/lib/pkgconfig PKG_CONFIG_SYSROOT_DIR=$root
pkg-config --modversion decklewren | diff - <(echo "$version")
cp "$host/example.c" .
read -ra flags <<<"$(pkg-config --cflags --libs decklewren)"
${CC:-gcc} -std=c11 -Wall -Wextra -Wpedantic -Werror example.c "${flags[@]}" -o example
./example | diff - "$host/example.stdout"
echo "installed for $prefix${root:+ below a staging folder}: compiled through pkg-config and run"
