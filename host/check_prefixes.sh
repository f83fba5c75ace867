#!/usr/bin/env bash
# Prefixes that 'make install' refuses, each in one sentence and with nothing installed, and an odd one that it takes. All of it stays
# below build/, also where a prefix is taken that should not be.
set -eu
cd "$(dirname "$0")/.."
tree=$PWD/build/prefixes
rm -rf "$tree"

# Tries a prefix, or another staging folder with a good one, and wants the sentence.
refused() {
  local prefix=$1 destdir=$2 sentence=$3 said
  if said=$(make install PREFIX="$prefix" DESTDIR="$destdir" 2>&1); then
    echo "taken: PREFIX '$prefix', DESTDIR '$destdir'"
    exit 1
  fi
  grep -qF "$sentence" <<<"$said" || { echo "other words for PREFIX '$prefix', DESTDIR '$destdir': $said"; exit 1; }
  [ ! -e "$tree" ] || { echo "installed something: PREFIX '$prefix', DESTDIR '$destdir'"; exit 1; }
}

for prefix in "" relative ./build/prefixes; do
  refused "$prefix" "$tree/" "PREFIX must be an absolute path: '$prefix' does not begin with /"
done
for sign in ' ' $'\t' '|' '&' '\' "'" '"' '$' '$(' ';' '`' '#' '*' ':' '%'; do
  refused "$tree/a${sign}b" "" "PREFIX takes letters, digits and / . _ + @ - only: '$tree/a${sign}b' has '${sign:0:1}'"
  refused /opt "$tree/a${sign}b" "DESTDIR takes letters, digits and / . _ + @ - only: '$tree/a${sign}b' has '${sign:0:1}'"
done

make install DESTDIR= PREFIX="$tree/a+b@1.0_c-d" >/dev/null
bash host/check_install.sh "" "$tree/a+b@1.0_c-d" "$1"
