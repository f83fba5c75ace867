#!/usr/bin/env bash
# Refuses a PREFIX or DESTDIR (as typed: TYPED_PREFIX, TYPED_DESTDIR) that the shell, sed or pkg-config would not take as it is meant.
set -u

refuse() {
  echo "$1" >&2
  exit 1
}

other='[^[:alnum:]/._+@-]'
[[ $TYPED_PREFIX == /* ]] || refuse "PREFIX must be an absolute path: '$TYPED_PREFIX' does not begin with /"
[[ ! $TYPED_PREFIX =~ $other ]] || refuse "PREFIX takes letters, digits and / . _ + @ - only: '$TYPED_PREFIX' has '${BASH_REMATCH[0]}'"
[[ ! $TYPED_DESTDIR =~ $other ]] || refuse "DESTDIR takes letters, digits and / . _ + @ - only: '$TYPED_DESTDIR' has '${BASH_REMATCH[0]}'"
