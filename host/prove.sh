#!/usr/bin/env bash
# prove.sh LOG COMMAND...: runs a command of rt, with all that it prints in LOG, and says 'proving NAME' for each crate as it is
# begun. Where the command fails, LOG is shown.
set -u
log=$1
shift
set -o pipefail
"$@" 2>&1 | tee "$log" | sed -un 's/^rt: chose .* for \([a-z0-9_]*\)$/proving \1/p'
status=$?
[ "$status" -eq 0 ] || cat "$log" >&2
exit "$status"
