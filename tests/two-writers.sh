#!/usr/bin/env bash
# Whether the example of two sessions over one desk, which `rt ci` has built, prints what docs/LIBRARY.md shows of it. Prints what differs; the
# status is 0 if nothing does.
set -euo pipefail
top=$(cd "$(dirname "$0")/.." && pwd)
work=$(mktemp -d)
trap 'rm -rf "$work"' EXIT
# The block after the example's name.
awk '/^# / { found = 0 } /^`examples\/two-writers`/ { found = 1 } found && /^    / { print substr($0, 5) }' "$top/docs/LIBRARY.md" > "$work/wanted"
[ -s "$work/wanted" ] || { echo 'docs/LIBRARY.md has no block after the name of the example'; exit 1; }
"$top/examples/two-writers" > "$work/out"
diff "$work/wanted" "$work/out"
