#!/usr/bin/env bash
# Releases the program that was built here, which must be of these sources, and writes the checksums beside it.
set -euo pipefail
cd "$(dirname "$0")/.."
# shellcheck source=release/program.sh
. release/program.sh

find_sources
if ! is_of_these_sources "$built"; then
    echo "release: $built is not there, or is older than its sources; .ci/run builds it" >&2
    exit 1
fi
install -m 755 "$built" "$released"
write_sums "$released"
echo "$released is what was built here: $(tail -n 1 "$released.sums" | cut -d ' ' -f 1)"
