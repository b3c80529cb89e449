#!/bin/sh
# Runs the resolver's tests, among them the published conformance lines, and tells how many
# lines were compared. Ends with a failure if anything differs.
set -eu
cd "$(dirname "$0")"

published=/usr/share/unicode/BidiTest.txt
if [ ! -e "$published" ]; then
    echo "published lines: no $published, installing the package unicode-data"
    if ! { apt-get update && apt-get install -y unicode-data; } >/dev/null 2>&1; then
        echo "published lines: the package unicode-data could not be installed"
    fi
fi

exec cargo test --quiet --release --offline -- --nocapture
