#!/bin/sh
# Makes the release anew: proves and builds the program, and keeps it in release/ with the checksum of what it was built from and with its own.
# Usage: bench/release.sh, in a checkout without changes.
set -eu
top=$(cd "$(dirname "$0")/.." && pwd)
cd "$top"
if [ -n "$(git status --porcelain)" ]; then
    echo "release: there are changes that are not committed"
    exit 1
fi
rm -f release/SOURCES
./fdpdrive prove
gzip -9nc crates/fdpdrive/out/fdpdrive > release/fdpdrive.gz
(cd crates/fdpdrive/out && sha256sum fdpdrive) > release/SHA256
sources=$(bench/sources.sh)
echo "$sources" > release/SOURCES
bench/released.sh
