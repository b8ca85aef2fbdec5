#!/usr/bin/env bash
# Proves and builds programs, and puts them into target/bin/. usage: tools/build.sh [NAME..]   (none: every program)
set -eu
cd "$(dirname "$0")/.."
if [ $# = 0 ]; then set -- $(ls -d crates/*/src/main.rt | cut -d/ -f2); fi
mkdir -p target/bin
said=$(mktemp)
trap 'rm -f "$said"' EXIT
for name in "$@"; do
    # rt builds a program in order to run it; without input it ends at once
    if ! (cd "crates/$name" && rt run < /dev/null > "$said" 2>&1); then
        cat "$said"
        exit 1
    fi
    cp "crates/$name/out/$name" target/bin/
done
