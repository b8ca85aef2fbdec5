#!/usr/bin/env bash
# An open wave can be neither forgotten nor used twice: the compiler refuses both, before any proof. Each edit of tests/compile-fail/ is applied to a
# copy of the crates, and the compiler must end with the error that the edit expects, and no other. (The must-fail edits of the crates are for what the
# compiler accepts and the prover refuses.)
set -u
root=$(cd "$(dirname "$0")/.." && pwd)
copy=$(mktemp -d)
trap 'rm -rf "$copy"' EXIT
cp "$root/crates.txt" "$copy/"
for part in "$root"/crates/*/src; do
    crate=${part#"$root"/}
    mkdir -p "$copy/${crate%/src}"
    cp -r "$part" "$copy/${crate%/src}/"
    for text in specs proofs; do
        if [ -d "${part%/src}/$text" ]; then cp -r "${part%/src}/$text" "$copy/${crate%/src}/"; fi
    done
done

bad=0
for edit in "$root"/tests/compile-fail/*.edit; do
    name=$(basename "$edit" .edit)
    crate=$(sed -n 's/^crate: //p' "$edit")
    file=crates/$crate/$(sed -n 's/^file: //p' "$edit")
    want=$(sed -n 's/^expect: //p' "$edit")
    if ! python3 - "$edit" "$root/$file" "$copy/$file" <<'P'
import sys
lines = dict(l.split(': ', 1) for l in open(sys.argv[1]).read().splitlines() if ': ' in l)
text = open(sys.argv[2]).read()
if text.count(lines['old']) != 1:
    sys.exit(f"{sys.argv[1]}: its old text stands {text.count(lines['old'])} times")
open(sys.argv[3], 'w').write(text.replace(lines['old'], lines['new']))
P
    then
        bad=1
    else
        # what the compiler accepts would be built and run; nothing is proved
        said=$(cd "$copy/crates/$crate" && timeout 300 rt try --test 2>&1)
        if [ "$(grep -cE '^[^ ]*: error' <<<"$said")" = 1 ] && grep -qE "^[^ ]*: error\[$want\]" <<<"$said"; then
            echo "$name: refused by the compiler ($want)"
        else
            echo "$name: NOT refused by $want alone"
            bad=1
        fi
    fi
    cp "$root/$file" "$copy/$file"
done
exit $bad
