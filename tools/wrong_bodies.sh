#!/usr/bin/env bash
# Tries the wrong bodies that the gate doesn't: tools/wrong_bodies.sh [NAME..]
# Each crates/NAME/wrong-bodies/*.edit is applied in a clone of the last commit, and the prover must refuse it; without
# names those of all crates. Prints a line an edit; the status is 0 only where each was refused.
set -eu
top=$(cd "$(dirname "$(readlink -f "${BASH_SOURCE[0]}")")/.." && pwd)
room=$(mktemp -d)
trap 'rm -rf "$room"' EXIT
git clone -q "$top" "$room/clone"
cd "$room/clone"
names=("$@")
if [ ${#names[@]} = 0 ]; then
    for folder in crates/*/wrong-bodies; do names+=("$(basename "$(dirname "$folder")")"); done
fi
for name in "${names[@]}"; do
    [ -d "crates/$name/wrong-bodies" ] || { echo "wrong_bodies: crates/$name has no wrong-bodies" >&2; exit 2; }
    rm -rf "crates/$name/must-fail"
    mv "crates/$name/wrong-bodies" "crates/$name/must-fail"
done
# what is proved already is not proved again
for out in "$top"/crates/*/out; do
    if [ -d "$out" ]; then cp -a "$out" "crates/$(basename "$(dirname "$out")")/"; fi
done
status=0
rt must-fail "${names[@]}" || status=$?
exit "$status"
