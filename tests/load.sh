#!/usr/bin/env bash
# Load and the net question against what document 01 says, on every example, on cards cut at every byte, with every wrong kind, length, type
# and count, and on random ones.
# needs: python3
set -euo pipefail
cd "$(dirname "$0")"
room=$(mktemp -d)
trap 'rm -rf "$room"' EXIT
python3 load_test.py script >"$room/script"
python3 load_test.py answers >"$room/answers"
../run drill <"$room/script" >"$room/wrote"
cmp "$room/wrote" "$room/answers"
echo "load: $(grep -c ^load "$room/script") cards, $(grep -c ^net "$room/script") questions"
