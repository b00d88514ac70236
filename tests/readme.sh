#!/usr/bin/env bash
# The README's examples: its session is the example file, its sheet is what the program prints, and its drill session answers as stored.
# needs: python3
set -euo pipefail
cd "$(dirname "$0")"
room=$(mktemp -d)
trap 'rm -rf "$room"' EXIT
python3 readme_test.py hex | ../examples/bytes >"$room/session"
cmp "$room/session" ../examples/algorithm-6-4.session
python3 readme_test.py sheet >"$room/sheet"
cmp "$room/sheet" ../examples/algorithm-6-4.sheet
../run sheet <../examples/algorithm-6-4.session >"$room/wrote"
cmp "$room/wrote" "$room/sheet"
../run drill <../examples/first.txt >"$room/answers"
cmp "$room/answers" ../examples/first.answers
echo "readme: the examples hold"
