#!/usr/bin/env bash
# The step list, vectors by steps and bench runs against what document 01 says, on its examples and on random cards.
# needs: python3
set -euo pipefail
cd "$(dirname "$0")"
room=$(mktemp -d)
trap 'rm -rf "$room"' EXIT
python3 steps_test.py script >"$room/script"
python3 steps_test.py answers >"$room/answers"
../run drill <"$room/script" >"$room/wrote"
cmp "$room/wrote" "$room/answers"
echo "steps: $(wc -l <"$room/script") lines"
