#!/usr/bin/env bash
# Rest, vectors by fields, histories with flags and traces against what document 01 says, on its examples and on random cards.
# needs: python3
set -euo pipefail
cd "$(dirname "$0")"
room=$(mktemp -d)
trap 'rm -rf "$room"' EXIT
python3 session_test.py script >"$room/script"
python3 session_test.py answers >"$room/answers"
../run drill <"$room/script" >"$room/wrote"
cmp "$room/wrote" "$room/answers"
echo "session: $(wc -l <"$room/script") lines"
