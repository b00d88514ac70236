#!/usr/bin/env bash
# The sheet of session files, whole and damaged, against what document 01 says; and the example files, each with its readable form and its
# stored sheet.
# needs: python3
set -euo pipefail
cd "$(dirname "$0")"
room=$(mktemp -d)
trap 'rm -rf "$room"' EXIT
files=0
check() {
    ../run sheet <"$1" >"$room/wrote"
    cmp "$room/wrote" "$2"
    files=$((files + 1))
}
for hex in ../examples/*.hex; do
    ../examples/bytes <"$hex" >"$room/bytes"
    cmp "$room/bytes" "${hex%.hex}.session"
    check "${hex%.hex}.session" "${hex%.hex}.sheet"
done
mkdir "$room/files"
python3 sheet_test.py "$room/files"
for session in "$room"/files/*.session; do
    check "$session" "${session%.session}.sheet"
done
echo "sheet: $files files"
