#!/usr/bin/env bash
# The library, called from C, against an event-driven simulator on random and damaged cards, and that the README says what was compared; that the comparison finds each
# fault of host/faults.txt, seeded in engines and calls that were written by hand, by the mismatch named there; and that everything that it compares has such a fault. Where
# the library runs under an emulator there are fewer cards, and no sanitizers.
set -euo pipefail
cd "$(dirname "$0")/.."
mkdir -p target/host
host/compare 1000 1 | tee target/host/compared
sed -n '2,4p' target/host/compared | while IFS= read -r line; do
    grep -qF "    $line" README.md || { echo "host: the README does not say: $line" >&2 && exit 1; }
done
host/build compare-hand
(cd target/host && FAULT=0 ../../host/start compare-hand 100 1 names) | sed -n 's/^compared: //p' | sort >target/host/names

# unseeded FAULTS: what is compared and has no fault there, and what a fault is found as and is not compared
unseeded() {
    grep -v '^#' "$1" | sed 's/^[^|]*| *//; s/ *|.*//' | sort -u | comm -3 target/host/names -
}
if [ -n "$(unseeded host/faults.txt)" ]; then
    echo "host: compared and not seeded, or the other way round:" >&2
    unseeded host/faults.txt >&2
    exit 1
fi
grep -v '| flag by steps |' host/faults.txt >target/host/fewer
[ "$(unseeded target/host/fewer)" = "flag by steps" ] || { echo "host: a name without a fault was not seen" >&2 && exit 1; }
faults=0
while IFS='|' read -r number found what; do
    number=${number% } found=${found# } found=${found% }
    if said=$(cd target/host && FAULT=$number ../../host/start compare-hand 300 1) || ! grep -qF "mismatch: $found: " <<<"$said"; then
        echo "host: fault $number,$what, was not found as '$found': $(tail -n 1 <<<"$said")" >&2
        exit 1
    fi
    faults=$((faults + 1))
done < <(grep -v '^#' host/faults.txt)
if [ "$(uname -m)" = x86_64 ]; then
    host/start compare 3000 1001 >/dev/null
    host/build compare -fsanitize=address,undefined -fno-sanitize-recover=all
    host/start compare 200 9000 >/dev/null
    rm target/host/compare
fi
things=$(wc -l <target/host/names)
[[ $(tr '\n' ' ' <README.md) = *"\`host/faults.txt\` has $faults, each with the mismatch that has to find it, and one at least for each of the $things things compared."* ]] || {
    echo "host: the README does not say that there are $faults faults and $things things compared" >&2
    exit 1
}
echo "host: 0 mismatches; $faults faults of the engines and calls by hand found, one or more for each of the $things things compared"
