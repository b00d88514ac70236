#!/usr/bin/env bash
# What the documents say of functions, definitions, laws and edits is so; and in a copy with a fault of each kind the same test finds it.
# needs: python3
# needs nothing that is proved
set -euo pipefail
cd "$(dirname "$0")/.."
python3 tests/audit_test.py .

room=$(mktemp -d)
trap 'rm -rf "$room"' EXIT

# a copy of all that the test reads; each fault is taken out of it again
mkdir "$room/tree" "$room/tree/crates"
cp -r README.md docs crates.txt host tests speed examples "$room/tree"
for crate in crates/*; do
    mkdir "$room/tree/$crate"
    for part in src specs proofs must-fail; do
        if [ -d "$crate/$part" ]; then cp -r "$crate/$part" "$room/tree/$crate/$part"; fi
    done
done

# found WHAT EXPECTED: the test fails on the copy, and says so
seen=0
found() {
    if python3 tests/audit_test.py "$room/tree" >"$room/out"; then echo "audit: $1 was not found" >&2; return 1; fi
    grep -qF "$2" "$room/out" || { echo "audit: $1 was not found as '$2'" >&2; return 1; }
    seen=$((seen + 1))
}

# seeded FILE SED EXPECTED: a file is changed
seeded() {
    sed -i "$2" "$room/tree/$1"
    ! cmp -s "$1" "$room/tree/$1" || { echo "audit: $2 changes nothing in $1" >&2; return 1; }
    found "$2 in $1" "$3"
    cp "$1" "$room/tree/$1"
}

# moved FILE TO EXPECTED: a file stands elsewhere
moved() {
    mkdir -p "$room/tree/$(dirname "$2")"
    mv "$room/tree/$1" "$room/tree/$2"
    found "$1 at $2" "$3"
    mv "$room/tree/$2" "$room/tree/$1"
    rmdir "$room/tree/$(dirname "$2")"
}

seeded crates/rule/specs/Flag.antt 's/^unfoldable pub flag_of/unfoldable pub flag_told/' 'does not have flag_told (rule/specs/Flag.antt)'
seeded crates/rule/specs/Flag.antt '$ a pub flag_told : ℕ' 'rule/specs/Flag.antt defines flag_told in another way'
seeded crates/rule/specs/Flag.antt '$ a abbrev flag_told : ℕ' 'rule/specs/Flag.antt defines flag_told in another way'
seeded docs/AUDIT.md 's/`flag_of` | Flag.antt/`flag_of`, `flag_told` | Flag.antt/' 'has flag_told, which rule/specs/Flag.antt does not define'
seeded docs/AUDIT.md 's/`witness_loaded`/`rested_before`/' 'there is no rested_before'
seeded docs/AUDIT.md 's/`witness_loaded`/`demand_1`/' 'session/proofs/Witness.antt does not define demand_1'
seeded docs/AUDIT.md 's/ functions have no `ensures`/1&/' 'functions have no ensures'
seeded crates/host_many/src/lib.rt 's/^ *keep_at(.*);$//' 'host_many::keep_at asks something'
seeded crates/card/src/lib.rt 's/^pub fn ask_net/pub fn size/' 'card::size asks something'
seeded crates/host/src/lib.rt '0,/^    ensures.*host_move Load/s//    requires { 0 < 1 }\n&/' 'host::krasvome_load begins a chain of calls and asks something'
seeded crates/card/src/lib.rt '/^ *ensures.*net_asked/d' 'card::ask_net is in no program and has no ensures'
seeded crates/rule/src/lib.rt '/^ *ghost from_gives/d' 'rule::From<Refusal> for u8::from is in no program and has no ensures'
seeded crates/gate/src/lane.rt '/^ *ensures.*at result t/d' 'gate::Lane for u64::spread is in no program and has no ensures'
seeded crates/card_records/src/lib.rt 's/^    ghost try_from_gives = /    ghost from_gives = /' 'card_records::TryFrom<usize> for Kind::try_from is in no program and has no ensures'
seeded crates/trace/src/lib.rt '0,/^impl.*{$/s//&\n    ghost use Rattle.trace.specs.Inner.Caused.{Readable as Read};\n/; s/{ Good s.now }/{ Read s.now }/' 'the contract of trace::trace speaks of Readable, which is inner'
seeded crates/trace/specs/Inner/Caused.antt 's/^pub Readable-prop : .*→ IsProp (/pub Readable-prop : (p : ℕ) → (/' 'trace/specs/Inner/Caused.antt defines Readable-prop in another way'
seeded crates/rule/specs/Flag.antt '0,/^use /s//use Rattle.trace.specs.Inner.Caused\n&/' 'rule/specs/Flag.antt is built from inner definitions'
seeded crates/demands/proofs/Demands.antt '0,/^use /s//use Rattle.trace.specs.Inner.Caused\n&/' 'the demands speak of inner definitions (Demands.antt)'
seeded crates/demands/proofs/Results.antt '0,/^use /s//use Rattle.trace.specs.Inner.Caused\n&/' 'the demands speak of inner definitions (Results.antt)'
seeded crates/trace/src/lib.rt 's/{ Good s.now }/{ Readable s.now }/' 'the contract of trace::trace speaks of Readable, which is inner'
seeded crates/sheet_pieces/src/lib.rt 's/^    pub vectors: usize,$/&\n    ghost few: { vectors < 65536 },/' 'sheet_pieces::next takes a Sheet, which asks something'
seeded crates/card/src/lib.rt '$ a \\nimpl Model for Session {\n    ghost invariant = { λ s. Good s };\n}' 'session::vector takes a Session, which asks something'
seeded docs/CONTRACTS.md 's/^| `trace` (trace) |/| `traced` (trace) |/' 'docs/CONTRACTS.md has trace::traced, and there are 0'
seeded crates/text/specs/Inner/Put.antt 's/`put_then`/put_then/' 'text/specs/Inner/Put.antt names no law that ties it'
moved crates/gate/specs/Gate.antt crates/gate/specs/Other/Gate.antt 'gate/specs has a folder, Other'
seeded crates/trace/specs/Traced.antt '0,/^use /s//use Rattle.trace.specs.Inner.Caused.{first_moved}\n&/; s/^changed_then \(.*\) = /changed_then \1 = first_moved /' \
    'trace/specs/Inner/Caused.antt has first_moved, which the demands or an operation are built from'
seeded crates/history/must-fail/code-2.edit 's/^of: history, flag_of/of: history/' 'history::flag_of is public, and has 1 wrong answers'
seeded crates/rule/specs/Flag.antt '$ a abbrev pub spare : ℕ' 'rule/specs/Flag.antt has spare, which nothing that is to be believed is built from'
seeded crates/gate/specs/Inner/Pins.antt '1s/Inner: //' 'gate/specs/Inner/Pins.antt does not say that it is inner'
seeded crates/gate/proofs/Pins.antt 's/gate_by_pins/gate_of_pins/' 'is tied by gate_by_pins (gate/proofs/Pins.antt), which is not there'
seeded crates/demands/proofs/Demands.antt 's/demand_2_card/demand_2_cards/' 'there is no demand_2_card'
seeded docs/CONTRACTS.md 's,`load_carded` (card/,`load_carded` (lists/,' 'there is no lists/proofs/Verdicts.antt'
seeded docs/CONTRACTS.md 's,`rest_flat`,`rest_flats`,' 'docs/CONTRACTS.md: session/proofs/Rules.antt does not define rest_flats'
seeded docs/CONTRACTS.md 's/`load_taken`/`load_takes`/' 'docs/CONTRACTS.md names load_takes 2 times'
seeded docs/CONTRACTS.md 's,| card/refuses_everything |,| card/refuses_nothing |,' 'does not name the edit card/refuses_everything once'
seeded docs/CONTRACTS.md 's,a NAND that does not invert,a NAND that inverts,' 'docs/figures would write something else'
seeded docs/NOTES.md 's/^| gate | [0-9]*/&1/' 'docs/figures would write something else'
seeded crates/card/must-fail/depth_of_nothing.edit '/^at: /d' "card/depth_of_nothing does not say what it is 'at'"
seeded crates.txt 's/^# the sheet$/# the sheets/' 'docs/drawing would draw something else'
seeded README.md 's/`operations`/`operating`/' 'README.md: there is no operating'
seeded docs/PERFORMANCE.md 's/`krasvome_vectors`/`krasvome_vectored`/' 'docs/PERFORMANCE.md: there is no krasvome_vectored'
seeded docs/DECISIONS.md 's/`made_moved`/`made_move`/' 'docs/DECISIONS.md: there is no made_move'
seeded docs/NOTES.md 's/`no_time`/`no_times`/' 'docs/NOTES.md: there is no no_times'
seeded docs/REQUESTS.md 's,(rule/proofs/Numbers.antt),(rule/proofs/Number.antt),' 'docs/REQUESTS.md: there is no rule/proofs/Number.antt'
seeded crates.txt '/^text:/d' 'crates.txt does not have text'
seeded crates/host_c/src/lib.rt '0,/host_move Rest/s//host_move Load/' 'host_c::krasvome_rest does not have the clauses of host::krasvome_rest'
seeded host/krasvome.h 's/define KRASVOME_SESSION /&1/' 'host/krasvome.h does not say that a session has'
seeded crates/host_made/src/lib.rt 's/OLDER_AT + older/259 + older/' 'host_made/src/lib.rt writes 259 out'
seeded docs/NOTES.md '0,/^- Read /s//&the whole of the documents first, then every contract, and then /' 'docs/NOTES.md:3 has '
seeded crates/gate/src/lib.rt '1s/$/ A line of code or of a definition that has more than two hundred characters is one that nobody reads to its end./' 'crates/gate/src/lib.rt:1 has '
python3 tests/audit_test.py "$room/tree" >/dev/null
echo "audit: $seen seeded faults found"
