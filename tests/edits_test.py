"""That each must-fail edit was refused at the fact that its file names, and not for a name or for the code's shape: `edits_test.py ROOT`, after try_edits.py, which leaves
what the check said of each file in target/must-fail. The fact is a goal of a function's proof, or a law; what the check says of it first has to be in one of the wordings
that it has for a statement that it cannot prove. Of an edit that stands alone so has the first refusal of all that is not the consequence of another; of one among several
the first in the proof that it names, but for answers to goals that are named after what the edit took away. Whether that statement is false, or true and only unproved, no
test can tell: that was read (docs/CONTRACTS.md).
Several edits of one file have to be in functions of their own, each in the one whose proof it names. `edits_test.py ROOT facts CRATE/FILE` prints the facts at which a file's edits were refused."""
import collections
import pathlib
import re
import sys

from must_fail import edits

root = pathlib.Path(sys.argv[1])
unproved = re.compile(
    r"the two (?:types|values|sides) |expected type .* but this has type |`omega`: the goal does not follow|`search`: no proof of|give a proof of that as the last argument|one side reads|is not proved that|`search` did not prove"
)
shape = re.compile(r"has no field|that can be named from here|: `[^`]*` is not in scope")
gone = re.compile(r"error: `([^`]*)`: `goal\.(?:at\.)?\1`: module `[^`]*\.Goals` has no ")


def messages(log):
    """What the check said, a message each: the lines that follow one belong to it."""
    found = []
    for line in log.splitlines():
        if re.match(r"(?:note: )?\S+:\d+:\d+: |(?:fn|struct|enum|note|help|logic|library|crate|sum|rt)\b", line) or not found:
            found.append(line)
        else:
            found[-1] += " " + line.strip()
    return found


def refusals(log, crate):
    """What is refused, and how: (a fact or None, the function whose proof it stands in or None, the message). A fact is `goal` of `function`, or `law` (file)."""
    found, waiting = [], []
    for said in messages(log):
        here = re.match(r"(?:\S*/)?proofs/(\S+)\.antt:\d+:\d+: error: (?:`([^`]*)`: )?", said)
        open_goal = re.match(r"note: \S+:\d+:\d+: it is not proved that .*?\(`([^`]*)`\)", said)
        function = re.match(r"fn (?:[\w+]+::)*(\w+): (?:not proved|no proof)", said)
        if here and not re.search(r"declarations? that depends? on|was not admitted", said):
            *folders, file = here.group(1).split("/")
            name = f"`{here.group(2)}`" if here.group(2) else None
            if folders and file in ("Answers", "Invariants", "Proof"):
                found.append((name and f"{name} of `{folders[-1]}`", folders[-1].lstrip("+"), said))
            else:
                found.append((name and f"{name} ({crate}/proofs/{here.group(1)}.antt)", None, said))
        elif open_goal:  # it is of the function that is told next
            waiting.append((open_goal.group(1), said))
        elif function:
            told = re.search(r"`search` did not prove (.*?)(?:;|$)", said)
            waiting += [(goal, said) for goal in re.findall(r"`([^`]*)`", told.group(1))] if told else []
            found += [(f"`{goal}` of `{function.group(1)}`", function.group(1), said) for goal, said in waiting]
            waiting = []
    return found


def same(fact, other):
    """Whether two facts are one: a function in a ring of calls has its proof in a folder with a plus."""
    return fact is not None and fact.replace("`+", "`") == other.replace("`+", "`")


def fault(refused, fact, alone):
    """What is wrong with the refusals of an edit by what it names; nothing: it is refused at that fact, as a statement that is not proved."""
    function = re.fullmatch(r"`[^`]*` of `\+?(\w+)`", fact)
    near = [said for _, place, said in refused if alone or not function or place == function.group(1)]
    near = [said for said in near if not gone.search(said)] if not alone else near
    told = [said for name, _, said in refused if same(name, fact)]
    if not told:
        return f"it is not refused at {fact}, but at {', '.join(dict.fromkeys(name for name, _, _ in refused if name)) or 'nothing'}"[:400]
    for said in (told[0], near[0] if near else told[0]):
        if shape.search(said) or not unproved.search(said):
            return said[:300]
    return None


# as the check words them: facts, and edits that were made to be refused for their shape
log = """./proofs/pcset/PcSet/least/Answers.antt:5:13: error: `returns`: as printed, the two types differ only where one has `lib.Count.count_leading_zeros`
  (expected), right after `mathlib.Core.Path.◌≡◌ (`, and the other has `lib.Count.count_trailing_zeros` (found)
./proofs/most/Answers.antt:1:1: error: `returns`: record `Rattle.word.proofs.most.Lts.After` has no field `if-n-lt10` (nearest: .if-n-lt11)
  the fields that can be named here are `before`, `args`
./proofs/most/Answers.antt:9:1: error: 2 declarations that depend on `inside`, which was rejected, were not checked: returns
./proofs/few/Answers.antt:6:31: error: `returns-then-n-lt10`: `goal.returns-then-n-lt10`: module `Rattle.word.proofs.few.Goals` has no `returns-then-n-lt10` that can be named from here
./proofs/few/Answers.antt:8:12: error: `returns`: `omega`: the goal does not follow from what it read. All of that holds, and the goal fails, at `c.args.n` = 256
./proofs/Answers.antt:1:1: error: `bit_high`: expected type `bit x 0 ≡ true`, but this has type `bit x 1 ≡ true`
./proofs/Bits.antt:1:1: error: `bit_low`: expected type `bit x 0 ≡ true`, but this has type `bit x 1 ≡ true`
note: src/lib.rt:44:29: it is not proved that what `digit` requires holds at this call (`digit-requires`); `search` gave up at one of its limits
note: a goal may be false even if its line does not say so
fn word::put_decimal: not proved
note: src/lib.rt:98:1: it is not proved that what the function ensures holds when it returns (`returns-in-Steps`)
fn word::mark: no proof: expected answers in ./proofs/mark/Answers.antt; `search` did not prove `returns-in-Steps`
fn word::keep: no proof: it calls `word::mark`, which is not proved"""
for fact, alone, right in (
    ("`returns` of `least`", True, True),
    ("`returns` of `most`", False, False),
    ("`returns` of `few`", False, True),
    ("`returns-then-n-lt10` of `few`", False, False),
    ("`bit_low` (word/proofs/Bits.antt)", True, True),
    ("`bit_high` (word/proofs/Answers.antt)", True, True),
    ("`digit-requires` of `+put_decimal`", False, True),
    ("`returns-in-Steps` of `mark`", False, True),
    ("`returns` of `keep`", False, False),
    ("`inside` of `most`", False, False),
):
    assert (fault(refusals(log, "word"), fact, alone) is None) == right, fact
for other in (
    "note: what antt said",
    "./proofs/p/Answers.antt:10:39: error: `returns`: record `Lts.After-shared-slice-known` has no field `args`",
    "./proofs/p/Answers.antt:12:22: error: `returns`: `goal.at.returns`: module `Rattle.c.proofs.p.Goals` has no `at` that can be named from here",
    "./proofs/p/Answers.antt:21:53: error: `returns`: `ℕ` is not in scope",
    "./proofs/p/Answers.antt:25:74: error: `returns`: this tuple has 2 components but its type has 3",
    "./src/lib.rt:1:1: error: `returns`: the two types differ",
):
    assert fault(refusals(other, "c"), "`returns` of `p`", True), other


def log_of(crate, file):
    log = root / "target" / "must-fail" / crate / f"{file}.log"
    return log.read_text(encoding="utf-8") if log.exists() else ""


if sys.argv[2:3] == ["facts"]:
    crate, file = sys.argv[3].split("/")
    print("\n".join(dict.fromkeys(fact for fact, _, _ in refusals(log_of(crate, file), crate) if fact)))
    sys.exit()
faults = 0
found = edits(sorted((root / "crates").iterdir()))
together = collections.Counter((crate, file) for crate, file, _ in found)
places = set()
for crate, file, said in found:
    text, fact, wrong = log_of(crate, file), said.get("at", "a fact that its file names"), None
    alone = together[crate, file] == 1
    if not text:
        wrong = "it was not tried: run tests/edits.sh"
    elif not alone:
        code = (root / "crates" / crate / said["file"]).read_text(encoding="utf-8")
        kind, place = re.findall(r"^ *(?:pub )?(?:extern \"C\" )?(fn|const) (\w+)", code[: code.index(said["old"])], flags=re.M)[-1]
        if not said["file"].startswith("src/") or (crate, file, said["file"], place) in places:
            wrong = f"it is not in a function of its own, but in {place}"
        elif kind == "fn" and "at" in said and place not in re.split("[`+]", fact):
            wrong = f"it is in {place}, and names {fact}"
        places.add((crate, file, said["file"], place))
    wrong = wrong or fault(refusals(text, crate), fact, alone)
    if wrong:
        print(f"edits: {crate}/{said.get('name', file)}: {wrong}")
        faults += 1
print(f"edits: {len(found) - faults} of {len(found)} refused at the goal or the law that is named, in {len(together)} checks")
sys.exit(bool(faults))
