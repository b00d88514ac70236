"""What the documents say of the tree, compared with the tree: `audit_test.py ROOT`. Prints each fault, and fails if there is one.

1. Every function that has a `requires` is called, step by step, from a program's main or from a call for C; these ask nothing. As many functions have no `ensures` as
   docs/AUDIT.md says, all of them in the programs; in the impl of a trait the trait's `ensures`, or the impl's ghost member, stands for one.
2. docs/AUDIT.md has every definition of specs/ at its crate and file, and no other. Definitions are written in four ways and in no other; that there is one proof of
   something at most (`IsProp`), which a ghost field needs, is no definition. A file of specs/Inner says that it is inner and names a law that ties it, which is there.
   Neither a definition outside Inner, nor what demands/proofs says, nor the contract of an operation that docs/CONTRACTS.md calls public speaks of an inner definition,
   and no such operation takes a type with a ghost field or an invariant; and every other definition is one that these, the examples, the laws of the host's calls, a function below the
   operations or a theorem of docs/CONTRACTS.md are built from.
3. In the README and in every document of docs/ but the two that name what was, docs/PORT.md and docs/DESIGN-PASS.md, names with a path behind them are defined in that
   file, and every other name occurs somewhere in the tree, but for docs/REQUESTS.md, which names what is still to come. docs/CONTRACTS.md names every edit and every
   theorem once, and a public operation has two edits at least, by what these say that they are of. docs/figures and docs/drawing would write what stands.
4. host/krasvome.h has the length of a session that host_bytes has. The calls of host_c are those of host, with their clauses. No file of host_bytes, or of a crate that
   uses it, writes out where a part of a session stands, but for the definitions and the constants themselves.
5. No line of prose in the README or in docs/ has more than 160 characters, and none of code or definitions more than 200.
"""
import pathlib
import re
import subprocess
import sys

from believed import built, cited, definitions, stated, visible
from must_fail import edits

root = pathlib.Path(sys.argv[1])
crates = root / "crates"
faults = []


def names_of(cell):
    return re.findall(r"`([^`]*)`", cell)


# --- 1. functions


def bare(text):
    """A function's text without its clauses."""
    found, at = "", 0
    for clause in re.finditer(r"^ *(?:requires|ensures) (?:\w+ )?\{", text, flags=re.M):
        if clause.start() < at:
            continue
        found += text[at : clause.start()]
        at, deep = clause.end(), 1
        while deep and at < len(text):
            deep += {"{": 1, "}": -1}.get(text[at], 0)
            at += 1
    return found + text[at:]


def blocks(text):
    """The blocks of impls and traits of a file: where each begins and ends, its name and its text. Of `impl<T> Trait for Type` the name is `Trait for Type`."""
    found = []
    for head in re.finditer(r"^(?:pub )?(impl|trait)\b([^{;]*)\{", text, flags=re.M):
        end = text.index("\n}", head.end() - 1)
        name = re.sub(r"^<[^<>]*>" if head.group(1) == "impl" else r":.*", "", " ".join(head.group(2).split())).strip()
        found.append((head.start(), end, name, text[head.end() : end]))
    return found


def functions(crate):
    """The functions of a crate: the clauses of `requires` of each, what it calls by name, what it calls as a method, whether it is one, and whether something is promised of it.
    That is an `ensures` of its own, or, in the impl of a trait, the impl's ghost member about it, as `ghost from_gives` is about `from`, or an `ensures` of the trait."""
    found = {}
    for file in sorted((crates / crate / "src").glob("**/*.rt")):
        text = re.sub(r"//.*", "", file.read_text(encoding="utf-8"))
        heads = list(re.finditer(r"^( *)(?:pub )?(?:extern \"C\" )?fn (\w+)", text, flags=re.M))
        for head, after in zip(heads, heads[1:] + [None]):
            part = text[head.end():after.start() if after else len(text)]
            asks = len(re.findall(r"^ *requires (?:\w+ )?\{", part, flags=re.M))
            body = bare(part)
            calls = {(c or crate, n) for c, n in re.findall(r"(?<![.\w:])(?:([a-z_]+)::)?([a-z_0-9]+)\(", body)}
            methods = set(re.findall(r"(?:\.|\b(?:[A-Z]\w*|[ui][0-9]+|usize)::)([a-z_0-9]+)\(", body)) | ({"from"} if "?" in body else set())
            name = head.group(2)
            promised = bool(re.search(r"^ *ensures (?:\w+ )?\{", part, flags=re.M))
            for start, end, block, inside in blocks(text):
                if start < head.start() < end:
                    name = f"{block}::{name}"
                    if " for " in block:
                        by_trait = re.sub(r"<.*", "", block.split(" for ")[0]) + "::" + head.group(2)
                        promised |= bool(re.search(rf"^ *ghost {head.group(2)}_gives = ", inside, flags=re.M)) or by_trait in traits
            found[name] = (asks, calls, methods, bool(head.group(1)), promised)
    return found


listed = [line.split(":")[0].split()[0] for line in (root / "crates.txt").read_text().splitlines() if line and not line.startswith("#")]
traits = set()  # the functions of our traits of which the trait promises something
for crate in listed:
    for file in sorted((crates / crate / "src").glob("**/*.rt")):
        for _, _, block, inside in blocks(re.sub(r"//.*", "", file.read_text(encoding="utf-8"))):
            traits |= {f"{block}::{name}" for name in re.findall(r"^ *fn (\w+)[^;{]*?\n *ensures (?:\w+ )?\{", inside, flags=re.M) if " for " not in block}
known = {(crate, name): function for crate in listed for name, function in functions(crate).items()}
of_method = {}
for key in known:
    if known[key][3]:
        of_method.setdefault(key[1].split("::")[-1], []).append(key)
reached, waiting = set(), [key for key in known if key[1] == "main" or key[1].startswith("krasvome_")]
roots = list(waiting)
while waiting:
    key = waiting.pop()
    if key in reached:
        continue
    reached.add(key)
    _, calls, methods, _, _ = known[key]
    waiting += [call for call in calls if call in known and not known[call][3]]
    waiting += [called for name in methods for called in of_method.get(name, [])]
for key in roots:
    if known[key][0]:
        faults.append(f"{key[0]}::{key[1]} begins a chain of calls and asks something")
asking = [key for key in known if known[key][0]]
for key in asking:
    if key not in reached:
        faults.append(f"{key[0]}::{key[1]} asks something and no program and no call for C reaches it")

audit = (root / "docs/AUDIT.md").read_text(encoding="utf-8")
silent = [key for key in known if not known[key][4]]
if f"{len(silent)} functions have no `ensures`" not in audit:
    faults.append(f"docs/AUDIT.md does not say that {len(silent)} functions have no ensures")
for key in silent:
    if key[0] not in ("sheet", "drill"):
        faults.append(f"{key[0]}::{key[1]} is in no program and has no ensures")

# --- 2. definitions

for place in sorted(crates.iterdir()):
    if place.name not in listed:
        faults.append(f"crates.txt does not have {place.name}")
defined = {}
for crate in listed:
    for file in sorted((crates / crate / "specs").glob("**/*.antt")):
        place = str(file.relative_to(crates / crate / "specs"))
        if file.parent.name not in ("specs", "Inner"):
            faults.append(f"{crate}/specs has a folder, {file.parent.name}")
        for line in file.read_text(encoding="utf-8").splitlines():
            other = re.match(r"(?:(?:pub|abbrev|unfoldable) )?([^\s:]+) : ", line) or re.match(r" *(?:abbrev|unfoldable|data|record) (?!pub )([^\s:]+) .*:", line)
            if other and not re.match(r" *(?:abbrev pub|unfoldable pub|pub data|pub record|module|--|infix)|pub [\w-]+-prop : .* → IsProp ", line):
                faults.append(f"{crate}/specs/{place} defines {other.group(1)} in another way")
        for name in re.findall(r"^ *(?:abbrev pub|unfoldable pub|pub data|pub record) ([^\s:]+)", file.read_text(encoding="utf-8"), flags=re.M):
            defined.setdefault((crate, name), set()).add(place)
said = {}
for section in re.split(r"^### ", audit, flags=re.M)[1:]:
    crate = section.split("\n")[0].strip()
    if crate not in listed:
        continue
    for row in re.findall(r"^\| (`[^|]*) \| ([\w/]+\.antt) \|", section.split("\n## ")[0], flags=re.M):
        for name in names_of(row[0]):
            said.setdefault((crate, name), set()).add(row[1])
for key in sorted(set(defined) | set(said)):
    here, there = defined.get(key, set()), said.get(key, set())
    for file in sorted(here - there):
        faults.append(f"docs/AUDIT.md does not have {key[1]} ({key[0]}/specs/{file})")
    for file in sorted(there - here):
        faults.append(f"docs/AUDIT.md has {key[1]}, which {key[0]}/specs/{file} does not define")

for crate in listed:
    for file in sorted((crates / crate / "specs").glob("**/*.antt")):
        text, place = file.read_text(encoding="utf-8"), file.relative_to(crates)
        inner = file.parent.name == "Inner"
        if not inner and re.search(r"^use \S*\.specs\.Inner\.", text, flags=re.M):
            faults.append(f"{place} is built from inner definitions")
        if inner:
            head = " ".join(line[3:] for line in text[: text.index("\nuse ")].splitlines())
            if not head.startswith("Inner: "):
                faults.append(f"{place} does not say that it is inner")
            ties = re.findall(r"((?:`[^`]+`(?:, | and ))*`[^`]+`) \(([a-z_]+/proofs/\w+\.antt)\)", head)
            if not ties:
                faults.append(f"{place} names no law that ties it")
            for names, path in ties:
                for name in names_of(names):
                    if not (crates / path).exists() or not re.search(rf"^ *pub {re.escape(name)} ", (crates / path).read_text(encoding="utf-8"), flags=re.M):
                        faults.append(f"{place} is tied by {name} ({path}), which is not there")
for file in sorted((crates / "demands/proofs").glob("**/*.antt")):
    if re.search(r"^use \S*\.specs\.Inner\.", file.read_text(encoding="utf-8"), flags=re.M):
        faults.append(f"the demands speak of inner definitions ({file.name})")

contracts = (root / "docs/CONTRACTS.md").read_text(encoding="utf-8")
bodies = {}  # of each struct, its text
for crate in listed:
    for file in sorted((crates / crate / "src").glob("**/*.rt")):
        bodies |= dict(re.findall(r"^(?:pub )?struct (\w+)[^;{]*\{\n(.*?)^\}", re.sub(r"//.*", "", file.read_text(encoding="utf-8")), flags=re.M | re.S))
narrow = {name for name, body in bodies.items() if re.search(r"^ *ghost \w+: ", body, flags=re.M)}  # what has a ghost field or an invariant, or a field of such a type
for crate in listed:
    for file in sorted((crates / crate / "src").glob("**/*.rt")):
        models = [(block, inside) for _, _, block, inside in blocks(file.read_text(encoding="utf-8")) if block.startswith("Model for ")]
        narrow |= {re.sub(r"<.*", "", block.removeprefix("Model for ")) for block, inside in models if re.search(r"^ *ghost invariant = ", inside, flags=re.M)}
while more := {name for name, body in bodies.items() if narrow & set(re.findall(r"\w+", body))} - narrow:
    narrow |= more


def said_of(title):
    """The functions that a table of docs/CONTRACTS.md names, and what their contracts cite."""
    functions, cites = set(), set()
    for row in re.findall(r"^\| (`.*?) \|", contracts.split(f"\n## {title}\n")[1].split("\n## ")[0], flags=re.M):
        for names, crate in re.findall(r"((?:`[^`]+`(?:, )?)+) \(([a-z_]+)\)", row):
            functions |= {(crate, name) for name in names_of(names)}
    for crate, name in sorted(functions):
        found, (of, bare_name) = [], name.rpartition("::")[::2]
        for file in sorted((crates / crate / "src").glob("**/*.rt")):
            text = re.sub(r"//.*", "", file.read_text(encoding="utf-8"))
            for part in [inside for _, _, block, inside in blocks(text) if re.sub(r"<.*", "", block) == of] if of else [text]:
                found += [(contract, visible(text)) for contract in re.findall(rf"^ *pub (?:extern \"C\" )?fn {bare_name}\b(.*?)^ *\{{$", part, flags=re.M | re.S)]
        if len(found) != 1:
            faults.append(f"docs/CONTRACTS.md has {crate}::{name}, and there are {len(found)}")
        for contract, names in found:
            here = cited(contract, names)
            cites |= here
            if title == "Public operations":
                takes = re.split(r"^ *(?:requires|ensures) ", contract, flags=re.M)[0]
                faults.extend(f"{crate}::{name} takes a {kind}, which asks something" for kind in sorted(narrow & set(re.findall(r"\w+", takes))))
                faults.extend(f"the contract of {crate}::{name} speaks of {cite[2]}, which is inner" for cite in sorted(here) if cite[1].startswith("Inner"))
    return functions, cites


public, starts = said_of("Public operations")
known_by = definitions([crates / crate for crate in listed])
starts |= {key for key in known_by if key[0] in ("demands", "examples", "host_laws")}
starts |= {place for file in (crates / "demands/proofs").glob("*.antt") for place in visible(file.read_text(encoding="utf-8")).values()}
for key in sorted(built(known_by, starts)):
    if key[1].startswith("Inner"):
        faults.append(f"{key[0]}/specs/{key[1]}.antt has {key[2]}, which the demands or an operation are built from")
starts |= said_of("Below them")[1]
for names, path in re.findall(r"((?:`[^`]+`(?:, | and | \.\. ))*`[^`]+`),? \(([a-z_]+/proofs[^)\s]*?)[,;)]", re.sub(r"\s+", " ", contracts)):
    for file in [crates / path] if path.endswith(".antt") else sorted((crates / path).glob("*.antt")):
        if file.exists():
            starts |= stated(file, names_of(names))
for key in sorted(set(known_by) - built(known_by, starts)):
    if not key[1].startswith("Inner"):
        faults.append(f"{key[0]}/specs/{key[1]}.antt has {key[2]}, which nothing that is to be believed is built from")

# --- 3. names with a path behind them, and edits


def defines(files, name):
    pattern = re.compile(rf"^ *(?:(?:abbrev|unfoldable|pub|data|record) )*{re.escape(name)} [^=\n]*:", flags=re.M)
    return any(pattern.search(file.read_text(encoding="utf-8")) for file in files)


def files_at(path):
    """The files that a path in a document means: a file, the files in braces, or a directory's."""
    braces = re.fullmatch(r"(.*)/\{(.*)\}\.antt", path)
    if braces:
        return [crates / braces.group(1) / f"{name}.antt" for name in braces.group(2).split(",")]
    there = crates / path
    return [there] if path.endswith(".antt") else sorted(there.glob("*.antt"))


pathed, tokens = 0, set()
for place in ("crates", "host", "tests", "speed", "examples"):
    for file in (root / place).rglob("*"):
        if "out" in file.relative_to(root).parts:  # what checks made
            continue
        if file.is_file() and not file.stem.startswith("audit") and file.suffix in (".rt", ".antt", ".c", ".h", ".py", ".sh", ".txt", ".edit", ""):
            tokens |= set(re.findall(r"[A-Za-z_][\w-]*", file.read_text(encoding="utf-8", errors="replace"))) | {file.name, file.stem}
        elif file.is_dir():
            tokens.add(file.name)
# docs/PORT.md says what names were at the port, docs/DESIGN-PASS.md has what was beside what is: a name of theirs is in the tree, or among those of the second.
older = {name for name in re.findall(r"[A-Za-z_][\w-]*", (root / "docs/DESIGN-PASS.md").read_text(encoding="utf-8"))}
for document in ("README.md", *(f"docs/{file.name}" for file in sorted((root / "docs").glob("*.md")))):
    past = older if document in ("docs/PORT.md", "docs/DESIGN-PASS.md") else set()
    text = re.sub(r"\s+", " ", (root / document).read_text(encoding="utf-8"))
    if document != "docs/REQUESTS.md":  # it names what is still to come
        for name in sorted({part for name in re.findall(r"`([A-Za-z_][\w-]*(?:::[a-z_]+)?)`", text) for part in name.split("::")} - tokens - past):
            if re.fullmatch("(?:[0-9a-f]{2})+", name):  # bytes
                continue
            faults.append(f"{document}: there is no {name}")
    for names, path in re.findall(r"((?:`[^`]+`(?:, | and ))*`[^`]+`),? \(([a-z_]+/(?:specs|proofs)[^)\s]*?)[,;)]", text):
        files = files_at(path)
        if not files or not all(file.exists() for file in files):
            faults.append(f"{document}: there is no {path}")
            continue
        for name in names_of(names):
            pathed += 1
            if not defines(files, name) and name not in past:
                faults.append(f"{document}: {path} does not define {name}")
tried = edits([crates / crate for crate in listed])
for edit, text in sorted((f"{crate}/{text.get('name', file)}", text) for crate, file, text in tried):
    if contracts.count(f"| {edit} |") != 1 or len(re.findall(rf"(?<![\w/-]){re.escape(edit)}(?![\w-])", contracts)) != 1:
        faults.append(f"docs/CONTRACTS.md does not name the edit {edit} once")
    for said in ("name", "of", "wrong", "at"):
        if said not in text:
            faults.append(f"{edit} does not say what it is '{said}'")
for crate, name in sorted(public):
    of = sum(name in text.get("of", "").split(", ") for _, _, text in tried)
    if of < 2:
        faults.append(f"{crate}::{name} is public, and has {of} wrong answers")
laws = {name for crate in listed for file in (crates / crate / "proofs").glob("*.antt") for name in re.findall(r"^ *pub (\w+_\w+) ", file.read_text(encoding="utf-8"), flags=re.M)}
theorems = [name for name in re.findall(r"`(\w+)`", contracts.split("<!-- edits -->")[0]) if name in laws]
for name in sorted({name for name in theorems if theorems.count(name) > 1}):
    faults.append(f"docs/CONTRACTS.md names {name} {theorems.count(name)} times")
if subprocess.run([sys.executable, str(root / "docs/figures"), "--check"], stdout=subprocess.DEVNULL, stderr=subprocess.DEVNULL).returncode:
    faults.append("docs/figures would write something else")
if subprocess.run([sys.executable, str(root / "docs/drawing"), "-"], stdout=subprocess.PIPE, stderr=subprocess.DEVNULL, text=True).stdout != (root / "docs/crates.svg").read_text(encoding="utf-8"):
    faults.append("docs/drawing would draw something else")

# --- 4. the layout of a session

layout = {}
constant = re.compile(r"^pub const (\w+): usize = (.*);$", flags=re.M)
for name, value in constant.findall((crates / "host_bytes/src/lib.rt").read_text(encoding="utf-8")):
    layout[name] = eval(value, {}, layout)
for name in re.findall(r"^pub fn (krasvome_\w+)", (crates / "host/src/lib.rt").read_text(encoding="utf-8"), flags=re.M):
    said = [re.search(rf"^ *pub (?:extern \"C\" )?fn {name}\b(.*?)^ *\{{$", (crates / crate / "src/lib.rt").read_text(encoding="utf-8"), flags=re.M | re.S) for crate in ("host", "host_c")]
    if not said[1] or len({re.sub(r",?\s+(?=\))|\s+", "", it.group(1)) for it in said}) > 1:
        faults.append(f"host_c::{name} does not have the clauses of host::{name}")
if f"#define KRASVOME_SESSION {layout['SESSION_LENGTH']}\n" not in (root / "host/krasvome.h").read_text(encoding="utf-8"):
    faults.append(f"host/krasvome.h does not say that a session has {layout['SESSION_LENGTH']} bytes")
places = {str(place) for place in layout.values() if place > 256}
for crate in re.findall(r"^(?=.*\bhost_bytes\b)(\w+)(?: staticlib)?:", (root / "crates.txt").read_text(), flags=re.M):
    for file in sorted(file for part in ("src", "specs", "proofs") for file in (crates / crate / part).rglob("*")):
        if file.suffix in (".rt", ".antt") and file.name != "Layout.antt":
            numbers = re.findall(r"\d[\d,]*", constant.sub("", file.read_text(encoding="utf-8")))
            for place in sorted(places & {number.replace(",", "") for number in numbers}):
                faults.append(f"{file.relative_to(crates)} writes {place} out")

# --- 5. lines


def long_lines(files, most, but=()):
    for file in files:
        for number, line in enumerate(file.read_text(encoding="utf-8").splitlines(), 1):
            if len(line) > most and not line.startswith(but):
                faults.append(f"{file.relative_to(root)}:{number} has {len(line)} characters")


long_lines([root / "README.md", *sorted((root / "docs").rglob("*.md"))], 160, ("|",))
long_lines([*sorted(crates.glob("*/src/**/*.rt")), *sorted(crates.glob("*/specs/**/*.antt"))], 200)

for fault in faults:
    print(f"audit: {fault}")
clauses = sum(known[key][0] for key in asking)
print(f"audit: {len(asking)} functions of {len(known)} have {clauses} clauses of requires; {len(defined)} definitions; {len(public)} operations; {pathed} names by path; {len(tried)} edits")
sys.exit(bool(faults))
