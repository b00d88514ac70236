"""Which definitions of specs/ others are built from, by the names that their texts cite and the files import."""
import re


def visible(text):
    """The names that a file imports from specs/, in blocks of impls too: where each is defined, as (crate, file, name)."""
    found = {}
    for crate, file, names in re.findall(r"^ *(?:ghost )?use Rattle\.(\w+)\.specs\.([\w.]+?)\.\{([^}]*)\}", text, flags=re.M):
        for name in names.split(","):
            first, *last = name.strip().split(" as ")
            found[last[0] if last else first] = (crate, file.replace(".", "/"), first)
    return found


def cited(text, names):
    """What a text cites of some names; an operator by what stands between its arguments."""
    text = re.sub(r"--.*", "", text)
    words = set(re.findall(r"[^\s(){}\[\];,.]+", text))
    return {place for name, place in names.items() if name in words or (name.strip("◌") != name and name.strip("◌") in words)}


def definitions(crates):
    """Of every definition of the crates what it cites."""
    found = {}
    for crate in crates:
        for file in sorted((crate / "specs").glob("**/*.antt")):
            text, place = file.read_text(encoding="utf-8"), str(file.relative_to(crate / "specs"))[:-5]
            heads = list(re.finditer(r"^ *(?:abbrev pub|unfoldable pub|pub data|pub record) ([^\s:]+)", text, flags=re.M))
            names = visible(text) | {head.group(1): (crate.name, place, head.group(1)) for head in heads}
            for head, after in zip(heads, heads[1:] + [None]):
                found[crate.name, place, head.group(1)] = cited(text[head.start() : after.start() if after else len(text)], names)
    return found


def built(found, starts):
    """The definitions that some are built from, these among them."""
    seen, waiting = set(), list(starts)
    while waiting:
        key = waiting.pop()
        if key in found and key not in seen:
            seen.add(key)
            waiting += found[key]
    return seen


def stated(file, names):
    """What the statements of some laws of a file cite, and what the file's laws are about."""
    text = file.read_text(encoding="utf-8")
    parts = re.findall(r"^ *module _ (.*?) where$", text, flags=re.M | re.S)
    for name in names:
        parts += re.findall(rf"^ *pub (?:record |data )?{re.escape(name)} (.*?)(?=^ *(?:unfolding|{re.escape(name)}) |^ *pub |\n\n|\Z)", text, flags=re.M | re.S)
    return cited("\n".join(parts), visible(text))
