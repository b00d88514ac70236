"""The must-fail edits, as their files say: crates/NAME/must-fail/FILE.edit has one or more, each with

    name: what it is called in docs/CONTRACTS.md
    of: the operation that it is a wrong answer of
    wrong: the wrong answer
    ties: the item of document 01 that it tries, if it is one
    at: the fact at which it has to be refused, `goal` of `function` or `law` (file)
    file:, old:, new: the change

All edits of a file are made in one copy of the crate, which is one check. So each of them is in a function of its own: a function's proof knows of another one only the
contract, and what is refused in it is refused for its own edit. An edit of a definition stands alone, since it is felt everywhere.

A goal is named after the code, `returns-then-n-lt10` after `n < 10`: an edit that turns a comparison keeps its words, `n - n / 10 < 10`, or what is refused is the name.
`rt` reads the lines of the change alone, and says of the first other one that it does not."""
import re


def edits(crates):
    """(crate, file's name, what is said) of every edit of the crates, in their order."""
    return [
        (crate.name, file.stem, dict(re.findall(r"^(name|of|wrong|ties|at|file|old): (.*)$", part, flags=re.M)))
        for crate in crates
        for file in sorted((crate / "must-fail").glob("*.edit"))
        for part in re.split(r"\n(?=name: )", file.read_text(encoding="utf-8"))
    ]
