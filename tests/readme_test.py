"""The README's examples, cut out of it: `readme_test.py hex` gives its session in hex, `readme_test.py sheet` the lines of its sheet."""
import re
import sys

parts = re.split(r"^## ", open("../README.md", encoding="utf-8").read(), flags=re.M)
section = {part.split("\n")[0]: part for part in parts}
if sys.argv[1] == "sheet":
    for line in re.findall(r"^\| `([^`]*)` \|", section["The sheet of the example"], flags=re.M):
        print(line)
else:
    for line in re.findall(r"^    ([0-9a-f ]+#.*)$", section["How to write a card"], flags=re.M):
        print(line)
