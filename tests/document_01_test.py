"""The examples of document 01 that are not in the proved table, as a drill script; document_01.answers has what the document says of each."""
from cards import *


def show(data, *lines):
    print("load " + (data.hex() or "-"))
    for line in lines:
        print(line)


# "63 BUFs in a chain are taken; 64 get 6. A gate on its own pin, on a card with an input, gets 5."
show(chain(63), "rest 00", "steps 01")
show(chain(64))
show(card(inp(), gate(BUF, 1)))
# "256 nets are taken; a 257th gets 3."
show(wide(256))
show(wide(257))
# "A ladder of k rungs has k(k+1)/2 steps."
for k in (1, 2, 3, 10, 63):
    show(ladder_card([k], 0), "rest 00", "steps 01")
# "Two of 63 rungs, one of 10 and nine BUFs of a make 4,096 and are taken; a tenth BUF gets 7."
show(ladder_card([63, 63, 10], 9), "rest 00", "steps 01")
show(ladder_card([63, 63, 10], 10))
# "No bytes at all: 1. An end record alone: 9."
show(b"")
show(END)
