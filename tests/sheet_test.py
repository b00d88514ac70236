"""Session files, whole and damaged, each beside the sheet that document 01 gives: FOLDER/N.session and FOLDER/N.sheet."""
import random
import sys

from cards import *

rng = random.Random(20261118)
folder = sys.argv[1]
number = 0


def keep(data):
    global number
    with open("%s/%d.session" % (folder, number), "wb") as out:
        out.write(data)
    with open("%s/%d.sheet" % (folder, number), "w") as out:
        out.write(sheet(data))
    number += 1


def rest(*v):
    return record(5, bytes(v))


def vector(*v):
    return record(6, bytes(v))


example = card(inp(), inp(), inp(), gate(AND, 0, 1), gate(OR, 3, 2)) + rest(0, 1, 1) + vector(1, 1, 0)
# cut at each byte, and each byte another
for cut in range(len(example) + 1):
    keep(example[:cut])
for at in range(len(example)):
    for change in (1, 2, 4, 255):
        keep(example[:at] + bytes([example[at] ^ change]) + example[at + 1 :])
# records out of place, of wrong kinds and lengths
small = card(inp(), gate(NOT, 0))
for tail in (
    b"",
    vector(1),
    vector(),
    rest(),
    rest(2),
    rest(0, 0),
    rest(0) + vector(2),
    rest(0) + vector(0, 1),
    rest(0) + vector(),
    rest(0) + END,
    rest(0) + vector(1) + END,
    END,
    rest(0) + vector(1) + inp(),
    rest(0) + vector(1) + record(0),
    rest(0) + vector(1) + record(7, b"\1"),
    rest(0) + vector(1) + record(1541),
    rest(0) + vector(1) + b"\0",
    rest(0) + vector(1) + b"\1\0\6",
    rest(0) + vector(1) + b"\1\0\6\0",
    rest(0) + vector(1) + b"\2\0\6\0\1",
    rest(0) + vector(1) + b"\377\377\5\0" + bytes(70),
    rest(0) + vector(1) + b"\377\377\7\0" + bytes(70),
    rest(0) + vector(1) + vector(0) + rest(1) + vector(0) + vector(0, 0) + vector(1),
    rest(0) + rest(1) + vector(0) + rest(3),
    rest(0) + vector(1) + example,
    vector(1, 1) + rest(0),
):
    keep(small + tail)
for front in (b"", END, record(4, b"\0"), inp(), rest(0) + small, record(4, b"\0" * 9)[:6], record(9) + small, const(1) + END + rest()):
    keep(front)
    keep(front + rest(0) + vector(1))
# the largest cards, and those just past each limit
for data in (chain(63), chain(64), wide(256), wide(257), ladder_card([63, 63, 10], 9), ladder_card([63, 63, 10], 10), ladder_card([10], 0)):
    inputs = data.count(inp()) if data in (wide(256), wide(257)) else 1
    keep(data + rest(*[0] * inputs) + vector(*[1] * inputs) + vector(*[0] * inputs) + vector(*[1] * (inputs - 1)))
# files of 65,536 bytes, one byte less and more: full of the smallest vectors, and of one record that ends with the file
full = card(inp(), gate(AND, 0, 0, 0, 0)) + rest(0)
while len(full) < 65536:
    full += vector(rng.randrange(2))
assert len(full) == 65536
for data in (full, full[:-1], full + b"\0", full + vector(1), full + bytes(9000)):
    keep(data)
for size in (65535, 65536, 65537):
    keep(small + record(6, bytes(size - len(small) - 4)))
    keep(small + rest(0) + record(5, bytes(size - len(small) - 9)))
    keep(bytes(size))
# random cards, rests and vectors, now and then a damaged byte
for _ in range(150):
    data = random_card(rng, rng.choice([2, 3, 6, 12, 40, 120, 256]))
    inputs = sum(net[0] == "input" for net in loads(data)[1].nets) if loads(data)[1] else 1
    bits = lambda: [rng.randrange(2) for _ in range(inputs)]
    data += rest(*bits())
    for _ in range(rng.choice([0, 1, 2, 5])):
        data += rest(*bits()) if rng.random() < 0.1 else vector(*bits())
    if rng.random() < 0.3:
        at = rng.randrange(len(data))
        data = data[:at] + bytes([rng.randrange(256)]) + data[at + 1 :]
    keep(data)
