"""A drill script of rests, vectors, histories and traces with the answers that document 01 gives."""
import random
import sys

from cards import *

rng = random.Random(20261116)
bench = Bench()


def hexed(data):
    return bytes(data).hex() or "-"


def say(line, answer):
    print(line if sys.argv[1] == "script" else answer)


def load(data):
    say("load " + hexed(data), "%d %d" % bench.load(data))


def rest(vector):
    say("rest " + hexed(vector), "%d %d" % bench.rest(vector))


def vector(v):
    say("vector " + hexed(v), "%d %d" % bench.vector(v))


def history(*rooms):
    say("history %d %d %d" % rooms, bench.history(rooms))


def trace(net, t, room):
    say("trace %d %d %d" % (net, t, room), bench.trace(net, t, room))


# nothing loaded, then loaded and not rested
history(1, 1, 1)
trace(0, 0, 2)
rest([0])
vector([1])
load(card(inp(), gate(NOT, 0)))
history(2, 2, 2)
trace(1, 1, 2)
vector([])
rest([])
rest([2])
rest([0, 0])
# document 01's session, P3, P5
load(bytes.fromhex("00000100000001000000010005000300020000010005000300040300020000000400"))
rest([0, 1, 1])
history(5, 5, 5)
trace(4, 0, 9)
vector([1, 1, 0])
history(5, 5, 5)
history(7, 6, 5)
history(4, 5, 5)
history(5, 4, 5)
history(5, 5, 4)
for net, t, room in ((4, 2, 3), (4, 1, 2), (4, 0, 1), (4, 2, 2), (4, 2, 5), (5, 0, 1), (4, 64, 70), (4, 2**64 - 1, 1), (2**63, 0, 1), (3, 1, 2), (2, 0, 1)):
    trace(net, t, room)
vector([1, 1])
vector([1, 1, 2])
history(5, 5, 5)
rest([0, 1, 1])
vector([0, 1, 1])
history(5, 5, 5)
# P6 to P10
for data in (
    card(inp(), gate(NOT, 0)),
    card(inp(), gate(BUF, 0), gate(XOR, 0, 1)),
    card(inp(), gate(BUF, 0), gate(BUF, 1), gate(XOR, 0, 1, 2)),
    card(inp(), gate(XOR, 0, 0)),
    card(inp(), gate(AND, 0, OPEN)),
    card(inp()),
    chain(63),
    ladder_card([63, 63, 10], 9),
):
    load(data)
    rest([0])
    vector([1])
    n = len(bench.card)
    history(n, n, n)
    for net in range(0, n, max(1, n // 7)):
        trace(net, bench.card.shape[net][0], 64)
    vector([0])
    history(n + 1, n, n)
# random cards
for _ in range(150):
    load(random_card(rng, rng.choice([2, 3, 6, 12, 40, 120, 256])))
    n = len(bench.card)
    inputs = sum(net[0] == "input" for net in bench.card.nets)
    bits = lambda: [rng.randrange(2) for _ in range(inputs)]
    rest(bits())
    for _ in range(rng.choice([1, 2, 5])):
        if rng.random() < 0.05:
            vector(bits() + [0])
        if rng.random() < 0.05:
            rest(bits())
        vector(bits())
        if rng.random() < 0.6:
            history(n + rng.choice([0, 0, 3]), n, n)
        for _ in range(3):
            net, t = rng.randrange(n), rng.randrange(10)
            moved = [(m, u) for m in range(n) for u in range(12) if bench.changed(m, u)]
            if moved and rng.random() < 0.8:
                net, t = rng.choice(moved)
            trace(net, t, t + rng.choice([0, 1, 1, 4]))
