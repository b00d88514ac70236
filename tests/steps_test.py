"""A drill script of step lists, vectors by steps and bench runs with the answers that document 01 gives."""
import itertools
import random
import sys

from cards import *

rng = random.Random(20261117)
bench = Bench()


def hexed(data):
    return bytes(data).hex() or "-"


def say(line, answer):
    print(line if sys.argv[1] == "script" else answer)


def load(data):
    say("load " + hexed(data), "%d %d" % bench.load(data))


def rest(vector):
    say("rest " + hexed(vector), "%d %d" % bench.rest(vector))


def vector(v):
    say("vector " + hexed(v), "%d %d" % bench.vector(v))


def steps(v):
    say("steps " + hexed(v), "%d %d" % bench.steps(v))


def listed(*rooms):
    say("list %d %d" % rooms, bench.list(rooms))


def records(room):
    say("records %d" % room, bench.records(room))


def history():
    rooms = (len(bench.card),) * 3
    say("history %d %d %d" % rooms, bench.history(rooms))


def run(v, order, k, room):
    spelled = ",".join("%d" % e for e in order) or "-"
    say("bench %s %s %d %d" % (hexed(v), spelled, k, room), bench.bench(v, [min(e, 65535) for e in order], k, room))


def inputs():
    return sum(net[0] == "input" for net in bench.card.nets)


def bits():
    return [rng.randrange(2) for _ in range(inputs())]


# nothing loaded, then loaded and not rested
listed(3, 3)
records(2)
steps([0])
run([0], [0], 1, 2)
load(card(inp(), gate(NOT, 0)))
listed(1, 1)
listed(0, 1)
listed(1, 0)
records(1)
records(0)
steps([])
run([], [], 9, 0)
# document 01's session: P1, P2, P4, P5
load(bytes.fromhex("00000100000001000000010005000300020000010005000300040300020000000400"))
for rooms in ((3, 3), (4, 6), (2, 3), (3, 2), (0, 0)):
    listed(*rooms)
for room in (3, 5, 2, 0):
    records(room)
for order in itertools.permutations(range(3)):
    for k in range(5):
        rest([0, 1, 1])
        run([1, 1, 0], order, k, 3)
        history()
rest([0, 1, 1])
steps([1, 1, 0])
history()
rest([0, 1, 1])
steps([0, 1, 1])
history()
# each refusal ahead of the ones after it
run([0, 1], [0, 0], 9, 0)
run([0, 1, 2], [0, 0], 9, 0)
run([0, 1, 0], [0, 0], 9, 0)
run([0, 1, 0], [0, 0, 2], 9, 0)
run([0, 1, 0], [0, 3, 2], 9, 0)
run([0, 1, 0], [0, 65535, 2], 9, 0)
run([0, 1, 0], [0, 65536, 2], 9, 0)
run([0, 1, 0], [2**64 - 1, 1, 2], 9, 0)
run([0, 1, 0], [2, 0, 1], 9, 0)
run([0, 1, 0], [0, 1, 2], 9, 0)
run([0, 1, 0], [0, 1, 2], 2**64 - 1, 9)
run([0, 1, 0], [0, 1, 2], 2**32, 9)
run([0, 1, 0], [0, 1, 2], 3, 2)
run([0, 1, 0], [0, 1, 2], 0, 2)
run([0, 1, 0], [], 0, 9)
history()
# a card without gates: the empty list is whole at k = 0, and moves the session
load(card(inp(), const(1)))
rest([0])
listed(0, 2)
run([1], [], 1, 0)
run([1], [], 0, 1)
history()
# ladders, the longest chain, and the largest list: in its own order, in good orders, and by levels from the last
for data in (chain(63), ladder_card([10], 0), ladder_card([63, 63, 10], 9)):
    load(data)
    rest([0])
    total = len(bench.card.steps())
    listed(total, total)
    records(total)
    steps([1])
    history()
    run([0], range(total), total, total)
    history()
    for k in (total, total // 3, 1, 0):
        run([1], good_order(rng, bench.card), k, total + 2)
    run([0], range(total)[::-1], total, total)
    history()
# random cards: both engines and the bench run, mixed
for _ in range(120):
    load(random_card(rng, rng.choice([2, 3, 6, 12, 40, 120, 256])))
    if bench.card is None:
        continue
    total = len(bench.card.steps())
    listed(total + rng.choice([0, 0, 2]), total)
    records(total + rng.choice([0, 0, 2]))
    rest(bits())
    for _ in range(rng.choice([2, 4, 6])):
        way = rng.random()
        if way < 0.3:
            steps(bits())
        elif way < 0.4:
            vector(bits())
        else:
            order = good_order(rng, bench.card)
            if order and rng.random() < 0.4:
                a, b = rng.randrange(total), rng.randrange(total)
                if rng.random() < 0.7:
                    order[a], order[b] = order[b], order[a]
                else:
                    order[a] = rng.choice([order[b], total, 65535])
            run(bits(), order, rng.choice([total, total, rng.randrange(total + 2)]), total + rng.choice([0, 0, 1, 4]))
        if rng.random() < 0.5:
            history()
