"""Cards as bytes, and what document 01 says of any bytes: written from the document alone, for comparison with the proved programs."""
import struct

BUF, NOT, AND, NAND, OR, NOR, XOR, XNOR = range(8)
OPEN = 65535


def record(kind, body=b""):
    return struct.pack("<HH", len(body), kind) + body


def inp():
    return record(1)


def const(value):
    return record(2, bytes([value]))


def gate(kind, *pins):
    return record(3, bytes([kind]) + b"".join(struct.pack("<H", p) for p in pins))


END = record(4)


def card(*records):
    return b"".join(records) + END


def chain(n):
    """One input and n BUFs in a row."""
    return card(inp(), *[gate(BUF, i) for i in range(n)])


def wide(n):
    """n nets, all inputs."""
    return card(*[inp()] * n)


def ladder_card(rungs, bufs):
    """Ladders of the given numbers of rungs on one input (BUF a, then AND of a and the rung before), and some BUFs of it."""
    nets = [inp()]
    for k in rungs:
        for r in range(k):
            nets.append(gate(BUF, 0) if r == 0 else gate(AND, 0, len(nets) - 1))
    nets += [gate(BUF, 0)] * bufs
    return card(*nets)


def loads(data):
    """(number, card): what load answers, and a taken card."""
    nets, at = [], 0
    while True:
        if len(data) < at + 4:
            return 1, None
        length, kind = struct.unpack_from("<HH", data, at)
        fits = {1: length == 0, 2: length == 1, 3: length in (3, 5, 7, 9, 11, 13, 15, 17), 4: length == 0}
        if not fits.get(kind, False):
            return 2, None
        body = data[at + 4 : at + 4 + length]
        if len(body) < length:
            return 1, None
        at += 4 + length
        if kind == 4:
            break
        if kind == 2 and body[0] > 1:
            return 2, None
        if kind == 3:
            pins = [struct.unpack_from("<H", body, 1 + 2 * i)[0] for i in range((length - 1) // 2)]
            wanted = {0: (1, 1), 1: (1, 1)}.get(body[0], (2, 8))
            if body[0] > 7 or not wanted[0] <= len(pins) <= wanted[1]:
                return 2, None
        if len(nets) == 256:
            return 3, None
        nets.append(("input",) if kind == 1 else ("constant", body[0]) if kind == 2 else ("gate", body[0], pins))
    if at != len(data):
        return 8, None
    if not any(n[0] == "input" for n in nets):
        return 9, None
    if any(p >= len(nets) and p != OPEN for n in nets if n[0] == "gate" for p in n[2]):
        return 4, None
    known = {}
    try:
        shape = [levels(nets, n, known, ()) for n in range(len(nets))]
    except RecursionError:
        return 5, None
    if max(level for level, _ in shape) > 63:
        return 6, None
    if sum(len(times) for net, (_, times) in zip(nets, shape) if net[0] == "gate") > 4096:
        return 7, None
    return 0, Card(nets, shape)


class Card:
    """A taken card: its nets, and a level and a PC-set for each."""

    def __init__(self, nets, shape):
        self.nets, self.shape = nets, shape

    def __len__(self):
        return len(self.nets)

    def steps(self):
        """The step list: by level, then net, then time."""
        gates = sorted((self.shape[n][0], n) for n in range(len(self)) if self.nets[n][0] == "gate")
        return [(n, t) for _, n in gates for t in sorted(self.shape[n][1])]

    def reads(self, net, t):
        """The steps that a step reads: of each pin its largest element strictly below, where that is not 0."""
        pins = [p for p in self.nets[net][2] if p != OPEN and self.nets[p][0] == "gate"]
        below = [(p, max([0] + [u for u in self.shape[p][1] if u < t])) for p in pins]
        return {(p, u) for p, u in below if u}


def levels(nets, net, known, above):
    """(level, PC-set) of a net; a net that reaches itself is an error."""
    if net == OPEN or nets[net][0] != "gate":
        return 0, frozenset([0])
    if net in above:
        raise RecursionError
    if net not in known:
        below = [levels(nets, p, known, above + (net,)) for p in nets[net][2]]
        known[net] = 1 + max(level for level, _ in below), frozenset(t + 1 for _, times in below for t in times)
    return known[net]


def asks(held, net):
    """What the question about a net answers."""
    if held is None:
        return "12 0 0 0"
    if net >= len(held):
        return "13 0 0 0"
    level, times = held.shape[net]
    return "0 0 %d %x" % (level, sum(1 << t for t in times))


def function(ty, values):
    """A gate's value of its pins' values."""
    ones = sum(values)
    plain = {0: ones == 1, 1: ones == 1, 2: ones == len(values), 3: ones == len(values), 4: ones > 0, 5: ones > 0, 6: ones % 2 == 1, 7: ones % 2 == 1}[ty]
    return int(plain) ^ (ty % 2)


class Bench:
    """A session as document 01 has it: a card, a rest, and the last vector's values, before time 0 and at times 0 to 63."""

    def __init__(self):
        self.card = self.before = self.values = None

    def load(self, data):
        number, taken = loads(data)
        if taken:
            self.card, self.before, self.values = taken, None, None
        return number, len(taken) if taken else 0

    def fault(self, vector):
        inputs = [n for n, net in enumerate(self.card.nets) if net[0] == "input"]
        if len(vector) != len(inputs):
            return 10
        if any(b > 1 for b in vector):
            return 11
        return 0

    def given(self, vector):
        inputs = [n for n, net in enumerate(self.card.nets) if net[0] == "input"]
        return dict(zip(inputs, vector))

    def gate_now(self, state, net):
        _, ty, pins = self.card.nets[net]
        return function(ty, [0 if p == OPEN else state[p] for p in pins])

    def rest(self, vector):
        if self.card is None:
            return 12, 0
        number = self.fault(vector)
        if number:
            return number, 0
        new = self.given(vector)
        state = [new.get(n, net[1] if net[0] == "constant" else 0) for n, net in enumerate(self.card.nets)]
        for net in sorted(range(len(state)), key=lambda n: self.card.shape[n][0]):
            if self.card.nets[net][0] == "gate":
                state[net] = self.gate_now(state, net)
        self.before, self.values = state, [state] * 64
        return 0, 0

    def vector(self, vector):
        if self.before is None:
            return 12, 0
        number = self.fault(vector)
        if number:
            return number, 0
        new = self.given(vector)
        self.before = self.values[63]
        state = [new.get(n, value) for n, value in enumerate(self.before)]
        self.values = [state]
        for _ in range(63):
            state = [self.gate_now(self.values[-1], n) if net[0] == "gate" else self.values[-1][n] for n, net in enumerate(self.card.nets)]
            self.values.append(state)
        return 0, 0

    def steps(self, vector):
        number, count = self.vector(vector)
        return number, 0 if number else len(self.card.steps())

    def list(self, rooms):
        steps = self.card.steps() if self.card else []
        number = 12 if self.card is None else 18 if min(rooms) < len(steps) else 0
        if number:
            return "%d 0" % number + fill([], rooms[0]) + fill([], rooms[1])
        return "0 %d" % len(steps) + fill([n for n, _ in steps], rooms[0]) + fill([t for _, t in steps], rooms[1])

    def records(self, room):
        steps = self.card.steps() if self.card else []
        number = 12 if self.card is None else 18 if room < len(steps) else 0
        written = [] if number else steps
        return "%d %d |" % (number, len(written)) + "".join(" %d:%d" % e for e in list(written) + [(170, 170)] * (room - len(written)))

    def order_fault(self, order):
        steps = self.card.steps()
        if len(order) != len(steps):
            return 15
        if any(e >= len(steps) for e in order) or len(set(order)) < len(order):
            return 16
        done = set()
        for e in order:
            if not self.card.reads(*steps[e]) <= done:
                return 17
            done.add(steps[e])
        return 0

    def bench(self, vector, order, k, room):
        number = 12 if self.before is None else self.fault(vector) or self.order_fault(order)
        steps = self.card.steps() if self.card else []
        number = number or (19 if k > len(steps) else 18 if room < len(steps) else 0)
        if number:
            return "%d 0" % number + fill([], room)
        held = self.before, self.values
        self.vector(vector)
        first = set(order[:k])
        answer = "0 %d" % k + fill([self.values[t][n] if e in first else 2 for e, (n, t) in enumerate(steps)], room)
        if k < len(steps):
            self.before, self.values = held
        return answer

    def changed(self, net, t):
        return self.values[t][net] != (self.values[t - 1][net] if t else self.before[net])

    def flag(self, net):
        changes = sum(self.changed(net, t) for t in range(64))
        return changes if changes < 2 else 2 if self.before[net] == self.values[63][net] else 3

    def history(self, rooms):
        if self.before is None:
            return "12 0" + "".join(fill([], room, hexed) for room, hexed in zip(rooms, (True, False, False)))
        n = len(self.card)
        if min(rooms) < n:
            return "18 0" + "".join(fill([], room, hexed) for room, hexed in zip(rooms, (True, False, False)))
        words = [sum(self.values[t][net] << t for t in range(64)) for net in range(n)]
        return "0 %d" % n + fill(words, rooms[0], True) + fill(self.before, rooms[1]) + fill([self.flag(net) for net in range(n)], rooms[2])

    def trace(self, net, t, room):
        if self.before is None:
            return "12 0" + fill([], room)
        if net >= len(self.card):
            return "13 0" + fill([], room)
        if t > 63 or not self.changed(net, t):
            return "14 0" + fill([], room)
        if room < t + 1:
            return "18 0" + fill([], room)
        way, time = [net], t
        while time:
            time -= 1
            way.append(next(p for p in self.card.nets[way[-1]][2] if p != OPEN and self.changed(p, time)))
        return "0 %d" % (t + 1) + fill(way, room)


def first_end(data):
    """Where the first end record ends, heads walked one after another; all of it where there is none."""
    at = 0
    while at + 4 <= len(data):
        length, kind = struct.unpack_from("<HH", data, at)
        at += 4 + length
        if kind == 4:
            return min(at, len(data))
    return len(data)


def sheet(data):
    """What the sheet program prints for a session file."""
    if len(data) > 65536:
        return "refused 18\n"
    bench, at = Bench(), first_end(data)
    number, _ = bench.load(data[:at])
    if number:
        return "refused %d\n" % number
    depth = max(level for level, _ in bench.card.shape)
    out, vectors = ["depth %d steps %d\n" % (depth, len(bench.card.steps()))], 0
    while at < len(data):
        number, length, kind = 0, 0, 0
        if len(data) < at + 4:
            number = 1
        else:
            length, kind = struct.unpack_from("<HH", data, at)
            number = 2 if kind not in (5, 6) else 1 if len(data) < at + 4 + length else 0
        body = data[at + 4 : at + 4 + length]
        if not number:
            number, _ = bench.rest(body) if kind == 5 else bench.vector(body)
        if number:
            out.append("refused %d\n" % number)
            break
        at += 4 + length
        if kind == 6:
            vectors += 1
            out.append("vector %d\n" % vectors)
            for n in range(len(bench.card)):
                values = "".join("%d" % bench.values[t][n] for t in range(depth + 1))
                out.append("%d %d %s %d\n" % (n, bench.before[n], values, bench.flag(n)))
    return "".join(out)


def fill(entries, room, hexed=False):
    """A lent room after a call: the entries written, and what was there before."""
    return " |" + "".join(" %x" % e if hexed else " %d" % e for e in list(entries) + [170] * (room - len(entries)))


def good_order(rng, held):
    """A random order of a card's steps, none before one that it reads."""
    steps = held.steps()
    number = {step: e for e, step in enumerate(steps)}
    left = [{number[r] for r in held.reads(*step)} for step in steps]
    readers = [[] for _ in steps]
    for e, reads in enumerate(left):
        for r in reads:
            readers[r].append(e)
    free, order = [e for e, reads in enumerate(left) if not reads], []
    while free:
        at = rng.randrange(len(free))
        free[at], free[-1] = free[-1], free[at]
        e = free.pop()
        order.append(e)
        for reader in readers[e]:
            left[reader].discard(e)
            if not left[reader]:
                free.append(reader)
    return order


def random_card(rng, n):
    """n nets, the first an input; some pins open, some constants, now and then a pin to a later net."""
    nets, order = [None] * n, list(range(n))
    if rng.random() < 0.3:
        rng.shuffle(order)
    order.remove(0)
    order.insert(0, 0)
    reach = rng.choice([2, 4, 300])
    for i, net in enumerate(order):
        kind = rng.random()
        if i == 0 or kind < 0.2:
            nets[net] = inp()
        elif kind < 0.27:
            nets[net] = const(rng.randrange(2))
        else:
            ty = rng.randrange(8)
            pins = [OPEN if rng.random() < 0.05 else order[rng.randrange(max(0, i - reach), i)] for _ in range(1 if ty < 2 else rng.choice([2, 2, 3, 4, 8]))]
            nets[net] = gate(ty, *pins)
    return card(*nets)
