"""A drill script of loads and net questions with the answers that document 01 gives: `load_test.py script` and `load_test.py answers`."""
import random
import sys

from cards import *

EXAMPLE = bytes.fromhex("00000100000001000000010005000300020000010005000300040300020000000400")


def cases():
    yield b""
    yield END
    yield EXAMPLE
    for at in range(len(EXAMPLE)):
        yield EXAMPLE[:at]
        for value in (0, 1, 2, 3, 4, 5, 6, 7, 8, 17, 128, 255):
            yield EXAMPLE[:at] + bytes([value]) + EXAMPLE[at + 1 :]
    yield EXAMPLE + b"\0"
    yield EXAMPLE + EXAMPLE
    for kind in range(9):
        for length in range(20):
            for present in (length, max(0, length - 1)):
                for fill in (0, 1, 2):
                    yield inp() + struct.pack("<HH", length, kind) + bytes([fill]) * present + END
    for ty in range(10):
        for pins in range(0, 10):
            yield card(inp(), gate(ty, *[0] * pins))
    for value in range(4):
        yield card(inp(), const(value))
    yield card(const(1))
    yield card(inp(), gate(BUF, 1))
    yield card(inp(), gate(BUF, 2), gate(BUF, 1))
    yield card(gate(BUF, 1), inp())
    yield card(inp(), gate(AND, 0, OPEN), gate(XOR, 0, 0), gate(BUF, OPEN))
    yield card(inp(), gate(BUF, 5))
    yield card(inp(), gate(BUF, 65534))
    yield card(gate(BUF, 9), gate(BUF, 0)) + b"\0"
    yield card(gate(BUF, 1), gate(BUF, 0))
    for n in (62, 63, 64, 65, 254, 255):
        yield chain(n)
    for n in (1, 255, 256, 257, 300):
        yield wide(n)
    yield wide(256)[:-4] + const(2) + END
    yield wide(256)[:-4] + const(1)[:-1]
    yield ladder_card([63, 63, 10], 9)
    yield ladder_card([63, 63, 10], 10)
    yield ladder_card([64], 0)
    rng = random.Random(20261115)
    for _ in range(300):
        n = rng.choice([2, 3, 5, 8, 20, 60, 256])
        nets = [inp()]
        for i in range(1, n):
            kind = rng.random()
            if kind < 0.2:
                nets.append(inp())
            elif kind < 0.3:
                nets.append(const(rng.randrange(2)))
            else:
                ty = rng.randrange(8)
                reach = i if rng.random() < 0.97 else n
                pins = [OPEN if rng.random() < 0.05 else rng.randrange(max(0, reach - rng.choice([3, 256])), reach) for _ in range(1 if ty < 2 else rng.randint(2, 8))]
                nets.append(gate(ty, *pins))
        data = bytearray(card(*nets))
        if rng.random() < 0.3:
            data[rng.randrange(len(data))] = rng.randrange(256)
        if rng.random() < 0.1:
            del data[rng.randrange(len(data)) :]
        yield bytes(data)


held = None
for data in cases():
    number, taken = loads(data)
    held = taken or held
    questions = sorted({0, 1, 3, 4, len(held or []) - 1, len(held or []), 2**64 - 1} - {-1})
    if sys.argv[1] == "script":
        print("load", data.hex() or "-")
        for net in questions:
            print("net", net)
    else:
        print(number, len(taken) if taken else 0)
        for net in questions:
            print(asks(held, net))
