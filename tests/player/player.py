#!/usr/bin/env python3
"""Compares the proved player with the player over the evaluator: on the examples, on edge cases and on random inputs.

Usage: tests/player/player.py EVALUATOR_PLAYER, the program of player.c, after 'rt ci', or 'rt run' in crates/player, has written crates/player/out/player.
A mismatch prints the input's bytes. The last line is 'player: N passed, M failed'; the exit status is 0 only where nothing failed.
"""
import pathlib
import random
import subprocess
import sys

ROOT = pathlib.Path(__file__).resolve().parent.parent.parent
PLAYER = ROOT / 'crates/player/out/player'
MOST = 65536
SEED = 1

# Sheets, without their length: no inputs and a count of instants in two wires, by a kept wire, and by a machine that counts up to 3 and down to
# 0; one number that is given back; one Boolean that is.
COUNTING = bytes([0, 1, 1, 1, 0, 8, 16, 0, 0, 0, 0, 2, 0, 1, 1, 0, 0, 0])
COUNTING_KEPT = bytes([0, 1, 3, 1, 0, 8, 18, 0, 1, 1, 0, 0, 0])
COUNTING_MACHINE = bytes([0, 1, 1, 1, 0, 19, 11, 16, 0, 0, 0, 0, 2, 0, 1, 3, 0, 0, 0, 11, 16, 9, 0, 0, 0, 2, 0, 1, 0, 0, 0, 0,
                          8, 16, 0, 0, 0, 0, 2, 0, 1, 1, 0, 0, 0, 9, 16, 3, 0, 0, 0, 2, 0, 1, 1, 0, 0, 0])
ECHO = bytes([1, 1, 1, 1, 1, 0, 3, 0])
ECHO_BOOLEAN = bytes([1, 0, 1, 0, 1, 0, 3, 0])
# A wire that is itself, which stays unknown; one that stays unknown from the first true input on.
LOOP = bytes([0, 1, 1, 1, 0, 2, 0])
LOOP_LATER = bytes([1, 0, 1, 1, 1, 0, 13, 3, 0, 2, 0, 1, 7, 0, 0, 0])


def with_length(sheet, rows=b''):
    return len(sheet).to_bytes(2, 'little') + sheet + rows


def word(z):
    return (z % 2**32).to_bytes(4, 'little')


def numbers_of(path):
    lines = [line for line in path.read_text().splitlines() if not line.startswith('#')]
    return bytes(int(number) for line in lines for number in line.split())


def examples():
    return {path.parent.name: numbers_of(path) for path in sorted(ROOT.glob('examples/*/bytes'))}


def edges():
    """The cases of document 01 and of its readings, by name."""
    numbers = [0, 1, -1, 9, 10, -10, 2**31 - 1, -2**31, 1000000000, -1000000000]
    rows = b''.join(word(z) for z in numbers)
    outputs = bytes([1, 1, 16] + [1] * 16 + [16] + list(range(16)) + [3, 0] * 16)
    full = with_length(ECHO, bytes(MOST))
    return {
        'empty': b'',
        'one byte': b'\x05',
        'length 0': with_length(b''),
        'length 0, bytes behind it': with_length(b'', bytes(9)),
        'length 5000, 100 bytes': b'\x88\x13' + bytes(100),
        'one byte of the sheet missing': with_length(ECHO)[:-1],
        'length 65535, 65533 bytes': b'\xff\xff' + bytes(65533),
        'length 65535, all its bytes': b'\xff\xff' + bytes(65535),
        'length 65534, all its bytes': b'\xfe\xff' + bytes(65534),
        'length 4097': with_length(bytes(4097)),
        'a sheet refused': with_length(ECHO[:-1] + b'\x01'),
        'a sheet refused, rows behind it': with_length(ECHO[:-2] + b'\x14\x00', bytes(12)),
        'a machine without operands': with_length(ECHO[:-2] + b'\x13', bytes(12)),
        'kind 18 of a wire that is not kept': with_length(ECHO[:-2] + b'\x12\x00', bytes(12)),
        'no rows': with_length(ECHO),
        'numbers of every sign and length': with_length(ECHO, rows),
        'sixteen outputs, the least number': with_length(outputs, word(-2**31) * 3),
        'a row cut by one byte': with_length(ECHO, rows[:-1]),
        'a row cut by three bytes': with_length(ECHO, rows[:-3]),
        'an input of 2 for a Boolean': with_length(ECHO_BOOLEAN, word(1) + word(2) + word(0)),
        'an input of 256 for a Boolean, first': with_length(ECHO_BOOLEAN, word(256) + word(0)),
        'no inputs': with_length(COUNTING),
        'no inputs, bytes behind the sheet': with_length(COUNTING, bytes(range(23))),
        'no inputs, a kept wire': with_length(COUNTING_KEPT),
        'no inputs, a machine': with_length(COUNTING_MACHINE),
        'no inputs, 20 at the first instant': with_length(LOOP, bytes(3)),
        '20 at the third instant': with_length(LOOP_LATER, word(0) + word(0) + word(1) + word(0)),
        'exactly 65536 bytes': full[:MOST],
        '65535 bytes': full[:MOST - 1],
        'more than 65536 bytes': full + b'\x01' * 100,
        'no inputs, more than 65536 bytes': with_length(COUNTING, bytes(MOST)),
    }


def damaged(rng, data):
    """An example with some bytes changed, cut off or put in, and its length mostly set right again."""
    data = bytearray(data)
    size = data[0] + 256 * data[1]
    sheet, rows = data[2:2 + size], data[2 + size:]
    for _ in range(rng.randrange(4)):
        part = sheet if rng.random() < 0.6 else rows
        at = rng.randrange(len(part) + 1)
        kind = rng.randrange(3)
        if kind == 0:
            part[at:at + 1] = bytes([rng.choice([0, 1, 2, 3, 12, 13, 14, 17, 18, 19, rng.randrange(256)])])
        elif kind == 1:
            del part[at:at + rng.randrange(1, 6)]
        else:
            part[at:at] = rng.randbytes(rng.randrange(1, 6))
    whole = with_length(bytes(sheet), bytes(rows))
    return whole[:rng.randrange(len(whole) + 1)] if rng.random() < 0.1 else whole


def expression(rng, number, names, level):
    """A random expression of a type, at most `level` levels deep; `names` has the types of what kinds 2, 3 and 18 may name."""
    def of(types):
        return b''.join(expression(rng, t, names, level - 1) for t in types)

    def named(kind):
        fitting = [i for i, t in enumerate(names[kind]) if t == number]
        return bytes([kind, rng.choice(fitting)]) if fitting else constant(0)

    def constant(kind):
        return bytes([kind + 1]) + word(rng.randrange(-3, 4)) if number else bytes([kind, rng.randrange(2)])

    if level == 1 or rng.random() < 0.3:
        return rng.choice([constant(0), named(2), named(3), named(18)])
    own = [(bytes([5]), [1]), (bytes([8]), [1, 1]), (bytes([9]), [1, 1])] if number else [
        (bytes([4]), [0]), (bytes([6]), [0, 0]), (bytes([7]), [0, 0]), (bytes([10]), [1, 1]), (bytes([11]), [1, 1])]
    shared = [(bytes([12]), [0, number, number]), (bytes([13]), [0, number, number]), (bytes([14]), [0, number]),
              (bytes([17]), [number, number]), (bytes([19]), [0, 0, number, number]), (constant(15), [number]), (constant(15), [number])]
    head, operands = rng.choice(own + shared)
    return head + of(operands)


def well_formed(rng):
    """A random sheet that is likely to pass the check, and rows for it; some wires may be kept, and kind 18 names these alone."""
    inputs = [rng.randrange(2) for _ in range(rng.randrange(4))]
    type_bytes = [rng.choice([0, 1, 0, 1, 2, 3]) for _ in range(rng.randrange(1, 6))]
    wires = [t % 2 for t in type_bytes]
    names = {2: wires, 3: inputs, 18: [t % 2 if t > 1 else None for t in type_bytes]}
    outputs = sorted(rng.sample(range(len(wires)), rng.randrange(1, len(wires) + 1)))
    header = b''.join(bytes([len(part), *part]) for part in (inputs, type_bytes, outputs))
    sheet = header + b''.join(expression(rng, t, names, rng.randrange(1, 5)) for t in wires)
    row = lambda: b''.join(word(rng.choice([rng.randrange(-5, 6), rng.getrandbits(32)]) if t else rng.randrange(2)) for t in inputs)
    return with_length(sheet, b''.join(row() for _ in range(rng.randrange(12))) + rng.randbytes(rng.randrange(4)))


def cases():
    rng = random.Random(SEED)
    found = examples()
    yield from found.items()
    yield from edges().items()
    for i in range(200):
        data = rng.randbytes(rng.randrange(64))
        yield f'random bytes {i}', data if i % 2 else with_length(data)
    for i in range(400):
        yield f'damaged example {i}', damaged(rng, rng.choice(list(found.values())))
    for i in range(400):
        yield f'random sheet {i}', well_formed(rng)


def played(program, data):
    done = subprocess.run([program], input=data, stdout=subprocess.PIPE, timeout=60)
    return done.stdout if done.returncode == 0 else done.stdout + b'exit status %d\n' % done.returncode


def expected_of(evaluator, name, data):
    """What is to be printed: an example's own file says so too."""
    expected = played(evaluator, data)
    own = ROOT / 'examples' / name / 'expected'
    return [expected, own.read_bytes()] if own.is_file() else [expected]


def report(name, data, got, expected):
    print(f'player: {name} differs, on {len(data)} bytes: {" ".join(str(byte) for byte in data)}')
    print(f'  the player printed {got!r}')
    print(f'  the evaluator printed {expected[0]!r}')


def main():
    if len(sys.argv) != 2:
        print('usage: tests/player/player.py EVALUATOR_PLAYER', file=sys.stderr)
        return 2
    passed = failed = 0
    kinds = {}
    for name, data in cases():
        expected = expected_of(sys.argv[1], name, data)
        got = played(PLAYER, data)
        if all(got == text for text in expected):
            passed += 1
        else:
            failed += 1
            report(name, data, got, expected)
        kind = expected[0].split()[0].decode()
        kinds[kind] = kinds.get(kind, 0) + 1
    print('player: first words expected: ' + ', '.join(f'{kind} {count}' for kind, count in sorted(kinds.items())))
    print(f'player: {passed} passed, {failed} failed')
    return failed != 0


if __name__ == '__main__':
    sys.exit(main())
