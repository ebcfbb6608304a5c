"""Random scripts for replay, good and damaged; the same seed gives the same scripts.

    python3 bench/scripts.py SEED COUNT DIR     writes COUNT scripts into DIR, as 0.txt, 1.txt, ..
"""
import os
import random
import sys


def call(r, places, objects):
    """One line that asks for a call, most often a sensible one."""
    p, o = r.randrange(places), r.randrange(max(1, objects))
    kind = r.choice('BBLLLLLIIIICCA')
    if kind == 'B':
        return f'B,{p},{r.choice([1, 1, 2, 2, 3, 3, 0, 4, 256])},{r.choice([0, 1, 7, 25, 300, 10**17, 2**32 + 5, 3 * 2**32 + 9])}'
    if kind == 'L':
        return f'L,{p},{o},{r.choice("RWW")}'
    if kind == 'I':
        return f'I,{p},{o}'
    return f'{kind},{p}'


def damaged(r, line):
    """The line with one byte changed, added or dropped."""
    b = bytearray(line.encode())
    i = r.randrange(len(b) + 1)
    way = r.randrange(3)
    if way == 0:
        b.insert(i, r.choice(b',,0019\r \xff-SX'))
    elif b and way == 1:
        b[min(i, len(b) - 1)] = r.choice(b',09RWBLICAS\n')
    elif b:
        del b[min(i, len(b) - 1)]
    return bytes(b)


def script(r):
    """One script."""
    objects = r.choice([1, 1, 2, 2, 3, 4, 8, 64, 0])
    places = r.choice([2, 3, 4, 6, 16, 17])
    first = f'S,{r.choice("CL")},{r.choice("TM")},{r.choice([0, 1, 1, 2, 3, 120, 121])},{r.choice([1, 2, 4, 8, 16, 16, 17, 0])},{objects}'
    harm = r.choice([0, 0, 0, 0.02, 0.2])
    lines = [first.encode() if r.random() > 0.03 else damaged(r, first)]
    for _ in range(r.choice([3, 10, 30, 80, 200])):
        line = call(r, places, objects)
        lines.append(damaged(r, line) if r.random() < harm else line.encode())
    return b'\n'.join(lines) + r.choice([b'', b'\n', b'\n\n'])


def scripts(seed, count):
    r = random.Random(seed)
    for _ in range(count):
        yield script(r)


if __name__ == '__main__':
    seed, count, folder = int(sys.argv[1]), int(sys.argv[2]), sys.argv[3]
    os.makedirs(folder, exist_ok=True)
    for n, text in enumerate(scripts(seed, count)):
        with open(os.path.join(folder, f'{n}.txt'), 'wb') as f:
            f.write(text)
