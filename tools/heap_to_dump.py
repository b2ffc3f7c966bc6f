"""Writes a dump of a heap, as `goheap verify` reads it, from edges on standard input: `root A` for a global that holds A, and `A B` for a
field of A that holds B. What no global reaches is left out. Names may be any words; in the dump object number n is `o.n`."""

import sys


def read_edges(lines):
    """The objects that globals hold, and of each object what its fields hold, in the order of the lines."""
    roots, fields = [], {}
    for number, line in enumerate(lines, 1):
        words = line.split()
        if not words:
            continue
        if len(words) != 2:
            sys.exit(f'line {number}: two words are wanted: root A, or A B')
        if words[0] == 'root':
            roots.append(words[1])
        else:
            fields.setdefault(words[0], []).append(words[1])
    return roots, fields


def walk(roots, fields):
    """Of each object that is reached its rank and what holds it, nearest first."""
    reached = {}
    for k, name in enumerate(roots):
        reached.setdefault(name, (0, f'global {k}'))
    queue = list(reached)
    for name in queue:
        for i, held in enumerate(fields.get(name, [])):
            if held not in reached:
                reached[held] = (reached[name][0] + 1, (name, i))
                queue.append(held)
    return reached


def main():
    roots, fields = read_edges(sys.stdin)
    reached = walk(roots, fields)
    number = {name: f'o.{n}' for n, name in enumerate(reached)}
    for k, name in enumerate(roots):
        print(f'global {k} ref {number[name]}')
    total = 0
    for name, (rank, origin) in reached.items():
        held = fields.get(name, [])
        size = 8 * max(1, len(held))
        total += size
        if not isinstance(origin, str):
            origin = f'parent {number[origin[0]]} field {origin[1]}'
        print(f'object {number[name]} bytes {size} rank {rank} {origin}')
        for i, other in enumerate(held):
            print(f'field {i} ref {number[other]}')
    print(f'total {len(reached)} bytes {total}')


main()
