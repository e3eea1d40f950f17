#!/usr/bin/env python3
"""Counts the instructions of one turn over an input by function, or by address; see README.md.

    bench/where.py WORD                      of the first list, or else shape, with this word in its name
    bench/where.py WORD --write              with writing
    bench/where.py WORD --sevens             by a reader that gives seven bytes a call
    bench/where.py WORD --function NAME      each instruction of the functions with NAME in their names
"""
import argparse
import collections
import os
import re
import subprocess
import tempfile

import lists
import shapes
import speed

MOST = 25
COST = re.compile(r'(0x[0-9a-f]+) .*?(\d+)$')


def input_of(word, task):
    """The program, what it is given for one turn and for two, and how many items that is."""
    for name, (kind, make) in lists.LISTS.items():
        if word in name:
            item = kind.encode() + lists.array(make() for _ in range(lists.COUNT))
            return name, lists.OURS, speed.Request(task, item), lists.COUNT
    name = next(it for it in shapes.SHAPES | shapes.WORDS if word in it)
    return name, speed.OURS, speed.Request(task, (shapes.SHAPES | shapes.WORDS)[name]()), 1


def counted(program, times, request):
    """What each address took, by function."""
    with tempfile.NamedTemporaryFile('r') as out:
        words = ['valgrind', '--tool=callgrind', '--dump-instr=yes', '--compress-pos=no', '--compress-strings=no']
        run = request.given_to([*words, f'--callgrind-out-file={out.name}', program], times)
        _, said = run.communicate()
        assert run.returncode == 0, said.decode()
        lines = iter(out.read().split('\n'))
    function, costs = '', collections.Counter()
    for line in lines:
        if line.startswith('fn='):
            function = line[3:]
        elif line.startswith('calls='):
            next(lines)  # what the callee took
        elif cost := COST.match(line):
            costs[function, int(cost[1], 16)] += int(cost[2])
    return costs


def shown(program, function, costs):
    """Prints the instructions of a function that were run, each with what it took."""
    words = ['objdump', '-d', '--no-show-raw-insn', program]
    listing = subprocess.run(words, capture_output=True, text=True, check=True)
    begin = listing.stdout.index(f'<{function}>:\n')
    lines = listing.stdout[begin:].split('\n\n')[0].split('\n')[1:]
    texts = {int(it.split(':')[0], 16): it.split(':', 1)[1].strip() for it in lines}
    # The program stands elsewhere when it runs, by whole pages.
    placed = {at - text for at in costs for text in texts if (at - text) % 4096 == 0}
    moved = max(placed, key=lambda it: sum(at - it in texts for at in costs))
    for at, cost in sorted(costs.items()):
        print(f'{cost:12.1f}  {at - moved:8x}  {texts.get(at - moved, "")}')


def main():
    parser = argparse.ArgumentParser(description=__doc__, formatter_class=argparse.RawDescriptionHelpFormatter)
    parser.add_argument('word')
    parser.add_argument('--write', action='store_const', const=1, dest='task', default=0)
    parser.add_argument('--sevens', action='store_const', const=3, dest='task')
    parser.add_argument('--function')
    parser.add_argument('--program', help='another build')
    chosen = parser.parse_args()
    name, program, request, items = input_of(chosen.word, chosen.task)
    program = os.path.realpath(chosen.program or program)
    once, twice = (counted(program, times, request) for times in (1, 2))
    turn = {key: (cost - once[key]) / items for key, cost in twice.items() if cost != once[key]}
    of_functions = collections.Counter()
    for (function, _), cost in turn.items():
        of_functions[function] += cost
    print(f'{name}: {sum(turn.values()):.1f} instructions' + (' an item' if items > 1 else ''))
    for function, cost in of_functions.most_common(MOST):
        if cost < 0.1:
            break
        print(f'{cost:12.1f}  {function}')
        if chosen.function and chosen.function in function:
            shown(program, function, {at: it for (of, at), it in turn.items() if of == function})


if __name__ == '__main__':
    main()
