#!/usr/bin/env python3
"""Measures reading and writing beside the Rust crate and libcbor; see README.md."""
import argparse
import os
import re
import subprocess
import tempfile

import shapes

HERE = os.path.dirname(os.path.abspath(__file__))
OURS = os.path.join(HERE, '..', 'crates', 'cbor_bench', 'out', 'cbor_bench')
CRATE = os.path.join(HERE, 'out', 'measured')
LIBCBOR = os.path.join(HERE, 'out', 'libcbor')
READ, READ_AND_WRITE, READ_RECORDS, READ_AND_WRITE_RECORDS = range(4)
ROUNDS = 5


class Request:
    """What a program is given: the task, how many times, and the item."""

    def __init__(self, task, item):
        self.task = task
        self.item = item

    def given_to(self, program, times):
        given = tempfile.TemporaryFile()
        given.write(bytes([self.task, times]) + self.item)
        given.seek(0)
        return subprocess.Popen(program, stdin=given, stdout=subprocess.DEVNULL, stderr=subprocess.PIPE)


def seconds(program, times, request):
    """The time that the CPU worked for one run, user and system."""
    run = request.given_to([program], times)
    _, status, used = os.wait4(run.pid, 0)
    run.stderr.close()
    assert status == 0, f'{program}: status {status}'
    return used.ru_utime + used.ru_stime


def least(programs, request, times):
    """The least CPU time of each program's runs; the programs run in turn."""
    rounds = [[seconds(*run, request) for run in zip(programs, times)] for _ in range(ROUNDS)]
    return [min(runs) for runs in zip(*rounds)]


def milliseconds(programs, request):
    """The CPU time of one turn by each program, in ms, less that of its start."""
    starts = least(programs, request, [0] * len(programs))
    firsts = [seconds(program, 1, request) - start for program, start in zip(programs, starts)]
    times = [max(1, min(100, round(0.5 / max(first, 0.005)))) for first in firsts]
    wholes = least(programs, request, times)
    return [max(0, whole - start) * 1000 / n for whole, start, n in zip(wholes, starts, times)]


def instructions(program, times, request):
    run = request.given_to(['valgrind', '--tool=callgrind', '--callgrind-out-file=/dev/null', program], times)
    _, report = run.communicate()
    assert run.returncode == 0, report.decode()
    return int(re.search(rb'Collected : (\d+)', report)[1])


def millions(programs, request):
    """The instructions of one turn by each program, in millions: those of one turn, less its start."""
    return [(instructions(p, 1, request) - instructions(p, 0, request)) / 1e6 for p in programs]


def row(name, tasks, peers, item, measure):
    cells = [name]
    for task in tasks:
        ours, *theirs = measure([OURS, *peers], Request(task, item))
        times = [f'{other / ours:.2f}' if ours else '' for other in theirs]
        cells += [f'{ours:.2f}', *times, *[''] * (2 - len(times))]
    return '| ' + ' | '.join(cells) + ' |'


def table(word, measure, unit):
    print(f'| shape | read, {unit} | Rust crate | libcbor | and written | Rust crate | libcbor |')
    print('|---|---|---|---|---|---|---|')
    for shape, make in (shapes.SHAPES | shapes.WORDS).items():
        if word in shape:
            item = make()
            print(row(shape, (READ, READ_AND_WRITE), (CRATE, LIBCBOR), item, measure), flush=True)
            if shape == shapes.RECORDS:
                typed = (READ_RECORDS, READ_AND_WRITE_RECORDS)
                print(row(f'{shape}, as a type', typed, (CRATE,), item, measure), flush=True)


def growth(word, measure, unit, most):
    counts = [10_000 << doubled for doubled in range(most)]
    print(f'| keys, read in {unit} | ' + ' | '.join(f'{count:,}' for count in counts) + ' |')
    print('|---|' + '---|' * len(counts))
    for order in shapes.GROWING:
        if word in order:
            inputs = (Request(READ, shapes.of_pairs(count, order)) for count in counts)
            costs = [measure([OURS], request)[0] for request in inputs]
            print(f'| {order} | ' + ' | '.join(f'{cost:.1f}' for cost in costs) + ' |', flush=True)


def main():
    parser = argparse.ArgumentParser(description=__doc__)
    parser.add_argument('word', nargs='?', default='', help='measure the shapes alone whose name has this in it')
    parser.add_argument('--instructions', action='store_true', help='count instructions in place of CPU time')
    parser.add_argument('--growth', action='store_true', help='read maps of 10,000 pairs, twice that, and on')
    parser.add_argument('--most', type=int, default=6, help='how many maps are read for --growth')
    chosen = parser.parse_args()
    measure, unit = (millions, 'million instructions') if chosen.instructions else (milliseconds, 'ms')
    if chosen.growth:
        growth(chosen.word, measure, unit, chosen.most)
    else:
        table(chosen.word, measure, unit)


if __name__ == '__main__':
    main()
