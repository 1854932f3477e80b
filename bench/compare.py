#!/usr/bin/env python3
"""Runs the kit's benchmark and Rust's in turn, and prints a table of the least times, and a chart.

usage: bench/compare.py COUNT.. [--rounds N]

Run it at the top of the repository, with `rt`, `rustc` and Python 3. A time is in nanoseconds for each key, the least of the
rounds; behind it stands its ratio to the kit's std map in the same rounds: those of `descend_at`, `ascend` and `collect`, which are phases of
one map alone, are to `descend`, those of `range_ten` and `range_map_get` to a look-up, and that of `range_map` to `range_set`. It fails where two maps give different sums.
"""
import argparse
import os
import subprocess
import sys
import tempfile

PHASES = ["insert", "get_present", "get_absent", "iterate", "iterate_back", "range_ten", "remove", "descend", "descend_at", "ascend", "collect", "consume", "consume_back", "range_set", "range_map", "range_map_get"]

# The phase of the kit's std map to which a phase is compared that is not measured there.
COMPARED = {"range_ten": "get_present", "descend_at": "descend", "ascend": "descend", "collect": "descend", "range_map": "range_set", "range_map_get": "get_present"}


def lines_of(command):
    """The name, nanoseconds and sum of each line that a command prints."""
    run = subprocess.run(command, stdout=subprocess.PIPE, text=True, check=True)
    words = [line.split() for line in run.stdout.splitlines()]
    return [(name, int(nanos), int(total)) for name, nanos, total in words]


def measure(count, rounds, kit, rust):
    """The least time of each map and phase, from rounds of both programs in turn."""
    least, sums = {}, {}
    for _ in range(rounds):
        for command in (kit, rust):
            for name, nanos, total in lines_of([command, str(count)]):
                table, phase = name.split(".")
                least[table, phase] = min(nanos, least.get((table, phase), nanos))
                if sums.setdefault(phase, total) != total:
                    sys.exit(f"{name}: the sum is {total}, and {sums[phase]} elsewhere")
    return least


def print_table(count, least):
    """A row for each map: nanoseconds a key, and the ratio to the kit's std map."""
    print(f"\n{count} keys\n\n| | {' | '.join(PHASES)} |\n|---|{'---|' * len(PHASES)}")
    for table in dict.fromkeys(table for table, _ in least):
        cells = []
        for phase in PHASES:
            nanos = least.get((table, phase))
            kit = least["std", COMPARED.get(phase, phase)]
            cells.append("" if nanos is None else f"{nanos / count:.1f} ({nanos / kit:.2f})")
        print(f"| {table} | {' | '.join(cells)} |")


def print_chart(least):
    """A bar for each phase of this repository's map: how many times as long it takes as the kit's std map, at four signs for each time."""
    print()
    for phase in PHASES:
        nanos, kit = least.get(("btree_slab", phase)), least["std", COMPARED.get(phase, phase)]
        if nanos is not None:
            print(f"    {phase:<13}{nanos / kit:5.2f} {'#' * round(4 * nanos / kit)}")


def main():
    parser = argparse.ArgumentParser(description=__doc__)
    parser.add_argument("counts", nargs="+", type=int)
    parser.add_argument("--rounds", type=int, default=7)
    given = parser.parse_args()
    crate = os.path.join("crates", "bench_maps")
    subprocess.run(["rt", "run"], cwd=crate, stdout=subprocess.DEVNULL, check=True)
    with tempfile.TemporaryDirectory() as folder:
        rust = os.path.join(folder, "std_map")
        subprocess.run(["rustc", "-C", "opt-level=3", "-o", rust, "bench/std_map.rs"], check=True)
        for count in given.counts:
            least = measure(count, given.rounds, os.path.join(crate, "out", "bench_maps"), rust)
            print_table(count, least)
            print_chart(least)


if __name__ == "__main__":
    main()
