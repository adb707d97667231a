"""The comparisons, by name."""
import sys
import time
from collections import Counter

import expected
import generate
import rust

CHUNK = 20_000


def shrunk(host, case):
    return expected.smallest(case, lambda cases: [found for found, _ in expected.calls(host, cases)[2]])


def show(host, differences, shown=5):
    differences = sorted(differences, key=lambda difference: expected.weight(difference[0]))
    for case, why in differences[:shown]:
        small = shrunk(host, case)
        reasons = [reason for _, reason in expected.calls(host, [small])[2]]
        print(f"DIFFERENCE: width {small.width} indent {small.indent} source {small.source!r} outline {small.outline}")
        for reason in reasons or [why]:
            print("  " + reason)
    if len(differences) > shown:
        print(f"and {len(differences) - shown} more")


def reading_against_rust(count, seed):
    host = rust.build()
    if not host:
        return 0
    began, total, found = time.time(), Counter(), []
    for first in range(0, count, CHUNK):
        indices = range(first, min(first + CHUNK, count))
        cases = [generate.small(seed, index) if index % 3 == 0 else generate.case(seed, index) for index in indices]
        _, counts, differences = expected.calls(host, cases)
        total += counts
        found += differences
    for compared in sorted(total):
        print(f"  {compared}: {total[compared]}")
    show(host, found)
    print(f"reading: {count} cases, {len(found)} differences, {time.time() - began:.0f} s")
    return 1 if found else 0


def main(arguments, usage):
    import known
    import layout
    import programs
    import rules

    what = arguments[0] if arguments else ""
    count = int(arguments[1]) if len(arguments) > 1 else 1000
    seed = arguments[2] if len(arguments) > 2 else "1"
    commands = {"reading": reading_against_rust, "rules": rules.compare, "known": known.compare, "layout": layout.compare}
    commands.update({name: programs.comparison(name) for name in programs.NAMES})
    if what not in commands:
        print(usage, file=sys.stderr)
        return 2
    return commands[what](count, seed)
