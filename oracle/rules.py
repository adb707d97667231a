"""The definitions of dogwood_rules, computed in the checker, row by row.

A copy of the crate stands in a temporary folder with one crate more, whose files state each row as an equation and prove it by
computing. What a row must answer comes from the Rust and the second reading, never from the definitions.
"""
import itertools
import os
import random
import re
import shutil
import subprocess
import tempfile
import time

import expected
import generate
import lists
import reading
import rust

CRATE = "rule_rows"
ROWS_A_FILE = 100
USUAL_BYTES = 400

HEAD = """-- Rows made by a seed: each is computed.
use Rattle.std.specs.Prelude.{◌≡◌, refl, List, [], ◌∷◌, ℕ}
use Rattle.dogwood_rules.specs.Layout.{Settings}
use Rattle.dogwood_rules.specs.Answer.{Answer, answer}
use Rattle.dogwood_rules.specs.Alone.{Alone, tokenised, tested}
use Rattle.dogwood_rules.specs.Compute.{everything}

abbrev setting : ℕ → ℕ → Settings
setting w i = record { width = w; indent = i }

abbrev gives : ℕ → ℕ → List ℕ → List ℕ → Answer
gives n place out table = record { number = n; place = place; output = out; table = table }

abbrev tells : ℕ → ℕ → List ℕ → Alone
tells n value table = record { number = n; value = value; table = table }
"""


def numbers(values):
    return "(" + "".join(f"{value} ∷ " for value in values) + "[])"


def call_row(case, table_room, output_room):
    answer = reading.answer(case.width, case.indent, case.source, case.outline, table_room, output_room)
    asked = f"answer (setting {case.width} {case.indent}) {numbers(case.source)} {numbers(case.outline)} {table_room} {output_room}"
    return f"{asked} ≡ gives {answer.number} {answer.place} {numbers(answer.output)} {numbers(answer.table)}"


def tokens_row(case, table_room):
    number, value, table = reading.tokenising(case.source, table_room)
    return f"tokenised {numbers(case.source)} {table_room} ≡ tells {number} {value} {numbers(table)}"


def tests_row(case, table_room):
    number, value, table = reading.testing(case.source, case.outline, table_room)
    return f"tested {numbers(case.source)} {numbers(case.outline)} {table_room} ≡ tells {number} {value} {numbers(table)}"


def rooms(rng, answer):
    """Mostly enough, now and then exact or one short."""
    words, size = len(answer.table), len(answer.output)
    if rng.random() < 0.7:
        return words + rng.randrange(4), size + rng.randrange(4)
    return max(0, words - rng.choice([0, 0, 0, 1, 2, 3, words])), max(0, size - rng.choice([0, 1, size]))


def written():
    """Rows that each run has: what is written down, bytes around the edges of RFC 3629's ranges, line ends, symbols, the deepest nesting."""
    nested = [b"[" * levels + b"a" + b"]" * levels for levels in (64, 65)]
    for source, outline in lists.WRITTEN_OUTLINES + lists.WRITTEN_CALLS + [(source, lists.one(source)) for source in nested]:
        yield generate.Case(source, outline, 80, 2)
    for source in itertools.chain(lists.bad_sources(), lists.marks_and_line_ends()):
        yield generate.Case(source, [], 80, 2)


def chosen(count, seed):
    """Cases that a checker computes quickly: mostly short, some longer, a few deep, some with a damaged outline."""
    pairs = lists.outline_pairs(10 * count, seed)
    found, index = [generate.Case(*pair, 80, 2) for pair in random.Random(f"pairs {seed}").sample(pairs, count // 5)], 0
    while len(found) < count:
        make = generate.deep if index % 40 == 7 else generate.small if index % 5 == 0 else generate.case
        made = make(seed, index)
        index += 1
        if len(made.source) <= USUAL_BYTES or index % 40 == 0:
            found.append(made)
    return found


def copy_to(place):
    """The crate of the rows, which is still to be written, in a copy of what it needs."""
    rules = os.path.join("crates", "dogwood_rules")
    shutil.copytree(os.path.join(rust.TOP, rules), os.path.join(place, rules), ignore=shutil.ignore_patterns("out"))
    with open(os.path.join(place, "crates.txt"), "w", encoding="utf-8") as file:
        file.write(f"dogwood_rules:\n{CRATE}: dogwood_rules\n")
    return os.path.join(place, "crates", CRATE)


def write_rows(crate, rows):
    """The files of the crate, and the row at each line of each."""
    for folder in ("src", "specs"):
        shutil.rmtree(os.path.join(crate, folder), ignore_errors=True)
        os.makedirs(os.path.join(crate, folder))
    with open(os.path.join(crate, "src", "lib.rt"), "w", encoding="utf-8") as file:
        file.write("// Rows of the definitions. No code.\n#![tactic(auto)]\n")
    where, names, keys = {}, [], sorted(rows)
    for first in range(0, len(keys), ROWS_A_FILE):
        name = f"Rows{first // ROWS_A_FILE}"
        names.append(name)
        lines = HEAD.split("\n")
        for key in keys[first:first + ROWS_A_FILE]:
            lines += [f"pub row{key} : {rows[key]}", "unfolding everything", f"row{key} = refl", ""]
            where.update({(name, len(lines) - back): key for back in range(4)})
        with open(os.path.join(crate, "specs", name + ".antt"), "w", encoding="utf-8") as file:
            file.write("\n".join(lines))
    with open(os.path.join(crate, "specs", "Lib.antt"), "w", encoding="utf-8") as file:
        file.writelines(f"pub mod {name}\n" for name in names)
    return where


def check(crate):
    done = subprocess.run(["rt", "check"], cwd=crate, stdout=subprocess.PIPE, stderr=subprocess.STDOUT)
    return done.returncode, done.stdout.decode(errors="replace")


def refused_rows(said, where):
    found = {}
    for name, line, why in re.findall(r"/(Rows\d+)\.antt:(\d+):\d+: error: (.*)", said):
        if (name, int(line)) in where:
            found[where[name, int(line)]] = why
    return found


def hold(crate, rows):
    """Which rows the checker refuses, and why; None where it could not tell."""
    left, refused = dict(rows), {}
    while left:
        where = write_rows(crate, left)
        status, said = check(crate)
        if status == 0:
            return refused
        found = refused_rows(said, where)
        if not found:
            print(said[-3000:])
            return None
        refused.update(found)
        for key in found:
            del left[key]
    return refused


def compare(count, seed):
    host = rust.build()
    began = time.time()
    first = list(written())
    cases = first + chosen(count, seed)
    answers, counts, differences = expected.calls(host, cases)
    for case, why in differences:
        print(f"DIFFERENCE of reading and Rust: {case}: {why}")
    rows, rng = {}, random.Random(f"rooms {seed}")
    for index, (case, answer) in enumerate(zip(cases, answers)):
        room_enough = len(answer.table), len(answer.output)
        table_room, output_room = room_enough if index < len(first) else rooms(rng, answer)
        if index % 6 == 5:
            rows[index] = tokens_row(case, table_room)
        elif index % 6 == 3:
            rows[index] = tests_row(case, table_room)
        else:
            rows[index] = call_row(case, table_room, output_room)
    with tempfile.TemporaryDirectory() as place:
        refused = hold(copy_to(place), rows)
    if refused is None:
        print("rules: the checker could not tell")
        return 1
    for index, why in sorted(refused.items()):
        print(f"DIFFERENCE: {cases[index]}\n  {rows[index]}\n  {why}")
    print(f"rules: {len(rows) - len(refused)} rows ({len(first)} written, {count} made) agree, {len(refused)} differ, {time.time() - began:.0f} s")
    if host:
        print("  held against the Rust: " + ", ".join(f"{compared} {counts[compared]}" for compared in sorted(counts)))
    return 1 if refused or differences else 0
