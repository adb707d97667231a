"""Our programs, built, run on generated cases, and held to what is due."""
import os
import random
import re
import subprocess
import tempfile
import time

import expected
import formats
import generate
import reading
import rust

NAMES = {"tokens": "tokens_replay", "outlines": "outline_replay", "calls": "calls_replay"}
MOST = 4096
MOST_TABLE, MOST_OUTPUT, MOST_OUTLINE = 24_576, 65_536, 4096


def room_for(rng, need):
    """Mostly exact or a little more, now and then one short, or nothing."""
    return max(0, need + rng.choice([0, 0, 0, 1, 2, 3, 7, -1, -need]))


def drawn(count, seed):
    """Generated cases at 01's width and indent, mostly fitting, some short, some deep."""
    cases, index = [], 0
    while len(cases) < count:
        make = generate.deep if index % 60 == 7 else generate.small if index % 4 == 0 else generate.case
        made = make(seed, index)
        if len(made.source) <= MOST:
            cases.append(made._replace(width=80, indent=2))
        index += 1
    return cases


def agreed(host, cases):
    answers, _, found = expected.calls(host, cases)
    for case, why in found:
        print(f"DIFFERENCE of reading and Rust: {case}: {why}")
    if found:
        raise SystemExit("oracle: the reading and the Rust disagree, so nothing is due")
    return answers


def tokens_records(host, count, seed):
    rng, cases = random.Random(f"tokens {seed}"), drawn(count, seed)
    return [formats.tokens(case.source, room_for(rng, len(answer.table))) for case, answer in zip(cases, agreed(host, cases))]


def outlines_records(host, count, seed):
    rng, cases = random.Random(f"outlines {seed}"), drawn(count, seed)
    cases = [
        case._replace(outline=generate.damaged_outline(rng, case.outline)) if rng.random() < 0.6 else case for case in cases
    ]
    answers = agreed(host, cases)
    return [formats.outlines(case.source, case.outline, room_for(rng, len(answer.table))) for case, answer in zip(cases, answers)]


def joined(cases):
    """The texts of some cases, each in lines of its own, and the outline of them all."""
    source, outline = b"", []
    for case in cases:
        places = expected.place_words(case.outline)
        outline += [(word + len(source)) % 2**32 if index in places else word for index, word in enumerate(case.outline)]
        source += reading.split_mark(case.source)[1] + b"\n"
    return generate.Case(source, outline, 80, 2)


def long_cases(rng, cases, answers, count):
    """Long sources: many that are laid out, one behind the other, and in every fourth one that is not."""
    fine = [case for case, answer in zip(cases, answers) if answer.number == 0]
    other = [case for case, answer in zip(cases, answers) if answer.number != 0]
    found = []
    while fine and len(found) < count:
        some = rng.choices(fine, k=rng.randint(10, 120))
        if other and len(found) % 4 == 3:
            some.insert(rng.randrange(len(some)), rng.choice(other))
        case = joined(some)
        if len(case.source) <= MOST_OUTPUT and len(case.outline) <= MOST_OUTLINE:
            found.append(case)
    return found


def calls_records(host, count, seed):
    rng, cases = random.Random(f"calls {seed}"), drawn(count, seed)
    answers = agreed(host, cases)
    longer = long_cases(rng, cases, answers, count // 400)
    found = []
    for case, answer in zip(cases + longer, answers + agreed(host, longer)):
        rooms = min(MOST_TABLE, room_for(rng, len(answer.table))), min(MOST_OUTPUT, room_for(rng, len(answer.output)))
        found.append(formats.calls(case.source, case.outline, *rooms))
    return found


def part_of(rng, case):
    """The bytes of some part that can be laid out by itself, or None: it balances, holds no comment, is not too deep."""
    _, text = reading.split_mark(case.source)
    if reading.answer(80, 2, case.source, case.outline, expected.NO_LIMIT, expected.NO_LIMIT).number != 0:
        return None
    parts = [text[start:end] for statement in reading.read_records(case.outline) for start, end in statement.parts]
    parts = [part for part in parts if not part.startswith(reading.MARK) and len(part) <= MOST]
    return rng.choice(parts) if parts else None


RECORDS = {"tokens": tokens_records, "outlines": outlines_records, "calls": calls_records}


def listed(crate):
    with open(os.path.join(rust.TOP, "crates.txt"), encoding="utf-8") as file:
        return any(re.match(rf"\s*{crate}\s*:", text) for text in file)


def run(crate, path):
    """What the program writes, which is proved and built first. What rt says of that comes on stderr."""
    done = subprocess.run(["rt", "run", "--", path], cwd=os.path.join(rust.TOP, "crates", crate), stdin=subprocess.DEVNULL, capture_output=True)
    if done.returncode != 0:
        raise SystemExit(f"oracle: {crate} was not built or did not end well:\n{done.stderr.decode(errors='replace')[-3000:]}")
    return done.stdout


def compare(name, count, seed):
    crate = NAMES[name]
    if not listed(crate):
        print(f"{name}: crates.txt lists no crate {crate} yet: not compared")
        return 1
    host, began = rust.build(), time.time()
    records = RECORDS[name](host, count, seed)
    with tempfile.TemporaryDirectory() as work:
        path = os.path.join(work, "cases")
        with open(path, "wb") as file:
            file.writelines(record.asked for record in records)
        data = run(crate, path)
    print(f"  at most {formats.largest(name, records)}")
    found = formats.differences(name, records, data)
    for record, written in sorted(found, key=lambda difference: len(difference[0].asked))[:10]:
        print(f"DIFFERENCE: {record.what}\n  due     {record.due!r}\n  written {written!r}")
    against = "the Rust and the second reading" if host else "the second reading alone"
    print(f"{name}: {len(records)} cases against {against}, {len(found)} differences, {time.time() - began:.0f} s")
    return 1 if found else 0


def comparison(name):
    return lambda count, seed: compare(name, count, seed)
