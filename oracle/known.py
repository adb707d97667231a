"""Rows that are written down: 01's own examples, and what the Rust does where 01 refuses.

Each is run on the Rust and on the second reading; a row that either no longer keeps is a difference.
"""
from collections import namedtuple

import expected
import generate
import reading
import rust

PANIC = "panic"

Refusal = namedtuple("Refusal", "what source outline number place rust")
Example = namedtuple("Example", "what source outline number place output")


def one(source):
    """The outline of one definition that is the whole text."""
    return [0, 0, len(source), 1, 0, len(source)]


NESTED = b"(" * 65 + b")" * 65
LONG = b"a" * 1_048_577
WIDE = b"w" * 80 + b"("

# what 01 answers, and what the Rust does in its place
REFUSALS = [
    Refusal("1: string without end", b'"', [], 1, 0, b'"'),
    Refusal("2: comment inside a statement", b"a //c\n;", [1, 0, 7, 2, 0, 1, 6, 7], 2, 2, b"a //c\n;"),
    Refusal("3: no statement and no comment", b" \n", [], 3, 0, b" \n"),
    Refusal("5: nesting above 64", NESTED, one(NESTED), 5, 64, None),
    Refusal("11: source too long", LONG, one(LONG), 11, 0, LONG),
    Refusal("4: a token in a statement lies in a part", b"a", [1, 0, 1, 0], 4, 0, b""),
    Refusal("4: every start and end is a token's start or the text's end", b"ab", [1, 0, 2, 2, 0, 1, 1, 2], 4, 0, b"a\nb"),
    Refusal("4: parts are in order and within their statement", b"a b", [1, 0, 3, 2, 0, 3, 0, 1], 4, 0, b"a b\na"),
    Refusal("4: each statement has a token", b" ", [0, 0, 1, 1, 0, 1], 4, 0, b""),
    Refusal("4: in each part the depth never falls below 0 and ends at 0", b"()", [1, 0, 2, 2, 0, 1, 1, 2], 4, 0, b"(\n)"),
    Refusal("4: a definition has one part, equal to its span", b"a b", [0, 0, 3, 2, 0, 1, 1, 3], 4, 0, b"a\nb"),
    Refusal("4: parts are in order and within their statement", b" a", [1, 1, 2, 1, 0, 2], 4, 0, b"a"),
    Refusal("4: in each part the depth never falls below 0 and ends at 0", b"(", [0, 0, 1, 1, 0, 1], 4, 0, b"("),
    Refusal("4: in each part the depth never falls below 0 and ends at 0", WIDE, one(WIDE), 4, 0, PANIC),
    Refusal("4: every start and end is a token's start or the text's end", "é".encode(), [1, 0, 2, 2, 0, 1, 1, 2], 4, 0, PANIC),
    Refusal("4: statements are in order and within the text", b"a", [0, 0, 2, 1, 0, 2], 4, 0, PANIC),
    Refusal("4: parts are in order and within their statement", b"a", [1, 0, 1, 1, 1, 0], 4, 0, PANIC),
    Refusal("4: outside statements stand only white space and comments", b"a", [], 4, 0, b"a"),
]

# 01's examples: what they answer there
B36, C36 = b"B" * 36, b"C" * 36
ONCE = b"f(\n  a\n) g(" + B36 + b") h(\n  " + C36 + b"\n)"
EXAMPLES = [
    Example("T5", b'"', [], 1, 0, b'"'),
    Example("T6", b"", [], 3, 0, b""),
    Example("L1", b"f(" + b"a" * 77 + b")", [0, 0, 80, 1, 0, 80], 0, 0, b"f(" + b"a" * 77 + b")"),
    Example("L2", b"f(" + b"a" * 78 + b")", [0, 0, 81, 1, 0, 81], 0, 0, b"f(\n  " + b"a" * 78 + b"\n)"),
    Example("L3", ('f("' + "é" * 75 + '")').encode(), [0, 0, 155, 1, 0, 155], 0, 0, ('f("' + "é" * 75 + '")').encode()),
    Example("L4", b"f(" + b"a" * 76 + b") x", [0, 0, 81, 1, 0, 81], 0, 0, b"f(" + b"a" * 76 + b") x"),
    Example(
        "L5", b'@id("x") permit(p) when {q};', [1, 0, 28, 3, 0, 8, 8, 19, 19, 28], 0, 0, b'@id("x")\npermit(p)\nwhen {q};'),
    Example(
        "whole", b" // a  \n//b\npermit(x);\nforbid(y);// c", [1, 12, 22, 1, 12, 22, 1, 23, 33, 1, 23, 33], 0, 0,
        b"// a\n//b\npermit(x);\n\nforbid(y);\n\n// c"),
    Example("twice, first", b"f(a) g(" + B36 + b") h(" + C36 + b")", [0, 0, 84, 1, 0, 84], 0, 0, ONCE),
    Example("twice, second", ONCE, one(ONCE), 0, 0, b"f(\n  a\n) g(\n  " + B36 + b"\n) h( " + C36 + b" )"),
    Example("no mark", b" \xef\xbb\xbf", [0, 0, 4, 1, 0, 4], 0, 0, b"\xef\xbb\xbf"),
]

# 01's examples of tokens: kinds and texts
TOKENS = [
    ("T1", "a:::b", [(3, "a"), (5, "::"), (5, ":"), (3, "b")]),
    ("T2", "&&&", [(5, "&&"), (6, "&")]),
    ("T2", "é&&", [(6, "é&&")]),
    ("T3", "12ab_", [(4, "12"), (3, "ab_")]),
    ("T4", "é//x", [(6, "é"), (1, "//x")]),
]

# 01's examples of insides: their items
INSIDES = [("a && b,", ["a", "&& b,"]), ("a, b && c", ["a,", "b && c"])]


def table_of(tokens):
    words, at = [], 0
    for kind, text in tokens:
        words += [kind, at, at + len(text.encode())]
        at = words[-1]
    return words


def refusal_fault(row, how, told):
    """Why a row is not kept, or None."""
    answer = reading.answer(80, 2, row.source, row.outline, expected.NO_LIMIT, expected.NO_LIMIT)
    if (answer.number, answer.place) != (row.number, row.place):
        return f"reading answers {answer.number} {answer.place}"
    if answer.number in (1, 2, 3, 4, 5) and answer.output != row.source:
        return "reading does not hand back the source"
    if row.number == 4 and sentence(row) != row.what[3:]:
        return f"reading finds: {sentence(row)}"
    if row.rust is PANIC:
        return None if how == rust.PANICKED else f"the Rust wrote {told!r}"
    due = expected.full_layout(generate.Case(row.source, row.outline, 80, 2)) if row.rust is None else row.rust
    return None if (how, told) == (rust.ANSWERED, due) else f"the Rust did {how} {told!r}"


def sentence(row):
    _, text = reading.split_mark(row.source)
    return reading.misfit(row.outline, reading.tokenise(text.decode())[0], len(text))


def told_as(row, how, told):
    if how == rust.PANICKED:
        return "panicked"
    return "gave the source back" if told == row.source else f"wrote {told[:24]!r}{'..' if len(told) > 24 else ''}"


def refusals_kept(host):
    """Says what the Rust does in each row; how many rows are not kept."""
    told = rust.ask(host, [rust.question(rust.CALL, row.source, row.outline) for row in REFUSALS])
    faults = 0
    for row, (how, written) in zip(REFUSALS, told):
        fault = refusal_fault(row, how, written)
        source = row.source if len(row.source) < 24 else row.source[:8] + b".."
        print(f"{row.what}: {source!r} {row.outline}: the Rust {told_as(row, how, written)}")
        if fault:
            print(f"  DIFFERENCE: {fault}")
            faults += 1
    return faults


def examples_kept(host):
    told = rust.ask(host, [rust.question(rust.CALL, row.source, row.outline) for row in EXAMPLES])
    faults = 0
    for row, (how, written) in zip(EXAMPLES, told):
        answer = reading.answer(80, 2, row.source, row.outline, expected.NO_LIMIT, expected.NO_LIMIT)
        if (answer.number, answer.place, answer.output) != row[3:] or (how, written) != (rust.ANSWERED, row.output):
            print(f"DIFFERENCE {row.what}: reading {answer[:3]}, the Rust {how} {written!r}")
            faults += 1
    return faults


def tokens_kept(host):
    told = rust.ask(host, [rust.question(rust.TOKENS, text.encode()) for _, text, _ in TOKENS])
    faults = 0
    for (what, text, tokens), (_, written) in zip(TOKENS, told):
        if not table_of(tokens) == reading.tokenising(text.encode(), expected.NO_LIMIT)[2] == rust.words_of(written):
            print(f"DIFFERENCE {what}: the Rust {rust.words_of(written)}")
            faults += 1
    return faults


def insides_kept(host):
    """A group too wide for any line shows its items one below the other."""
    told = rust.ask(host, [rust.question(rust.LAYOUT, f"({inside})".encode(), (), 7, 0) for inside, _ in INSIDES])
    faults = 0
    for (inside, items), (_, written) in zip(INSIDES, told):
        found = [reading.flat(item) for item in reading.items(reading.tokenise(inside)[0])]
        if found != items or written.decode() != "\n".join(["("] + items + [")"]):
            print(f"DIFFERENCE {inside}: reading {found}, the Rust {written!r}")
            faults += 1
    return faults


def compare(_count, _seed):
    host = rust.build()
    if not host:
        return 0
    faults = refusals_kept(host) + examples_kept(host) + tokens_kept(host) + insides_kept(host)
    print(f"known: {len(REFUSALS) + len(EXAMPLES) + len(TOKENS) + len(INSIDES)} rows, {faults} differences")
    return 1 if faults else 0
