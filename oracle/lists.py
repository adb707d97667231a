"""The recorded lists that the gate replays: every rule met by short sources, each single damage, every number, rooms around what is needed.

11 needs a source of more than 1,048,576 bytes: one of letters alone, which no list writes out.
"""
import itertools
import os
import random
import sys

import expected
import formats
import generate
import programs
import reading
import rust

SEED = "recorded"
ALPHABET = [" ", "\n", '"', "\\", "/", "a", "_", "1", ":", "=", "&", "(", "é", "\u2028"]
EDGES = [0x00, 0x41, 0x7F, 0x80, 0x8F, 0x90, 0x9F, 0xA0, 0xBF, 0xC0, 0xC1, 0xC2, 0xDF, 0xE0, 0xED, 0xEE, 0xEF, 0xF0, 0xF4, 0xF5, 0xFF]
MOST_BYTES = 1_400_000


def one(source, kind=0):
    size = len(reading.split_mark(source)[1])
    return [kind, 0, size, 1, 0, size]


# Tokens -----------------------------------------------------------------------------------------------------------

def short_sources():
    """Every text of up to three characters over an alphabet that meets each rule."""
    for count in range(4):
        for characters in itertools.product(ALPHABET, repeat=count):
            yield "".join(characters).encode()


def bad_sources():
    """Bytes around every edge of RFC 3629's ranges: each byte alone, each two edges, and longer forms with one byte at an edge."""
    yield from (bytes([byte]) for byte in range(0x80, 0x100))
    yield from (bytes(pair) for pair in itertools.product(EDGES[7:], EDGES))
    for whole in (b"\xe0\xa0\x80", b"\xed\x9f\xbf", b"\xee\x80\x80", b"\xf0\x90\x80\x80", b"\xf4\x8f\xbf\xbf"):
        for at in range(1, len(whole)):
            yield whole[:at]
            for byte in EDGES:
                yield b"a" + whole[:at] + bytes([byte]) + whole[at + 1:]
    for bad in (b"\x80", b"\xe2\x80", b"\xff"):
        yield from (reading.MARK + bad, b'"' + bad, b'"' + bad + b'"', b"//" + bad, reading.MARK[:2] + bad)


def marks_and_line_ends():
    yield from (reading.MARK, reading.MARK * 2, reading.MARK + b'"', reading.MARK + b"a", b" " + reading.MARK, reading.MARK[:1], reading.MARK[:2])
    for end in ("\n", "\r", "\r\n", "\v", "\f", "\x85", "\u2028", "\u2029"):
        yield ("//a" + end + "b").encode()
        yield ('"a' + end + '\\' + end + '"').encode()
    for character in generate.WHITE + ["\u200b", "\ufeff", "\u180e", "\x1c", "\x1f", "\u2060"]:
        yield ("a" + character + character + "é").encode()
    for symbol in list(reading.DOUBLES) + sorted(reading.SINGLES):
        yield from ((symbol + symbol).encode(), ("é" + symbol).encode(), (symbol + "&").encode())
    yield from (b"a//" + bytes([byte]) + b"x" for byte in range(0x80))


def token_sources():
    yield from short_sources()
    yield from bad_sources()
    yield from marks_and_line_ends()
    for index in range(500):
        yield generate.case(SEED, index, house=True, damage=0.5).source


def rooms_around(index, need):
    """By turns exact, one word short, nothing, and odd words more."""
    return max(0, need + (0, -1, 1, 2, -need, 5, 0, -2)[index % 8])


def token_records(host):
    sources = list(token_sources())
    answers = programs.agreed(host, [generate.Case(source, [], 80, 2) for source in sources])
    return [formats.tokens(source, rooms_around(index, len(answer.table))) for index, (source, answer) in enumerate(zip(sources, answers))]


def tokens_list(host):
    """.. and the longest source, with and without room for its token, and one byte more."""
    return token_records(host) + [formats.longest(size, room) for size, room in ((1048576, 3), (1048576, 2), (1048577, 3), (1048577, 0))]


def upto_open(source):
    """A source up to its string without end: of the whole the Rust tells that string's place and no token."""
    number, place, _ = reading.tokenising(source, expected.NO_LIMIT)
    return source[:len(reading.split_mark(source)[0]) + place] if number == 1 else source


def readings_list(host):
    records = [formats.readings(record.what[0], record.what[1]) for record in token_records(host)]
    cut = [upto_open(record.what[0]) for record in records]
    programs.agreed(host, [generate.Case(source, [], 80, 2) for source in cut])
    for source, record in zip(cut, records):
        tokens = formats.readings(source, 0).due.removesuffix(b"end;end;\n")
        if not record.due.startswith(tokens):
            raise SystemExit(f"oracle: the readings of {record.what[0]!r} do not begin with the tokens before its string without end")
    return records


# Outlines ---------------------------------------------------------------------------------------------------------

def single_damages(words):
    """Each single damage of an outline."""
    for at, word in enumerate(words):
        for other in (word + 1, word - 1):
            yield words[:at] + [other % 2**32] + words[at + 1:]
        yield words[:at] + words[at + 1:]
        yield words[:at] + [word] + words[at:]
    at = 0
    while at < len(words):
        for kind in (2, 2**32 - 1):
            yield words[:at] + [kind] + words[at + 1:]
        for count in (0, 2**31, 2**31 + words[at + 3], 2**32 - 1):
            yield words[:at + 3] + [count] + words[at + 4:]
        at += 4 + 2 * words[at + 3]
    yield words + words


def words_of(statements):
    return [
        word for s in statements for word in [s.kind, s.start, s.end, len(s.parts)] + [place for part in s.parts for place in part]
    ]


def damages_by_token(case):
    """Each start and end at the token edge before and after it, each statement gone, each part cut in two or gone, and each
    token outside as a statement of its own."""
    _, text = reading.split_mark(case.source)
    tokens, _ = reading.tokenise(text.decode())
    edges = [token.start for token in tokens] + [len(text)]
    words, statements = case.outline, reading.read_records(case.outline)
    for index in range(len(words)):
        if words[index] in edges:
            at = edges.index(words[index])
            for edge in edges[max(0, at - 1):at] + edges[at + 1:at + 2]:
                yield words[:index] + [edge] + words[index + 1:]
    for index, statement in enumerate(statements):
        before, after = statements[:index], statements[index + 1:]
        yield words_of(before + after)
        for number, (start, end) in enumerate(statement.parts):
            rest = statement.parts[:number], statement.parts[number + 1:]
            yield words_of(before + [statement._replace(kind=1, parts=rest[0] + rest[1])] + after)
            for edge in [edge for edge in edges if start < edge < end][:12]:
                parts = rest[0] + [(start, edge), (edge, end)] + rest[1]
                yield words_of(before + [statement._replace(kind=1, parts=parts)] + after)
    for token in tokens:
        if not any(reading.inside(token, s.start, s.end) for s in statements):
            more = reading.Statement(0, token.start, token.end, [(token.start, token.end)])
            yield words_of(sorted(statements + [more], key=lambda s: s.start))


WRITTEN_OUTLINES = [
    (b"a", [1, 0, 1, 2147483649, 0, 1]), (b" a", [1, 1, 2, 1, 0, 2]), (b"a //c\n;", [1, 0, 7, 2, 0, 1, 6, 7]), (b"a", [1, 0, 1, 0]),
    (b"ab", [1, 0, 2, 2, 0, 1, 1, 2]), (b"a b", [1, 0, 3, 2, 0, 3, 0, 1]), (b" ", [0, 0, 1, 1, 0, 1]), (b"()", [1, 0, 2, 2, 0, 1, 1, 2]),
    (b"a b", [0, 0, 3, 2, 0, 1, 1, 3]), (b"(", [0, 0, 1, 1, 0, 1]), ("é".encode(), [1, 0, 2, 2, 0, 1, 1, 2]), (b"a", [0, 0, 2, 1, 0, 2]),
    (b"a", [1, 0, 1, 1, 1, 0]), (b"a", []), (b"//a", []), (b"", []), (b"", [0, 0, 0, 1, 0, 0]), (b'"', [9]), (b"\xff", [9]),
    (b"f(a]", [0, 0, 4, 1, 0, 4]), (b")(", [0, 0, 2, 1, 0, 2]), (b'"("', [0, 0, 3, 1, 0, 3]), (b"a ", [1, 0, 2, 2, 0, 1, 1, 2]),
    (b"a//c", [1, 0, 4, 2, 0, 1, 1, 4]), (b"a//c", [1, 0, 1, 1, 0, 1]), (b"a", [1, 0, 1, 2, 0, 1, 0, 1]), (b"ab", [1, 0, 2, 1, 0, 2, 1, 2]),
]


def outline_pairs(count, seed):
    """Sources with outlines that fit, and with each damage of those."""
    pairs, index = list(WRITTEN_OUTLINES), 0
    while len(pairs) < count:
        case = generate.case(f"{seed} outlines", index, house=True, damage=0)
        index += 1
        if 6 <= len(case.outline) <= 30 and len(case.source) <= 160 and generate.fits(case):
            pairs.append((case.source, case.outline))
            damages = list(single_damages(case.outline))[index % 2::2] + list(damages_by_token(case))
            pairs += [(case.source, words) for words in damages]
    return pairs


def outlines_list(host):
    pairs = outline_pairs(4000, SEED)
    answers = programs.agreed(host, [generate.Case(source, outline, 80, 2) for source, outline in pairs])
    found = []
    for index, ((source, outline), answer) in enumerate(zip(pairs, answers)):
        room = rooms_around(index, len(answer.table)) if index % 5 == 0 else len(answer.table) + index % 3
        found.append(formats.outlines(source, outline, room))
    return found


# Calls ------------------------------------------------------------------------------------------------------------

def long_sources():
    """Sources up to 65,536 bytes: many statements, one long one, one that grows, an open string, a bad byte and a comment at the end."""
    statement = b"permit(principal, action, resource) when { context.ip == \"10.0.0.1\" && context.name like \"*\" };\n"
    count = 20_000 // len(statement)
    many = statement * count
    outline = []
    for index in range(count):
        start = index * len(statement)
        end = start + len(statement) - 1
        outline += [1, start, end, 2, start, start + 36, start + 36, end]
    yield many, outline
    yield statement * 40 + b'"', outline
    yield statement * 40 + b"\xff", outline
    commas = b"f(" + b",".join([b"abcdefgh"] * 900) + b");"
    yield commas, one(commas)
    full = b"f(" + b" " * 30_000 + b"a" * 35_530 + b");"
    yield full, one(full)
    grown = b"(" * 64 + b"a," * 300 + b")" * 64
    yield grown, one(grown)
    text = b'"' + "é\n".encode() * 21_800 + b'"'
    yield text, one(text)
    comments = b"// a comment \t\n" * 2000
    yield comments, []
    late = b"a" * 9000 + b" // c"
    yield late, one(late)


WRITTEN_CALLS = [
    (b"", []), (b" \n\t", []), (reading.MARK, []), (reading.MARK * 2, []), (reading.MARK * 2, [1, 0, 3, 1, 0, 3]), (b'"', []), (reading.MARK + b'"', []),
    (b" \xef\xbb\xbf", [0, 1, 4, 1, 1, 4]), (b" \xef\xbb\xbf", [0, 0, 4, 1, 0, 4]), ("//\u00a0\u2028".encode(), []), (b"// a\r\n//b", []),
    (b'@id("x") permit(p) when {q};', [1, 0, 28, 3, 0, 8, 8, 19, 19, 28]),
    (b" // a  \n//b\npermit(x);\nforbid(y);// c", [1, 12, 22, 1, 12, 22, 1, 23, 33, 1, 23, 33]),
    (b'"' + b"a" * 60 + b'\n" f(' + b"a" * 70 + b")", [0, 0, 137, 1, 0, 137]),
]


def wide_ones():
    """One definition, a few columns around the line's width, in each shape that the sum of a group speaks of."""
    for shape in ("f({})", "f({}) x", " f({})", "f({}) ", "f({});", "f({}, b)", "f({} && b)", "f(a) g({})", "f( {} )", '"\n"f({})', 'f("\n{}")',
                  "f(g({}), h(b))", "f([{}])", "f(){}()", "f(a || {}, b)", "f(,{},)", "f(a)({})", "f({})(\n)", "é({})", "f({}) //"):
        for width in range(76, 86):
            for letter in "aé":
                text = shape.replace("{}", letter * max(0, width - len(shape) + 2)).encode()
                yield text, one(text)


def nested_ones():
    for levels in range(62, 67):
        for opener, closer, inside in (("(", ")", ""), ("[", "]", "a"), ("{", "}", "a, b"), ("f(", ")", " a "), ("(", ")", "// c\n")):
            text = (opener * levels + inside + closer * levels).encode()
            yield text, one(text)


def call_pairs():
    yield from WRITTEN_OUTLINES
    yield from WRITTEN_CALLS
    yield from wide_ones()
    yield from nested_ones()
    for index in range(3000):
        case = generate.case(SEED + " calls", index, house=True, damage=0.15)
        if len(case.source) <= 300:
            yield case.source, case.outline


def around_rooms(rng, index, answer):
    """Rooms exact, one short, nothing, and more."""
    words, size = len(answer.table), len(answer.output)
    exact, more = (words, size), (words + rng.randrange(4), size + rng.randrange(9))
    short = [(words, max(0, size - 1)), (max(0, words - 1), size), (words, 0), (0, size), (0, 0), (words + 1, max(0, size - 1))]
    return (exact, more, exact, rng.choice(short))[index % 4]


def longest_calls(host):
    """The longest source and one byte more, each as one policy statement. Rooms too small for it: its output would be a list of its own."""
    whole, over = b"a" * reading.LIMIT, b"a" * (reading.LIMIT + 1)
    misfit = [1, 0, reading.LIMIT - 1, 1, 0, reading.LIMIT - 1]
    programs.agreed(host, [generate.Case(whole, one(whole, kind=1), 80, 2), generate.Case(over, one(over, kind=1), 80, 2)])
    for outline in (one(whole, kind=1), misfit):
        yield from (formats.calls(whole, outline, *rooms) for rooms in ((3, 0), (3, 7), (5, 60_000), (2, 7), (0, 0)))
    yield from (formats.calls(over, outline, *rooms) for outline in (one(over, kind=1), []) for rooms in ((3, 7), (0, 0)))


def calls_list(host):
    rng = random.Random(SEED)
    pairs = list(call_pairs())
    longer = list(long_sources())
    answers = programs.agreed(host, [generate.Case(source, outline, 80, 2) for source, outline in pairs + longer])
    found = []
    for index, ((source, outline), answer) in enumerate(zip(pairs, answers)):
        found.append(formats.calls(source, outline, *around_rooms(rng, index, answer)))
        if index % 5 == 0:
            found.append(formats.calls(source, outline, *around_rooms(rng, 3, answer)))
    for (source, outline), answer in zip(longer, answers[len(pairs):]):
        words, size = len(answer.table), len(answer.output)
        found.append(formats.calls(source, outline, words, size))
        if len(source) < 20_000:
            found += [formats.calls(source, outline, words, max(0, size - 1)), formats.calls(source, outline, max(0, words - 1), size)]
    return found + list(longest_calls(host))


LISTS = {"tokens": tokens_list, "readings": readings_list, "outlines": outlines_list, "calls": calls_list}


def write(path, parts):
    os.makedirs(os.path.dirname(path) or ".", exist_ok=True)
    with open(path, "wb") as file:
        file.writelines(parts)
    return os.path.getsize(path)


def main(arguments, usage):
    if len(arguments) != 2 or arguments[0] not in LISTS:
        print(usage, file=sys.stderr)
        return 2
    host = rust.build()
    if not host:
        print("record: without the Rust nothing is recorded", file=sys.stderr)
        return 1
    records = LISTS[arguments[0]](host)
    numbers = " ".join(sorted({formats.number(arguments[0], record) for record in records}))
    asked = write(os.path.join(arguments[1], "data", "cases"), (record.asked for record in records))
    due = write(os.path.join(arguments[1], "stdout"), (record.due for record in records))
    print(f"{arguments[0]}: {len(records)} records of {asked} bytes, {due} bytes due, answers {numbers}")
    print(f"  at most {formats.largest(arguments[0], records)}")
    if asked > MOST_BYTES:
        print(f"record: the cases are more than {MOST_BYTES} bytes", file=sys.stderr)
        return 1
    return 0
