"""Sources with their outlines, by a seed: the same seed and index give the same case everywhere."""
import random
from collections import namedtuple

import reading

Case = namedtuple("Case", "source outline width indent")

WHITE = sorted(reading.WHITE)
PAIRS = ["()", "[]", "{}"]
NAMES = ["a", "b", "x1", "_", "principal", "action", "resource", "context", "when", "permit", "like", "in"]
OPERATORS = ["==", "!=", "<=", ">=", "::", ".", "+", "-", "*", "/", "%", "!", "<", ">", "=", "?", ":", "@", "&", "|", "#", "~"]
OTHERS = ["é", "ß&", "&", "|", "\u200b", "\ufeff", "$", "`", "'", "\\", "日本", "\U0001f600", "\x00", "\x7f", "\u0301", "^&&", "#||"]
STRINGS = ['""', '"x"', '"a b"', '"é日"', '"\\""', '"\\\\"', '"a\nb"', '"\r"', '"(["', '"//"', '"\\\n"', '"\u2028"', '"a,b"', '"&&"', '"\n"']
COMMENTS = ["//", "// a", "// a  ", "//\u00a0\u2028", "// (", '// "', "//// x\t", "// é\u3000", "//\ufeff", "// a\x0bb\x0c"]
PAD = "\ue000"
LARGE = [2, 2**31 - 1, 2**31, 2**31 + 1, 2**32 - 1]


class Builder:
    """A text that grows, with the places of what it holds."""

    def __init__(self, rng, width, indent, comments):
        self.rng, self.width, self.indent, self.comments = rng, width, indent, comments
        self.text, self.at, self.words = [], 0, []

    def add(self, text):
        self.text.append(text)
        self.at += len(text.encode())

    def chance(self, percent):
        return self.rng.random() * 100 < percent

    def white(self):
        if self.chance(75):
            return self.rng.choice([" ", " ", " ", "\n", "  ", "\n  "])
        return "".join(self.rng.choice(WHITE) for _ in range(self.rng.randint(1, 3)))

    def maybe_white(self, percent=40):
        return self.white() if self.chance(percent) else ""

    def name(self):
        return self.rng.choice(NAMES)

    # insides of statements ----------------------------------------------------------------------------------------

    def atom(self):
        kind = self.rng.randrange(10)
        if kind < 4:
            return self.name()
        if kind < 5:
            return str(self.rng.randrange(1000))
        if kind < 7:
            return self.rng.choice(STRINGS)
        if kind < 9:
            return self.rng.choice(OPERATORS)
        return self.rng.choice(OTHERS)

    def group(self, depth):
        pair = self.rng.choice(PAIRS)
        closer = self.rng.choice(PAIRS)[1] if self.chance(3) else pair[1]
        if self.chance(10):
            return pair[0] + self.maybe_white() + closer
        return pair[0] + self.soup(depth - 1) + closer

    def soup(self, depth):
        """A run that balances: atoms, groups, separators, white space, and now and then a comment."""
        joiner = self.rng.choice(["", "", ",", ", ", " && ", "||", " ,", "&&", " "])
        found = [self.maybe_white(25)]
        for index in range(self.rng.choice([0, 1, 1, 2, 2, 3, 4])):
            if index:
                found.append(joiner)
            for _ in range(self.rng.choice([1, 1, 2, 3])):
                found.append(self.group(depth) if depth > 0 and self.chance(35) else self.atom())
                found.append(self.maybe_white(45))
        if self.comments and self.chance(15):
            found.append(self.rng.choice(COMMENTS) + self.rng.choice(["\n", "\r", "\r\n"]))
        if self.chance(8):
            found.append(self.rng.choice([",", "&&", " || "]))
        return "".join(found)

    def deep(self):
        """A run as deep as 01's limit, or one or two off it."""
        levels = self.rng.randint(62, 66)
        pairs = [self.rng.choice(PAIRS) for _ in range(levels)]
        gap = self.rng.choice(["", "", " ", ","])
        return gap.join(pair[0] for pair in pairs) + self.soup(0) + gap.join(pair[1] for pair in reversed(pairs))

    def padded(self, text):
        """The text, one of its words as long as it takes to end near the line's width."""
        level = self.rng.choice([0, 0, 0, 1, 2])
        want = self.width - self.indent * level + self.rng.randint(-2, 3)
        letter = self.rng.choice(["a", "a", "_", "é"])
        return text.replace(PAD, letter * max(1, want - len(text) + 1))

    def run(self):
        if self.chance(2):
            return self.deep()
        text = self.soup(self.rng.choice([0, 1, 2, 2, 3, 5]))
        if self.chance(35):
            holes = [at for at in range(len(text) + 1) if at == 0 or text[at - 1] in "([{, )"]
            hole = self.rng.choice(holes)
            text = self.padded(text[:hole] + PAD + text[hole:])
        elif self.chance(20):
            text = self.padded("f(" + PAD + ")" + self.rng.choice(["", " x", ";", " ", " g(y)", ".b(c, d)"]))
        return text

    # statements ---------------------------------------------------------------------------------------------------

    def definition(self):
        start = self.at
        self.add(self.maybe_white(5) + self.rng.choice(["def f", "f", "a ", ""]) + self.run() + self.rng.choice([";", "", " "]))
        self.words += [0, start, self.at, 1, start, self.at]

    def annotation(self):
        start = self.at
        self.add("@" + self.maybe_white(5) + self.name())
        if self.chance(80):
            self.add(self.maybe_white(10) + "(" + self.maybe_white(10) + self.rng.choice(STRINGS) + ")")
        return start, self.at

    def condition(self):
        start = self.at
        self.add(self.rng.choice(["when", "unless"]) + self.maybe_white(70) + "{" + self.run() + "}")
        return start, self.at

    def policy(self):
        """Cut as the Rust's `policy_item` cuts a policy."""
        start = self.at
        annotations, conditions = [], []
        for _ in range(self.rng.choice([0, 0, 1, 1, 2])):
            annotations.append(self.annotation())
            self.add(self.white() if self.chance(95) else "")
        self.add(self.rng.choice(["permit", "forbid"]) + self.maybe_white(10) + "(" + self.run() + ")" + self.maybe_white(80))
        for _ in range(self.rng.choice([0, 1, 1, 2, 3])):
            conditions.append(self.condition())
            self.add(self.maybe_white(60))
        self.add(";")
        head = annotations[-1][1] if annotations else start
        starts = [head] + [condition[0] for condition in conditions]
        parts = annotations + list(zip(starts, starts[1:] + [self.at]))
        parts = [part for part in parts if part[0] < part[1]]
        self.words += [1, start, self.at, len(parts)] + [place for part in parts for place in part]

    def loose_policy(self):
        """Parts with white space between them, at their edges, or as a part of its own."""
        start, parts = self.at, []
        for _ in range(self.rng.randint(1, 4)):
            if self.chance(40):
                self.add(self.white())
            first = self.at
            self.add(self.maybe_white(15) + self.soup(2) + self.maybe_white(15))
            if first < self.at:
                parts.append((first, self.at))
        self.add(self.maybe_white(20))
        if start < self.at:
            self.words += [1, start, self.at, len(parts)] + [place for part in parts for place in part]

    def between(self):
        for _ in range(self.rng.choice([0, 1, 1, 1, 2, 3])):
            if self.chance(25):
                self.add(self.rng.choice(COMMENTS) + self.rng.choice(["\n", "\r", "\r\n", "\n\n"]))
            else:
                self.add(self.white())

    def file(self):
        self.between()
        for _ in range(self.rng.choice([0, 1, 1, 1, 1, 2, 2, 3])):
            kind = self.rng.randrange(10)
            (self.definition if kind < 4 else self.policy if kind < 8 else self.loose_policy)()
            self.between()
        if self.chance(10):
            self.add(self.rng.choice(COMMENTS))


def source_of(builder):
    rng = builder.rng
    text = "".join(builder.text).encode()
    if rng.random() < 0.1:
        return reading.MARK + text
    return text


def settings(rng, house):
    if house or rng.random() < 0.4:
        return 80, 2
    if rng.random() < 0.6:
        return rng.randint(0, 24), rng.randint(0, 4)
    return rng.randint(20, 200), rng.randint(0, 8)


def fits(made):
    _, text = reading.split_mark(made.source)
    tokens, unended = reading.tokenise(text.decode())
    return unended is None and reading.misfit(made.outline, tokens, len(text)) is None


def mostly_fitting(rng, make):
    """Mostly one that fits: two neighbours may have grown together into one token, a soup may not balance."""
    made = make(rng)
    for _ in range(8):
        if rng.random() < 0.04 or fits(made):
            break
        made = make(rng)
    return made


def good(rng, house=False):
    width, indent = settings(rng, house)
    builder = Builder(rng, width, indent, comments=rng.random() < 0.1)
    if rng.random() < 0.03:
        builder.add("\ufeff")
    builder.file()
    return Case(source_of(builder), builder.words, width, indent)


def damaged_source(rng, source):
    data = bytearray(source)
    kind = rng.randrange(5)
    if not data:
        return bytes([rng.randrange(256)])
    at = rng.randrange(len(data))
    if kind == 0:
        data[at] ^= 1 << rng.randrange(8)
    elif kind == 1:
        quotes = [place for place, byte in enumerate(data) if byte == 0x22] or [at]
        del data[rng.choice(quotes)]
    elif kind == 2:
        data[at:at + 1] = rng.choice([b"", b"\xed\xa0\x80", b"\xc0\x80", b"\xf4\x90\x80\x80", b"\xe2\x80", b"\xff", b"\xf8\x88\x80\x80\x80"])
    elif kind == 3:
        del data[at:]
    else:
        data.insert(at, rng.choice(b'"()[]{},;\\/&| \n\r'))
    return bytes(data)


def damaged_outline(rng, words):
    words = list(words)
    if not words:
        return [rng.choice([0, 1, 2]) for _ in range(rng.randint(1, 6))]
    at = rng.randrange(len(words))
    kind = rng.randrange(5)
    if kind == 0:
        words[at] = (words[at] + rng.choice([1, -1])) % 2**32
    elif kind == 1:
        del words[at]
    elif kind == 2:
        words.insert(at, words[at])
    elif kind == 3:
        words[at] = rng.choice(LARGE + [0])
    else:
        del words[at:]
    return words


def case(seed, index, house=False, damage=0.2):
    rng = random.Random(f"{seed} {index}")
    made = mostly_fitting(rng, lambda rng: good(rng, house))
    drawn = rng.random()
    if drawn < damage / 2:
        return made._replace(source=damaged_source(rng, made.source))
    if drawn < damage:
        return made._replace(outline=damaged_outline(rng, made.outline))
    return made


def deep(seed, index):
    """One definition around the deepest nesting; narrow ones grow long."""
    rng = random.Random(f"deep {seed} {index}")
    width, indent = rng.choice([(80, 2), (80, 2), (200, 1), (130, 0), (40, 8)])
    builder = Builder(rng, width, indent, comments=False)
    builder.add(rng.choice(["", " ", "f", "// a\n"]))
    start = builder.at
    builder.add(builder.deep() + rng.choice(["", "(a, b)", ";", " x"]))
    return Case("".join(builder.text).encode(), [0, start, builder.at, 1, start, builder.at], width, indent)


def short(rng):
    alphabet = rng.choice(["a (),", "a ()[]&|,", 'a"\n(), ', " \n()a\u2028", "ab(){}&,; \u00a0é", '/a "\\\n()'])
    text = "".join(rng.choice(alphabet) for _ in range(rng.randint(0, 14)))
    size = len(text.encode())
    outline = [rng.randrange(2), 0, size, 1, 0, size] if size else []
    return Case(text.encode(), outline, rng.randint(0, 10), rng.randint(0, 3))


def small(seed, index):
    """A short soup over few characters, one statement, narrow: what breaks rules breaks them here first."""
    return mostly_fitting(random.Random(f"small {seed} {index}"), short)
