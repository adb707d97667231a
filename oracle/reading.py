"""Document 01 read a second time: plain functions, written from its sentences alone.

It is an opinion to hold others against, so it is naive: no table is kept, no width is carried, everything is counted anew.
A text is a Python string; places are counted in bytes.
"""
from collections import namedtuple

WHITESPACE, COMMENT, STRING, IDENTIFIER, NUMBER, SYMBOL, OTHER = range(7)

LIMIT = 1_048_576
MARK = b"\xef\xbb\xbf"
DEEPEST = 64

Token = namedtuple("Token", "kind text start end")
Statement = namedtuple("Statement", "kind start end parts")
Answer = namedtuple("Answer", "number place output table")


# UTF-8 ------------------------------------------------------------------------------------------------------------

def leading_ones(byte):
    count = 0
    while count < 8 and byte & (0x80 >> count):
        count += 1
    return count


def character_at(source, at):
    """(code point, length) of the character there, or None where it is bad."""
    first = source[at]
    ones = leading_ones(first)
    if ones == 0:
        return first, 1
    if ones == 1 or ones > 4 or at + ones > len(source):
        return None
    point = first & (0xFF >> (ones + 1))
    for byte in source[at + 1:at + ones]:
        if not 0x80 <= byte <= 0xBF:
            return None
        point = point * 64 + (byte - 0x80)
    overlong = point < {2: 0x80, 3: 0x800, 4: 0x10000}[ones]
    if overlong or 0xD800 <= point <= 0xDFFF or point > 0x10FFFF:
        return None
    return point, ones


def decode(source, at=0):
    """(text, None), or (None, place of the first bad character)."""
    text = []
    while at < len(source):
        character = character_at(source, at)
        if character is None:
            return None, at
        text.append(chr(character[0]))
        at += character[1]
    return "".join(text), None


def split_mark(source):
    if source[:3] == MARK:
        return MARK, source[3:]
    return b"", source


# Tokens -----------------------------------------------------------------------------------------------------------

WHITE = frozenset(map(chr, [
    0x09, 0x0A, 0x0B, 0x0C, 0x0D, 0x20, 0x85, 0xA0, 0x1680,
    0x2000, 0x2001, 0x2002, 0x2003, 0x2004, 0x2005, 0x2006, 0x2007, 0x2008, 0x2009, 0x200A,
    0x2028, 0x2029, 0x202F, 0x205F, 0x3000,
]))
LETTERS = frozenset("abcdefghijklmnopqrstuvwxyzABCDEFGHIJKLMNOPQRSTUVWXYZ")
DIGITS = frozenset("0123456789")
NAME_START = LETTERS | {"_"}
NAME = NAME_START | DIGITS
DOUBLES = ("::", "==", "!=", "<=", ">=", "&&", "||")
SINGLES = frozenset("( ) [ ] { } , ; @ . : ? + - * / % ! < > =".split())
ENDS_OTHER = WHITE | {'"'} | NAME | SINGLES


def run_end(text, at, test):
    while at < len(text) and test(text[at]):
        at += 1
    return at


def string_end(text, at):
    """Behind the closing quote of the string that opens there, or None."""
    at += 1
    while at < len(text):
        if text[at] == '"':
            return at + 1
        at += 2 if text[at] == "\\" else 1
    return None


def token_at(text, at):
    """(kind, where it ends) by the first rule that applies; the end is None for a string without end."""
    first = text[at]
    if first in WHITE:
        return WHITESPACE, run_end(text, at, lambda c: c in WHITE)
    if first == '"':
        return STRING, string_end(text, at)
    if text[at:at + 2] == "//":
        return COMMENT, run_end(text, at, lambda c: c not in "\n\r")
    if first in NAME_START:
        return IDENTIFIER, run_end(text, at, lambda c: c in NAME)
    if first in DIGITS:
        return NUMBER, run_end(text, at, lambda c: c in DIGITS)
    if text[at:at + 2] in DOUBLES:
        return SYMBOL, at + 2
    if first in SINGLES:
        return SYMBOL, at + 1
    return OTHER, run_end(text, at, lambda c: c not in ENDS_OTHER)


def tokenise(text):
    """(tokens, None), or (tokens before it, place of the string without end)."""
    tokens, at, place = [], 0, 0
    while at < len(text):
        kind, end = token_at(text, at)
        if end is None:
            return tokens, place
        stop = place + len(text[at:end].encode())
        tokens.append(Token(kind, text[at:end], place, stop))
        at, place = end, stop
    return tokens, None


def table_of(tokens):
    return [word for token in tokens for word in (token.kind, token.start, token.end)]


# When an outline fits ---------------------------------------------------------------------------------------------

def read_records(words):
    """The statements, or None where the words are not read exactly."""
    statements, at = [], 0
    while at < len(words):
        if at + 4 > len(words):
            return None
        kind, start, end, count = words[at:at + 4]
        at += 4
        if at + 2 * count > len(words):
            return None
        statements.append(Statement(kind, start, end, [tuple(words[at + 2 * i:at + 2 * i + 2]) for i in range(count)]))
        at += 2 * count
    return statements


def in_order(spans, low, high):
    """Start below end, within the bounds, each starting at or after the one before ends."""
    for start, end in spans:
        if not (low <= start < end <= high):
            return False
        low = end
    return True


def inside(token, start, end):
    return start <= token.start and token.end <= end


def solid(token):
    return token.kind not in (WHITESPACE, COMMENT)


def depth_change(token):
    if token.kind == SYMBOL and token.text in ("(", "[", "{"):
        return 1
    if token.kind == SYMBOL and token.text in (")", "]", "}"):
        return -1
    return 0


def balanced(tokens):
    depth = 0
    for token in tokens:
        depth += depth_change(token)
        if depth < 0:
            return False
    return depth == 0


def misfit(words, tokens, length):
    """The first sentence of 01 that does not hold, or None: the outline fits."""
    statements = read_records(words)
    if statements is None:
        return "records are read exactly"
    if any(s.kind not in (0, 1) for s in statements):
        return "kinds are 0 or 1"
    if any(s.kind == 0 and s.parts != [(s.start, s.end)] for s in statements):
        return "a definition has one part, equal to its span"
    if not in_order([(s.start, s.end) for s in statements], 0, length):
        return "statements are in order and within the text"
    if not all(in_order(s.parts, s.start, s.end) for s in statements):
        return "parts are in order and within their statement"
    edges = {token.start for token in tokens} | {length}
    if not all({s.start, s.end}.union(*s.parts) <= edges for s in statements):
        return "every start and end is a token's start or the text's end"
    solids = [token for token in tokens if solid(token)]
    for s in statements:
        own = [token for token in solids if inside(token, s.start, s.end)]
        if not all(any(inside(token, *part) for part in s.parts) for token in own):
            return "a token in a statement lies in a part"
        if not own:
            return "each statement has a token"
    if not all(any(inside(token, s.start, s.end) for s in statements) for token in solids):
        return "outside statements stand only white space and comments"
    if not all(balanced(run_of(tokens, part)) for s in statements for part in s.parts):
        return "in each part the depth never falls below 0 and ends at 0"
    return None


def run_of(tokens, part):
    return [token for token in tokens if inside(token, *part)]


# Layout -----------------------------------------------------------------------------------------------------------

def trimmed(run):
    first, last = 0, len(run)
    while first < last and run[first].kind == WHITESPACE:
        first += 1
    while first < last and run[last - 1].kind == WHITESPACE:
        last -= 1
    return run[first:last]


def shown(token):
    return " " if token.kind == WHITESPACE else token.text


def flat(run):
    return "".join(shown(token) for token in trimmed(run))


def closing_token(run, opener):
    """Where the group that opens there is closed."""
    depth = 0
    for at in range(opener, len(run)):
        depth += depth_change(run[at])
        if depth == 0:
            return at
    raise ValueError("the run does not balance")


def cut_after_commas(run):
    pieces, piece, depth = [], [], 0
    for token in run:
        piece.append(token)
        depth += depth_change(token)
        if depth == 0 and token.kind == SYMBOL and token.text == ",":
            pieces.append(piece)
            piece = []
    return pieces + [piece]


def cut_before_and_or(run):
    pieces, piece, depth = [], [], 0
    for token in run:
        if depth == 0 and token.kind == SYMBOL and token.text in ("&&", "||"):
            pieces.append(piece)
            piece = []
        piece.append(token)
        depth += depth_change(token)
    return pieces + [piece]


def items(run):
    for pieces in (cut_after_commas(run), cut_before_and_or(run)):
        found = [trimmed(piece) for piece in pieces if flat(piece) != ""]
        if len(found) > 1:
            return found
    return [trimmed(run)]


def cut_white(text, left=True, right=True):
    first, last = 0, len(text)
    while left and first < last and text[first] in WHITE:
        first += 1
    while right and first < last and text[last - 1] in WHITE:
        last -= 1
    return text[first:last]


def lay_out(run, depth, width, indent):
    margin = indent * depth
    if margin + len(flat(run)) <= width:
        return flat(run)
    output, at = "", 0
    while at < len(run):
        if depth_change(run[at]) == 1:
            end = closing_token(run, at)
            output += lay_out_group(run, at, end, output, depth, width, indent)
            at = end + 1
        else:
            output += shown(run[at])
            at += 1
    return cut_white(output)


def lay_out_group(run, at, end, output, depth, width, indent):
    inner, group, after = run[at + 1:end], flat(run[at:end + 1]), flat(run[end + 1:])
    line = len(output) - (output.rfind("\n") + 1)
    margin = 0 if "\n" in output else indent * depth
    if flat(inner) == "" or line + margin + len(group) + len(after) <= width:
        return group
    lines = [" " * (indent * (depth + 1)) + lay_out(item, depth + 1, width, indent) for item in items(inner)]
    return run[at].text + "\n" + "\n".join(lines) + "\n" + " " * (indent * depth) + run[end].text


def lay_out_statement(statement, tokens, width, indent):
    layouts = [lay_out(run_of(tokens, part), 0, width, indent) for part in statement.parts]
    return "\n".join(layout for layout in layouts if layout != "")


def lay_out_text(statements, tokens, width, indent):
    """Comments outside statements and the statements, in their order, with what stands between them."""
    pieces = [(s.start, lay_out_statement(s, tokens, width, indent), "\n\n") for s in statements]
    for token in tokens:
        if token.kind == COMMENT and not any(inside(token, s.start, s.end) for s in statements):
            pieces.append((token.start, cut_white(token.text, left=False), "\n"))
    pieces.sort()
    output = "".join(text + gap for _, text, gap in pieces)
    return output[:len(output) - len(pieces[-1][2])]


# The numbers answered ---------------------------------------------------------------------------------------------

def comment_inside(statements, tokens):
    for token in tokens:
        if token.kind == COMMENT and any(inside(token, s.start, s.end) for s in statements):
            return token.start
    return None


def too_deep(tokens):
    """The first opener that reaches a depth above 64. Every part ends at 0, so the text is counted through."""
    depth = 0
    for token in tokens:
        depth += depth_change(token)
        if depth > DEEPEST:
            return token.start
    return None


def nothing_to_lay_out(statements, tokens):
    return not statements and not any(token.kind == COMMENT for token in tokens)


def read_tokens(source, table_room):
    """(refusal or 1 or 13 with its value, tokens): what the full call, tokenising and testing have in common."""
    if len(source) > LIMIT:
        return (11, 0), []
    mark, _ = split_mark(source)
    text, bad = decode(source, len(mark))
    if bad is not None:
        return (12, bad), []
    tokens, unended = tokenise(text)
    if unended is not None:
        return (1, unended), []
    if 3 * len(tokens) > table_room:
        return (13, len(tokens)), []
    return None, tokens


def tokenising(source, table_room):
    refusal, tokens = read_tokens(source, table_room)
    if refusal:
        return refusal + ([],)
    return 0, len(tokens), table_of(tokens)


def testing(source, outline, table_room):
    refusal, tokens = read_tokens(source, table_room)
    if refusal:
        return refusal + ([],)
    fault = misfit(outline, tokens, len(split_mark(source)[1]))
    return 0 if fault is None else 4, 0, table_of(tokens)


def number_and_place(outline, tokens, length):
    """4, 2, 3, 5, else 0."""
    if misfit(outline, tokens, length) is not None:
        return 4, 0
    statements = read_records(outline)
    comment = comment_inside(statements, tokens)
    if comment is not None:
        return 2, comment
    if nothing_to_lay_out(statements, tokens):
        return 3, 0
    opener = too_deep(tokens)
    if opener is not None:
        return 5, opener
    return 0, 0


def answer(width, indent, source, outline, table_room, output_room):
    refusal, tokens = read_tokens(source, table_room)
    if refusal and refusal[0] != 1:
        return Answer(refusal[0], refusal[1], b"", [])
    mark, text = split_mark(source)
    number, place = refusal or number_and_place(outline, tokens, len(text))
    output = source
    if number == 0:
        output = mark + lay_out_text(read_records(outline), tokens, width, indent).encode()
    if len(output) > output_room:
        return Answer(15, len(output), b"", table_of(tokens))
    return Answer(number, place, output, table_of(tokens))


# The token reader -------------------------------------------------------------------------------------------------

class Reader:
    """Each reading is ("token", kind, start, end), ("ended",), (1, place), or the refusal (11 or 12, place)."""

    def __init__(self, source):
        self.tokens, self.last = [], ("ended",)
        if len(source) > LIMIT:
            self.last = (11, 0)
            return
        text, bad = decode(source, len(split_mark(source)[0]))
        if bad is not None:
            self.last = (12, bad)
            return
        self.tokens, unended = tokenise(text)
        if unended is not None:
            self.last = (1, unended)

    def reading(self):
        if self.tokens:
            token = self.tokens.pop(0)
            return "token", token.kind, token.start, token.end
        return self.last
