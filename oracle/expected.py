"""What a call must answer: the Rust decides wherever it can be asked, the second reading elsewhere.

Each function gives what is due and the differences between the two, which must be none.
"""
from collections import Counter

import reading
import rust

NO_LIMIT = 10**9


def token_difference(source, how, told, tokenised):
    """Why the Rust's tokens are not those of the reading, or None."""
    number, value, table = tokenised
    if how == rust.NO_TEXT:
        return None if (number, value) == (12, rust.words_of(told)[0]) else f"bad bytes: Rust {rust.words_of(told)}, reading {number} {value}"
    if how == rust.UNTERMINATED:
        return None if (number, value) == (1, rust.words_of(told)[0]) else f"open string: Rust {rust.words_of(told)}, reading {number} {value}"
    if how == rust.ANSWERED:
        return None if number == 0 and table == rust.words_of(told) else f"tokens: Rust {rust.words_of(told)}, reading {number} {value} {table}"
    return f"tokens: Rust panicked, reading {number} {value}"


def full_layout(case):
    """The layout at any depth: the Rust has no answer 5."""
    mark, text = reading.split_mark(case.source)
    tokens, _ = reading.tokenise(text.decode())
    return mark + reading.lay_out_text(reading.read_records(case.outline), tokens, case.width, case.indent).encode()


def call_difference(case, how, told, answer):
    """(what was compared, why the Rust's bytes are not those of the reading or None)."""
    number = answer.number
    if number in (4, 11, 12) or (number == 1 and how == rust.NO_RECORDS):
        return f"{number}: reading alone", None
    due = full_layout(case) if number == 5 else answer.output
    if how == rust.ANSWERED and told == due:
        return f"{number}: bytes", None
    return f"{number}: bytes", f"call: Rust {how} {told!r}, reading {number} {answer.place} {due!r}"


def calls(host, cases):
    """For each case the reading's answer with rooms that are large enough; what was compared; the differences (case, why)."""
    questions = [rust.question(rust.TOKENS, case.source) for case in cases]
    questions += [rust.question(rust.CALL, case.source, case.outline, case.width, case.indent) for case in cases]
    told = rust.ask(host, questions) if host else [None] * len(questions)
    answers, counts, differences = [], Counter(), []
    for case, tokens_told, call_told in zip(cases, told, told[len(cases):]):
        answer = reading.answer(case.width, case.indent, case.source, case.outline, NO_LIMIT, NO_LIMIT)
        answers.append(answer)
        if not host:
            continue
        if len(case.source) <= reading.LIMIT:
            tokenised = (answer.number, answer.place, []) if answer.number in (1, 12) else (0, len(answer.table) // 3, answer.table)
            why = token_difference(case.source, *tokens_told, tokenised)
            if why:
                differences.append((case, why))
        compared, why = call_difference(case, *call_told, answer)
        counts[compared] += 1
        if why:
            differences.append((case, why))
    return answers, counts, differences


def without(case, first, last):
    """The case without the characters from first to last, the outline's places moved along."""
    mark, text = reading.split_mark(case.source)
    characters = text.decode(errors="replace")
    low, high = len(characters[:first].encode()), len(characters[:last].encode())
    places = place_words(case.outline)
    moved = [
        word if index not in places or word <= low else max(low, word - (high - low)) for index, word in enumerate(case.outline)
    ]
    return case._replace(source=mark + (characters[:first] + characters[last:]).encode(), outline=moved)


def place_words(words):
    """Which words of an outline are a start or an end."""
    found, at = set(), 0
    while at + 4 <= len(words):
        after = at + 4 + 2 * words[at + 3]
        found |= {at + 1, at + 2} | set(range(at + 4, min(after, len(words))))
        at = after
    return found


def shorter(case):
    """The case made smaller in each way: characters less, one definition only, no mark, a smaller width or indent."""
    mark, text = reading.split_mark(case.source)
    count = len(text.decode(errors="replace"))
    size = count // 2
    while size > 0:
        for first in range(0, count - size + 1, size):
            yield without(case, first, first + size)
        size //= 2
    whole = [0, 0, len(text), 1, 0, len(text)]
    if mark:
        yield case._replace(source=text)
    if text and case.outline != whole:
        yield case._replace(outline=whole)
    for width, indent in ((case.width // 2, case.indent), (case.width - 1, case.indent), (case.width, case.indent - 1)):
        if 0 <= width and 0 <= indent and (width, indent) != (case.width, case.indent):
            yield case._replace(width=width, indent=indent)


def smallest(case, differing):
    """Shrinks a case as long as some smaller one is still among `differing(cases)`."""
    while True:
        candidates = list(shorter(case))
        found = differing(candidates) if candidates else []
        if not found:
            return case
        case = min(found, key=weight)


def weight(case):
    return len(case.source), len(case.outline), case.width, case.indent
