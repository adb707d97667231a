"""The case files that our programs read, and what they must write for each record. All numbers are u32, low byte first.

  tokens    source length, table words; source (of 1048576 bytes and more: all `a`, and not written out)
            -> `number value`, then each word of the table, in one line
  outlines  source length, outline words, table words; source, outline
            -> as tokens
  calls     source length, outline words, table words, output room; source (as of tokens), outline
            -> `number place length`, LF, the whole output, LF, the table's words, LF
  readings  as tokens
            -> each reading and a `;`, in one line: `kind start end`, up to the first that is none of these, and that one twice: `end` or `number place`

Tables are filled with 4294967295 and outputs with 7E before the call, so that what must stay as it was is seen.
"""
import struct
from collections import namedtuple

import reading

EMPTY_WORD = 4294967295
EMPTY_BYTE = b"\x7e"

Record = namedtuple("Record", "asked due what")


def words_after(table, room):
    return table + [EMPTY_WORD] * (room - len(table))


def line(values):
    return " ".join(map(str, values)).encode() + b"\n"


def packed(*numbers):
    return struct.pack(f"<{len(numbers)}I", *numbers)


def tokens(source, room):
    number, value, table = reading.tokenising(source, room)
    return Record(packed(len(source), room) + source, line([number, value] + words_after(table, room)), (source, room))


def shown(got):
    """A reading as a program writes it."""
    words = {"token": got[1:], "ended": ("end",)}.get(got[0], got)
    return " ".join(map(str, words)) + ";"


def readings(source, room):
    reader, got = reading.Reader(source), []
    while not got or got[-1][0] == "token":
        got.append(reader.reading())
    got.append(reader.reading())
    return Record(packed(len(source), room) + source, "".join(map(shown, got)).encode() + b"\n", (source, room))


def longest(size, room):
    """A source of so many `a`, which the case file does not write out: the longest that there may be, or one byte more."""
    number, value, table = reading.tokenising(b"a" * size, room)
    return Record(packed(size, room), line([number, value] + words_after(table, room)), (b"", room))


def outlines(source, outline, room):
    number, value, table = reading.testing(source, outline, room)
    asked = packed(len(source), len(outline), room) + source + packed(*outline)
    return Record(asked, line([number, value] + words_after(table, room)), (source, outline, room))


def calls(source, outline, table_room, output_room):
    answer = reading.answer(80, 2, source, outline, table_room, output_room)
    written = source if len(source) < reading.LIMIT else b""
    asked = packed(len(source), len(outline), table_room, output_room) + written + packed(*outline)
    due = line([answer.number, answer.place, len(answer.output)])
    due += answer.output + EMPTY_BYTE * (output_room - len(answer.output)) + b"\n"
    due += line(words_after(answer.table, table_room))
    return Record(asked, due, (source, outline, table_room, output_room))


HEADS = {
    "tokens": ["source bytes", "table words"], "readings": ["source bytes", "table words"], "outlines": ["source bytes", "outline words", "table words"],
    "calls": ["source bytes", "outline words", "table words", "output bytes"],
}


def largest(name, records):
    """The most that each number at the front of a record comes to: what a program must have room for."""
    heads = [struct.unpack_from(f"<{len(HEADS[name])}I", record.asked) for record in records]
    return ", ".join(f"{max(values)} {what}" for what, values in zip(HEADS[name], zip(*heads)))


def number(name, record):
    """What a record is answered with: the first word, or of readings that of the last."""
    answer = record.due.split(b";")[-2] if name == "readings" else record.due
    return answer.split(maxsplit=1)[0].decode()


def upto_line_end(data, at):
    end = data.find(b"\n", at)
    return len(data) if end < 0 else end + 1


def written_line(data, at, record):
    return upto_line_end(data, at)


def written_call(data, at, record):
    return upto_line_end(data, upto_line_end(data, at) + record.what[3] + 1)


# where a program's answer to a record ends
ENDS = {"tokens": written_line, "readings": written_line, "outlines": written_line, "calls": written_call}


def differences(name, records, data):
    """(record, what was written) wherever that is not what is due."""
    found, at = [], 0
    for record in records:
        end = min(len(data), ENDS[name](data, at, record))
        if data[at:end] != record.due:
            found.append((record, data[at:end]))
        at = end
    if at != len(data):
        found.append((Record(b"", b"", "after the last record"), data[at:]))
    return found
