"""What the small program must write for the examples: the Rust and the second reading decide, as for every recorded list."""
import glob
import os
import struct
import sys

import generate
import programs
import reading
import rust

MOST_SOURCE, MOST_OUTLINE = 4096, 16_384
TABLE_ROOM, OUTPUT_ROOM = 3 * 4096, 65_536


def read(path):
    with open(path, "rb") as file:
        return file.read()


def pair(name):
    source, outline = read(name + ".dw"), read(name + ".outline")
    if len(source) > MOST_SOURCE or len(outline) > MOST_OUTLINE or len(outline) % 4:
        raise SystemExit(f"oracle: {name}: the small program does not read these")
    return source, list(struct.unpack(f"<{len(outline) // 4}I", outline))


def record(folder):
    """Writes NAME.answer beside each NAME.dw and NAME.outline."""
    host = rust.build()
    if not host:
        print("record: without the Rust nothing is recorded", file=sys.stderr)
        return 1
    names = sorted(path[:-3] for path in glob.glob(os.path.join(folder, "*.dw")))
    pairs = [pair(name) for name in names]
    programs.agreed(host, [generate.Case(source, outline, 80, 2) for source, outline in pairs])
    for name, (source, outline) in zip(names, pairs):
        answer = reading.answer(80, 2, source, outline, TABLE_ROOM, OUTPUT_ROOM)
        with open(name + ".answer", "wb") as file:
            file.write(f"{answer.number} {answer.place}\n".encode() + answer.output)
        print(f"{os.path.basename(name)}: {answer.number} {answer.place}, {len(answer.output)} bytes")
    return 0
