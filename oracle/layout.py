"""`lay_out` of dogwood_groups beside the Rust's: runs laid out at many widths and indents.

`lay_out` stands in an inner crate and asks what the whole call will have established. So a copy of the crates stands in a temporary
folder, in which one function more hands `lay_out` out under the same terms; the copy is proved, and its archive, which is kept in
target/oracle/layout, is called from here. That the terms are met is seen to here: the tokens are those of the second reading, and
each run balances.
"""
import ctypes
import itertools
import os
import random
import re
import shutil
import subprocess
import tempfile
import time

import generate
import programs
import reading
import rust

CRATE = "dogwood_groups"
ARCHIVE = os.path.join(rust.BUILT, "layout", f"lib{CRATE}.a")
EXPORT = """
ghost use Rattle.dogwood_layout.specs.View.{{Ready}};

#[unsafe(no_mangle)]
pub extern "C" fn dogwood_lay_out(out: &mut [u8], text: &[u8], table: &[u32], width: usize, indent: usize) -> usize
    {requires}
{{
    lay::lay_out(out, dogwood_runs::Run {{ text, table }}, dogwood_layout::Page {{ width, indent }}, 0)
}}
"""
# what every run of up to six tokens is made of
PIECES = ["a", " ", ",", "&&", "(", ")", '"\n"']
MOST_TOKENS = 6
CHUNK = 20_000


def exported(source):
    """What `lay_out` asks, by the type of its run and by its own `requires`, for a page of that width and indent at depth 0."""
    terms = re.search(r"fn lay_out\(.*?\n\s*(requires \{.*?\})\n", source, re.S).group(1)
    terms = terms.replace("run.text.now", "text.now").replace("run.table.now", "table.now").replace("requires { ", "requires { Ready text.now table.now × ")
    return terms.replace("Bounded page depth", "Bounded (record { width = width; indent = indent }) 0")


def build_archive(place):
    """Proves the copy in that folder and keeps its archive."""
    shutil.copytree(os.path.join(rust.TOP, "crates"), os.path.join(place, "crates"), ignore=shutil.ignore_patterns("out"))
    with open(os.path.join(place, "crates.txt"), "w", encoding="utf-8") as file:
        file.write(re.sub(rf"(?m)^{CRATE}:", f"{CRATE} staticlib:", rust.read(rust.TOP, "crates.txt")))
    crate = os.path.join(place, "crates", CRATE)
    lay = rust.read(crate, "src", "lay.rt")
    uses = [line for line in lay.split("\n") if line.startswith("ghost use")]
    with open(os.path.join(crate, "src", "lib.rt"), "a", encoding="utf-8") as file:
        file.write("\n".join(uses) + EXPORT.format(requires=exported(lay)))
    subprocess.run(["rt", "lib"], cwd=crate, check=True, stdout=subprocess.DEVNULL)
    os.makedirs(os.path.dirname(ARCHIVE), exist_ok=True)
    shutil.copy(os.path.join(crate, "out", f"lib{CRATE}.a"), ARCHIVE)


def built():
    """The functions of the copy, or None where there is no compiler for an archive here."""
    if os.uname().machine != "x86_64" or not shutil.which("gcc"):
        print("layout: an archive is called only on x86-64 with gcc: not compared")
        return None
    with tempfile.TemporaryDirectory() as place:
        build_archive(place)
    shared = ARCHIVE[:-1] + "so"
    subprocess.run(["gcc", "-shared", "-o", shared, "-Wl,--whole-archive", ARCHIVE, "-Wl,--no-whole-archive"], check=True)
    call = ctypes.CDLL(shared).dogwood_lay_out
    call.restype = ctypes.c_size_t
    return call


def slice_of(kind, values):
    return (kind * max(1, len(values)))(*values), ctypes.c_size_t(len(values))


def laid_out(call, source, width, indent, room):
    """What `lay_out` answers and leaves in an output of that many bytes, which was filled before."""
    table = reading.table_of(reading.tokenise(source.decode())[0])
    out, size = slice_of(ctypes.c_uint8, b"~" * room)
    length = call(out, size, *slice_of(ctypes.c_uint8, source), *slice_of(ctypes.c_uint32, table), ctypes.c_size_t(width), ctypes.c_size_t(indent))
    return length, bytes(out)[:room]


def small_runs():
    """Every run of up to six of the pieces that balances, at widths at which some of its groups break."""
    for count in range(1, MOST_TOKENS + 1):
        for pieces in itertools.product(PIECES, repeat=count):
            source = "".join(pieces)
            if reading.balanced(reading.tokenise(source)[0]):
                for width, indent in ((3, 1), (6, 2)):
                    yield source.encode(), width, indent


def drawn_runs(count, seed):
    rng, index, found = random.Random(f"layout {seed}"), 0, 0
    while found < count:
        case = generate.deep(seed, index) if index % 60 == 7 else generate.case(seed, index, damage=0)
        source = programs.part_of(rng, case)
        index += 1
        if source is not None:
            found += 1
            yield source, case.width, case.indent


def differences(host, call, runs, rng):
    asked = [rust.question(rust.LAYOUT, source, (), width, indent) for source, width, indent in runs]
    for (source, width, indent), (how, told) in zip(runs, rust.ask(host, asked)):
        room = max(0, len(told) + rng.choice([0, 0, 0, 3, -1, -len(told)]))
        due = len(told), (told + b"~" * room)[:room]
        if how != rust.ANSWERED or laid_out(call, source, width, indent, room) != due:
            yield source, width, indent, room


def compare(count, seed):
    host, call = rust.build(), built()
    if not host or not call:
        return 0
    began, rng, total, found = time.time(), random.Random(f"rooms {seed}"), 0, []
    runs = itertools.chain(small_runs(), drawn_runs(count, seed))
    while chunk := list(itertools.islice(runs, CHUNK)):
        total += len(chunk)
        found += differences(host, call, chunk, rng)
    for run in sorted(found, key=lambda run: len(run[0]))[:10]:
        print(f"DIFFERENCE: {run}")
    print(f"layout: {total} runs ({count} drawn, the others every run of up to {MOST_TOKENS} tokens), {len(found)} differences, {time.time() - began:.0f} s")
    return 1 if found else 0
