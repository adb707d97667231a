"""The Rust, cut, built and asked.

What belongs to its parser is cut out by whole items and replaced by `rust/parser.rs`; its two constants are replaced by
`rust/settings.rs`. Nothing else of it is touched.
"""
import os
import re
import struct
import subprocess
import sys
import tempfile

HERE = os.path.dirname(os.path.abspath(__file__))
TOP = os.path.dirname(HERE)
BUILT = os.path.join(TOP, "target", "oracle")
HOST = os.path.join(BUILT, "host")

TOKENS, LAYOUT, CALL = 0, 1, 2
ANSWERED, UNTERMINATED, PANICKED, NO_RECORDS, NO_TEXT = range(5)

PARSER = [
    "use pest::Parser", "mod generated", "use generated::Rule", "type Pair<", "type Pairs<", "fn parse(",
    "fn parse_document(", "fn definition_item(", "fn policy_item(", "fn span_of(",
]
CONSTANTS = ["const LINE_WIDTH:", "const INDENT:"]


def items(text):
    """The top-level items of formatted Rust, each with its comments and attributes; joined they are the text again."""
    found, current, open_item = [], [], False
    for line in text.splitlines(keepends=True):
        current.append(line)
        if open_item:
            ended = line.startswith("}")
        elif line.strip() == "" or line.startswith(("//", "#[")):
            ended = line.startswith("//!") or (line.strip() == "" and len(current) == 1)
        else:
            open_item = True
            ended = line.rstrip().endswith((";", "}"))
        if ended:
            found.append("".join(current))
            current, open_item = [], False
    if current:
        found.append("".join(current))
    return found


def heading(item):
    """The line that says what an item is."""
    for line in item.splitlines():
        if line.strip() and not line.startswith(("//", "#[")):
            return re.sub(r"^pub(\([a-z]+\))? ", "", line).strip()
    return ""


def cut(text, names):
    """The text without the items of those names, and the lines that name what was cut. Each name must be there once."""
    kept, gone = [], []
    for item in items(text):
        if any(heading(item).startswith(name) for name in names):
            gone.append(heading(item))
        else:
            kept.append(item)
    if len(gone) != len(names):
        raise SystemExit(f"oracle: the Rust has changed: of {names} there were cut {gone}")
    return "".join(kept), gone


def folder_of(argument=None):
    return os.path.abspath(argument or os.environ.get("ORACLE_RUST") or os.path.join(TOP, "..", "shared", "docs", "src"))


def compile_crate(work, name, text, form, over):
    path = os.path.join(work, name + ".rs")
    with open(path, "w", encoding="utf-8") as file:
        file.write(text)
    command = ["rustc", "-O", "--edition", "2021", "-A", "dead_code", "--crate-name", name, "--crate-type", form]
    for crate in over:
        command += ["--extern", f"{crate}={os.path.join(work, 'lib' + crate + '.rlib')}"]
    subprocess.run(command + ["-L", work, "--out-dir", work, path], check=True)


def read(*path):
    with open(os.path.join(*path), encoding="utf-8") as file:
        return file.read()


def build(folder=None, say=lambda line: None):
    """The program that asks the Rust, or None where the Rust or rustc is not there (said on stderr)."""
    folder = folder_of(folder)
    syntax, formatter = (os.path.join(folder, "dogwood-" + name, "src", "lib.rs") for name in ("syntax", "formatter"))
    if not (os.path.isfile(syntax) and os.path.isfile(formatter)):
        print(f"oracle: no Rust in {folder}: not compared", file=sys.stderr)
        return None
    try:
        subprocess.run(["rustc", "--version"], check=True, stdout=subprocess.DEVNULL)
    except (OSError, subprocess.CalledProcessError):
        print("oracle: no rustc: not compared", file=sys.stderr)
        return None
    os.makedirs(BUILT, exist_ok=True)
    # built aside and then moved, so that two comparisons may run at the same time
    with tempfile.TemporaryDirectory(dir=BUILT) as work:
        build_in(work, syntax, formatter, say)
        os.replace(os.path.join(work, "host"), HOST)
    return HOST


def build_in(work, syntax, formatter, say):
    built = []
    for path, name, names, ours in (
        (syntax, "dogwood_syntax", PARSER, "parser.rs"), (formatter, "dogwood_formatter", CONSTANTS, "settings.rs"),
    ):
        text, gone = cut(read(path), names)
        for line in gone:
            say(f"cut from {name}: {line}")
        say(f"put into {name}: {ours}")
        compile_crate(work, name, text + read(HERE, "rust", ours), "rlib", built)
        built.append(name)
    compile_crate(work, "host", read(HERE, "rust", "host.rs"), "bin", built)


def question(what, source, outline=(), width=80, indent=2):
    head = struct.pack("<5I", what, len(source), len(outline), width, indent)
    return head + source + struct.pack(f"<{len(outline)}I", *outline)


def ask(host, questions):
    """The answers (how, bytes) to questions made by `question`."""
    with tempfile.TemporaryDirectory() as work:
        asked, told = os.path.join(work, "questions"), os.path.join(work, "answers")
        with open(asked, "wb") as file:
            file.writelines(questions)
        subprocess.run([host, asked, told], check=True)
        with open(told, "rb") as file:
            data = file.read()
    answers, at = [], 0
    while at < len(data):
        how, length = struct.unpack_from("<2I", data, at)
        answers.append((how, data[at + 8:at + 8 + length]))
        at += 8 + length
    assert len(answers) == len(questions)
    return answers


def words_of(data):
    return list(struct.unpack(f"<{len(data) // 4}I", data))
