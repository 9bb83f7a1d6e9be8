#!/usr/bin/env python3
"""Looks where the texts stand that the program says to people, by the sources alone: 'ok NAME' or 'FAILED NAME: WHY'.

A text is a string with a word in a call that writes (`write!`, `write_str`, `eprintln!` and the like), one of `#[error(..)]`, and any
string of three words and more, except those of help. The texts of a crate stand in one file of it, and each part of them, between two values, stands in a
text of the tests in tests/crates too, which print it: `dnp_log_tests`, and `dnp_station_tests` for scripts and systems. So nothing is said that no test compares.
"""
import functools
import re
import sys
import time
from pathlib import Path

TOP = Path(__file__).resolve().parents[2]
CRATES = TOP / "crates"
# Where each text is printed and compared, below tests/crates.
TESTS = ("dnp_log_tests/src/**/*.rt.txt", "dnp_station_tests/src/daemons/said.rt.txt")
# Crates that are no part of the program.
APART = {"dnp_example"}
# Crates without a file of lines of their own, and why.
NONE = {"dnp": "its lines are those of dnp_lines", "dnp_inputs": "likewise"}
# Files, or folders, whose texts are what the program was asked for, and no lines.
DATA = {
    "dnp/src/check/": "a system as a table, as CSV and as JSON",
    "dnp_captures/src/beyond.rt": "decoded octets",
    "dnp_captures/src/printing.rt": "decoded octets",
    "dnp_captures/src/standard.rt": "decoded octets",
    "dnp_decode/src/json.rt": "decoded octets",
    "dnp_decode/src/shown.rt": "decoded octets",
    "dnp_inputs/src/named.rt": "rows of a store, with names",
    "dnp_objects/src/words.rt": "rows and commands, as their contract has them",
    "dnp_poll/src/shown_json.rt": "rows that were asked for, as JSON",
    "dnp_poll/src/shown_table.rt": "rows that were asked for, as a table",
    "dnp_poll/src/shown_text.rt": "rows that were asked for",
    "dnp_rows/src/command.rt": "rows of a store",
    "dnp_simulation/src/disk.rt": "what a simulated disk answers",
    "dnp_simulation/src/killing.rt": "a trace",
    "dnp_simulation/src/picture.rt": "a picture",
    "dnp_standard/src/groups.rt": "the standard's names",
    "dnp_standard/src/kind.rt": "the standard's names",
    "dnp_trace/src/chart.rt": "a chart",
    "dnp_trace/src/phrase.rt": "a trace",
    "dnp_trace/src/svg.rt": "a chart",
}
# Files, or folders, in which a string of three words is no text, unless it is written there.
WORDS = {
    "dnp/src/tips.rt": "what clap says, and is looked for",
    "dnp_store/src/": "SQL",
    "dnp_files/src/files.rt": "the name of a store",
}
# Strings and characters, and comments, in which quotes mean nothing.
TOKEN = re.compile(r'//[^\n]*|"(?:[^"\\]|\\.)*"|' + r"'(?:[^'\\\n]|\\(?:u\{[0-9A-Fa-f]+\}|x..|.))'", re.S)
CALL = re.compile(r"\b(?:e?print(?:ln)?|write(?:ln)?)!\s*\(|\bwrite_str\s*\(|#\[error\s*\(")
VALUE = re.compile(r"\{[^{}]*\}")
WORD = re.compile(r"[A-Za-z]{2,}")
# What a backslash makes of the character behind it, and of blanks behind a line's end nothing.
ESCAPE = re.compile(r"\\(\n\s*|.)", re.S)
# A part of a text that is shorter says nothing.
LEAST = 4


@functools.cache
def strings_of(source):
    """Each string of a source with its place, and the source with blanks in place of strings, characters and comments."""
    found, rest, end = [], [], 0
    for token in TOKEN.finditer(source):
        text = token[0]
        if text.startswith('"'):
            found.append((token.start(), text[1:-1]))
        rest += [source[end:token.start()], " " * len(text)]
        end = token.end()
    return found, "".join([*rest, source[end:]])


def without_blanks(text):
    return re.sub(r"\s+", "", text)


@functools.cache
def help_texts():
    """The help of all commands, without its blanks: it is wrapped otherwise than the strings of its options."""
    return without_blanks("".join(path.read_text(encoding="utf-8") for path in sorted((CRATES / "dnp/help").iterdir())))


def is_help(path, text):
    return path.startswith("dnp/src/") and without_blanks(ESCAPE.sub(lambda it: "" if it[1] in "nt" else it[1].strip(), text)) in help_texts()


def written(rest):
    """The places at which calls that write begin and end."""
    for call in CALL.finditer(rest):
        end, depth = call.end(), 1
        while depth and end < len(rest):
            depth += {"(": 1, ")": -1}.get(rest[end], 0)
            end += 1
        yield call.start(), end


def listed(path, table):
    """The entry of a table that a file falls under, or None."""
    return next((entry for entry in table if path == entry or entry.endswith("/") and path.startswith(entry)), None)


@functools.cache
def texts_of(path, source):
    """The texts of a file."""
    strings, rest = strings_of(source)
    if not strings:
        return []
    calls = list(written(rest))
    count = lambda text: len(WORD.findall(VALUE.sub(" ", text)))
    is_sentence = lambda text: " " in text and count(text) >= 3 and not listed(path, WORDS) and not is_help(path, text)
    return [text for at, text in strings if is_sentence(text) or count(text) and any(a < at < b for a, b in calls)]


@functools.cache
def told():
    """The strings of the tests that print texts."""
    paths = sorted(path for pattern in TESTS for path in (TOP / "tests/crates").glob(pattern))
    return "\n".join(text for path in paths for _, text in strings_of(path.read_text(encoding="utf-8"))[0])


def faults(sources):
    """What is wrong with these sources, by the name of the case: a list of reasons, empty where nothing is."""
    wrong, used, files = {"every-exception-is-one": []}, set(), {}
    for path, source in sources.items():
        crate = path.split("/")[0]
        if crate in APART or not (texts := texts_of(path, source)):
            continue
        if data := listed(path, DATA):
            used.add(data)
            continue
        files.setdefault(crate, {})[path] = texts
    for crate, found in sorted(files.items()):
        most = 0 if crate in NONE else 1
        one = wrong[f"{crate}-has-one-file-of-lines"] = []
        if len(found) > most:
            one += [f"{path} says \"{texts[0]}\"" for path, texts in sorted(found.items())]
        printed = wrong[f"{crate}-prints-each-line-once-in-a-test"] = []
        for path in found:
            parts = {part for _, text in strings_of(sources[path])[0] for part in VALUE.split(text) if len(part) >= LEAST}
            printed += [f"no test has \"{part}\" of {path}" for part in sorted(parts) if part not in told()]
    long = [path for path, source in sources.items() if any(" " in text and len(WORD.findall(text)) >= 3 for _, text in strings_of(source)[0])]
    used |= {listed(path, WORDS) for path in long}
    wrong["every-exception-is-one"] += [f"{entry} ({why}) has no texts" for entry, why in {**DATA, **WORDS}.items() if entry not in used]
    return wrong


def planted(sources):
    """Sources with a fault each, and the case that has to see it."""
    lines, other, data = "dnp_tcp/src/lines.rt", "dnp_tcp/src/door.rt", "dnp_rows/src/command.rt"
    put = lambda path, more: {**sources, path: sources[path] + more}
    yield "a-text-in-a-second-file", "dnp_tcp-has-one-file-of-lines", put(other, 'fn f() { write!(f, "listening") }')
    yield "a-sentence-in-a-second-file", "dnp_tcp-has-one-file-of-lines", put(other, 'const A: &str = "nothing is heard {of}";')
    yield "a-text-of-an-error", "dnp_tcp-has-one-file-of-lines", put(other, '#[error("connected")]')
    yield "a-line-of-the-program-itself", "dnp-has-one-file-of-lines", put("dnp/src/main.rt", 'fn f() { eprintln!(rt; "connected") }')
    yield "a-text-that-no-test-prints", "dnp_tcp-prints-each-line-once-in-a-test", put(lines, 'fn f() { write!(f, "at {} nobody says so", a) }')
    yield "an-exception-that-is-none", "every-exception-is-one", {path: it for path, it in sources.items() if path != data}


def main():
    began = time.process_time()
    sources = {str(path.relative_to(CRATES)): path.read_text(encoding="utf-8") for path in sorted(CRATES.glob("*/src/**/*.rt"))}
    wrong = faults(sources)
    for name, reasons in sorted(wrong.items()):
        print(f"FAILED {name}: {'; '.join(reasons)}" if reasons else f"ok {name}")
    for name, case, changed in planted(sources):
        unseen = not set(faults(changed).get(case, [])) - set(wrong.get(case, []))
        print(f"FAILED sees-{name}: {case} passes" if unseen else f"ok sees-{name}")
    if "--times" in sys.argv:
        print(f"{time.process_time() - began:.2f} s of the processor", file=sys.stderr)


if __name__ == "__main__":
    main()
