#!/usr/bin/env python3
"""Holds `dnp decode` against tshark, over fragments that are made from the definitions of the standard in crates/dnp_standard/specs.

    tests/decode/corpus.py [--keep FILE]

Each case is a fragment in a datagram of a capture: each function; each group and variation with each qualifier of headers, with objects
of the size that is defined, in a response, and without objects in a READ; each other octet as a qualifier; and for each function
whether objects follow its headers. A header 1.2 follows, so that
both have to find where the objects end. What is compared of each: the function, the groups and variations of the headers in order,
the indexes before objects, and whether something is wrong. Where both differ, a line of DIFFERENCES has to say why.
It prints a line 'ok' or 'FAILED' for each kind of cases, and what it differs in. --keep leaves the capture in a file.
"""
import argparse
import json
import os
import random
import re
import struct
import subprocess
import sys
import tempfile
from collections import namedtuple
from pathlib import Path

TOP = Path(__file__).resolve().parents[2]
sys.path[:0] = [str(TOP / "tests"), str(TOP / "tests/hostile")]
import wire  # noqa: E402
from scale import DNP  # noqa: E402

SPECS = TOP / "crates/dnp_standard/specs"
WIDTHS = {"Zero": 0, "One": 1, "Two": 2, "Four": 4}
BITS = {"Bit": 1, "BitPair": 2}
# what is read after the objects of a case, and what tells that it was
MARKER, TOLD = bytes.fromhex("01 02 00 07 07 81"), (1, 2)
Case = namedtuple("Case", "kind name fragment")
Object = namedtuple("Object", "group variation size")
Qualifier = namedtuple("Qualifier", "octet form width index size")

Difference = namedtuple("Difference", "kind name refused why")
# where both differ: by the kind and the name of the cases; what `dnp decode` refuses there, if anything; and why `dnp decode` is right
DIFFERENCES = [
    Difference("functions", r"3[4-9]|[4-9]\d|1[01]\d|12[0-8]|13[2-9]|1[4-9]\d|2\d\d", "FunctionUnknown",
               "the standard has no such function; tshark shows the octet without a name"),
    Difference("reads|responses", r"\S+ 0[345]", None, "addresses have a first and a last one, as indexes; tshark reads one"),
    Difference("responses", r"\S+ [456]B", None, "the size before an object is its size; tshark reads by it objects of some groups alone, and "
               "looks into these, which are random here"),
    Difference("reads", r"\d+\.0 [123].", None, "each index stands in the header; tshark reads one of objects that it has no size of"),
    Difference("reads", r"60\.\d [123].", None, "likewise"),
    Difference("reads|responses", r"11[01]\.\d+ ..", None, "tshark shows the variation, which is the size, beside the object and not in its number"),
    Difference("reads", r"120\.[34] ..", None, "objects of authentication stand in a request of any function; tshark skips none"),
    Difference("responses", r"2\.3 17|2\.3 28", "CommonTime", "a relative time needs a common time before it; the profile asks for one"),
    Difference("responses", r"60\.\d ..", None, "class objects have no octets; tshark says that they have no place in a response, where dnp reads them"),
    Difference("responses", r"(4\.3|31\.[1-6]|33\.[1-4]|50\.[24]|51\.2|52\.1|81\.1|86\.2|10[12]\.\d|11[23]\.\d+|120\.[34]|12[12]\.\d) ..", None,
               "tshark doesn't know the size of these objects"),
    Difference("responses", r"43\.[13] ..", None, "a status and a value of 32 bits have 5 octets, and with a time 11; tshark takes fewer"),
    Difference("qualifiers", r"..", "QualifierUnknown", "the standard has no such qualifier; tshark reads each half of the octet by itself"),
    Difference("carried", r"(1[1-9]|2[0-489]|3\d|131) .*", None, "the headers follow the function; tshark reads none of these functions' headers, or only class objects"),
]


def read(name):
    return (SPECS / name).read_text()


FUNCTIONS = {int(octet): name for name, octet in re.findall(r"^octet_of function\.(\w+) = (\d+)$", read("Functions.antt"), re.M)}
NAMES = {FUNCTION: said for FUNCTION, said in re.findall(r'^name_of function\.(\w+) = codes "(\w+)"$', read("Functions.antt"), re.M)}
CARRIED = dict(re.findall(r"^carried_of function\.(\w+) = carried\.(\w+)$", read("Functions.antt"), re.M))
OBJECTS = [Object(int(group), int(variation), size.strip("()")) for group, variation, size in
           re.findall(r"object (\d+) (\d+) kind\.\w+ (\([^)]*\)|\w+)", read("Objects.antt").split("objects =")[1].split("[]")[0])]
OBJECTS += [Object(group, size, f"Octets {size}") for group in range(110, 114) for size in (1, 2, 7, 100)]
QUALIFIERS = [Qualifier(int(octet, 16), form, WIDTHS[width], WIDTHS[index], WIDTHS[size]) for octet, form, width, index, size in
              re.findall(r"qualifier (0x\w\w) (\w+) (\w+) (\w+) (\w+)", read("Qualifiers.antt").split("qualifiers =")[1])]


def header(thing, qualifier, first, count):
    """The octets of a header of so many objects."""
    numbers = {"All": [], "Span": [first, first + count - 1], "Count": [count]}[qualifier.form]
    return bytes([thing.group, thing.variation, qualifier.octet]) + b"".join(n.to_bytes(qualifier.width, "little") for n in numbers)


def objects(r, thing, qualifier, count):
    """The octets of so many objects, or none where they have no size there."""
    if qualifier.form == "All":
        return b""
    if qualifier.size:
        return b"".join((5).to_bytes(qualifier.size, "little") + r.randbytes(5) for _ in range(count))
    if thing.size in BITS:
        return None if qualifier.index else bytes((count * BITS[thing.size] + 7) // 8)
    if thing.size == "Varying":
        return None
    size = int(thing.size.split()[1])
    return b"".join(((7 + k) * (qualifier.index > 0)).to_bytes(qualifier.index, "little") + r.randbytes(size) for k in range(count))


def cases(r):
    """All cases."""
    for octet in range(256):
        answers = octet >= 128
        yield Case("functions", f"{octet}", bytes([0xC0, octet]) + bytes(2) * answers)
    for thing in OBJECTS:
        for qualifier in QUALIFIERS:
            name = f"{thing.group}.{thing.variation} {qualifier.octet:02X}"
            count = 1 if thing.size == "Octets 100" else r.choice((1, 2, 3))
            body = objects(r, thing, qualifier, count)
            if body is not None:
                yield Case("responses", name, b"\xC0\x81\0\0" + header(thing, qualifier, 3, count) + body + MARKER)
            if thing.group != 120:
                body = b"".join((7 + k).to_bytes(qualifier.index, "little") for k in range(count if qualifier.index else 0))
            if body is not None and not qualifier.size:
                yield Case("reads", name, b"\xC0\x01" + header(thing, qualifier, 3, count) + body + b"\x3C\x02\x06")
    known = {qualifier.octet for qualifier in QUALIFIERS}
    for octet in sorted(set(range(256)) - known):
        yield Case("qualifiers", f"{octet:02X}", b"\xC0\x81\0\0" + bytes([30, 2, octet, 1, 1, 1, 1, 1, 1, 1, 1, 1, 1, 1, 1, 1]))
    for octet, function in FUNCTIONS.items():
        for thing in (Object(1, 2, "Octets 1"), Object(20, 1, "Octets 5"), Object(30, 5, "Octets 5"), Object(50, 2, "Octets 10")):
            qualifier = QUALIFIERS[0] if thing.group != 50 else [q for q in QUALIFIERS if q.octet == 7][0]
            carried = CARRIED[function]
            body = objects(r, thing, qualifier, 1) if carried == "Objects" or carried == "Times" and thing.group == 50 else b""
            name = f"{octet} {thing.group}.{thing.variation}"
            yield Case("carried", name, bytes([0xC0, octet]) + bytes(2) * (octet >= 128) + header(thing, qualifier, 3, 1) + body)


def capture(all_cases):
    """A capture with a datagram for each case."""
    octets = struct.pack("<IHHiIII", 0xA1B2C3D4, 2, 4, 0, 0, 65535, 101)
    for case in all_cases:
        answers = case.fragment[1] >= 128
        frame = b"".join(wire.frames(0x44 if answers else 0xC4, 1 if answers else 10, 10 if answers else 1, case.fragment))
        datagram = struct.pack(">HHHH", 20000, 20001, 8 + len(frame), 0) + frame
        packet = struct.pack(">BBHHHBBH", 0x45, 0, 20 + len(datagram), 0, 0x4000, 64, 17, 0) + bytes([10, 0, 0, 1, 10, 0, 0, 2]) + datagram
        octets += struct.pack("<IIII", 0, 0, len(packet), len(packet)) + packet
    return octets


Told = namedtuple("Told", "function headers indexes wrong")


def by_dnp(file):
    """What `dnp decode` tells of each packet."""
    ran = subprocess.run([DNP, "decode", "--pcap", file, "--json"], stdin=subprocess.DEVNULL, stdout=subprocess.PIPE, encoding="utf-8")
    octet_of = {NAMES[function]: octet for octet, function in FUNCTIONS.items()}
    told = {}
    indexed = False
    for line in ran.stdout.splitlines():
        it = json.loads(line)
        now = told.setdefault(it["at"], Told([], [], [], []))
        if it["layer"] in ("request", "response"):
            now.function.append(octet_of[it["function"]])
        if it["layer"] == "header":
            now.headers.append((it["group"], it["variation"]))
            indexed = it["range"] == "indexed"
        if indexed and "index" in it:
            now.indexes.append(it["index"])
        if "refused" in it:
            now.wrong.append(it["refused"])
    return told


def by_tshark(file):
    """What tshark tells of each packet."""
    fields = ["frame.number", "dnp3.al.func", "dnp3.al.obj", "dnp3.al.index", "_ws.malformed"]
    words = [word for field in fields for word in ("-e", field)]
    ran = subprocess.run(["tshark", "-n", "-r", file, "-d", "udp.port==20000,dnp3", "-T", "fields", *words, "-E", "aggregator= "],
                         stdin=subprocess.DEVNULL, stdout=subprocess.PIPE, stderr=subprocess.DEVNULL, encoding="utf-8", check=True)
    told = {}
    for line in ran.stdout.splitlines():
        number, function, headers, indexes, wrong = line.split("\t")
        objects_told = [int(it, 0) for it in headers.split()]
        told[int(number)] = Told([int(it, 0) for it in function.split()], [(it >> 8, it & 255) for it in objects_told],
                                 [int(it, 0) for it in indexes.split()], [wrong] * bool(wrong))
    return told


def differs(kind, ours, theirs):
    """In what both differ, or nothing. (A function without headers is malformed for tshark, or it isn't.)"""
    if kind == "functions":
        return None if ours.function == theirs.function and not ours.wrong else "function"
    if ours.function != theirs.function:
        return "function"
    if kind in ("reads", "responses") and (ours.wrong or len(ours.headers) != 2):
        return "not read"
    if bool(ours.wrong) != bool(theirs.wrong):
        return "wrong"
    if ours.headers != theirs.headers:
        return "headers"
    if ours.indexes != theirs.indexes:
        return "indexes"
    return None


def known_place(case, told):
    """Which of DIFFERENCES tells of this case, if what `dnp decode` tells is what it says: a refusal, or all headers and nothing else."""
    for place, (kind, name, refused, _) in enumerate(DIFFERENCES):
        if re.fullmatch(kind, case.kind) and re.fullmatch(name, case.name):
            wanted = [refused] if refused else []
            whole = case.kind not in ("reads", "responses") or refused or len(told.headers) == 2
            return place if told.wrong == wanted and whole else None
    return None


def main():
    parser = argparse.ArgumentParser()
    parser.add_argument("--keep")
    parser.add_argument("--all", action="store_true", help="print each case that differs")
    words = parser.parse_args()
    all_cases = list(cases(random.Random(1)))
    with tempfile.TemporaryDirectory() as room:
        file = words.keep or os.path.join(room, "corpus.pcap")
        Path(file).write_bytes(capture(all_cases))
        ours, theirs = by_dnp(file), by_tshark(file)
    used, failed, counts = set(), {}, {}
    for number, case in enumerate(all_cases, 1):
        counts[case.kind] = counts.get(case.kind, 0) + 1
        one, two = ours.get(number, Told([], [], [], [])), theirs[number]
        what = differs(case.kind, one, two)
        if what is None:
            continue
        place = known_place(case, one)
        if place is None:
            failed.setdefault(case.kind, []).append(f"{case.name}: {what}: {case.fragment.hex(' ')}\n     dnp {one}\n  tshark {two}")
        else:
            used.add(place)
    for kind, count in counts.items():
        wrong = failed.get(kind, [])
        for text in wrong if words.all else wrong[:20]:
            print(f"     {text}")
        print(f"{'FAILED' if wrong else 'ok'} decode-as-tshark-{kind} ({count} cases, {len(wrong)} differ otherwise than told)")
    unused = [DIFFERENCES[place].name for place in range(len(DIFFERENCES)) if place not in used]
    print(f"{'FAILED' if unused else 'ok'} decode-each-difference-is-there {unused or ''}")
    return 1 if failed or unused else 0


if __name__ == "__main__":
    sys.exit(main())
