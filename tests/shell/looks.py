#!/usr/bin/env python3
"""Holds what `dnp sim` writes to look at against the lines of its trace, or its text: 'ok NAME' or 'FAILED NAME: WHY'.

    looks.py chart NAME FILE.svg TRACE        well-formed, and with the arrows, breaks and words of the trace
    looks.py capture NAME FILE.pcap TRACE     with checksums and sequence numbers as they should be, and the units of the trace
    looks.py decoded NAME DECODED TRACE       what `dnp decode` reads in the capture, unit by unit, as the trace has it
    looks.py report NAME FILE.json TEXT       with the numbers of the text
"""
import json
import struct
import sys
from xml.etree import ElementTree

SVG = "{http://www.w3.org/2000/svg}"


def steps(path):
    """(moment, link, way, what, phrase) of each line of a trace."""
    for line in open(path, encoding="ascii"):
        moment, _, link, way, what, phrase = line.rstrip("\n").split(" ", 5)
        yield int(moment), link, way, what, phrase


def chart(path, trace):
    root = ElementTree.parse(path).getroot()
    assert root.tag == SVG + "svg", root.tag
    told = list(steps(trace))
    count = lambda *words: sum(what in words for _, _, _, what, _ in told)
    tips = sum("marker-end" in it.attrib for it in root.iter(SVG + "line"))
    assert tips == count("arrives", "repeated"), f"{tips} arrows"
    drawn = lambda name: sum(it.attrib.get("class") == name for it in root.iter(SVG + "line"))
    assert drawn("bad") == 3 * count("lost") + 4 * count("damaged"), drawn("bad")
    assert drawn("still") == count("dropped", "stands"), drawn("still")
    assert drawn("again") == count("repeated"), drawn("again")
    # (the whole phrase, where it is shortened, is a title)
    title = lambda it: it.find(SVG + "title")
    said = [it.text if title(it) is None else title(it).text for it in root.iter(SVG + "text") if it.attrib["class"] == "on"]
    assert said == [phrase for _, _, _, what, phrase in told if what == "sent"], said
    ends = [it.text for it in root.iter(SVG + "text") if it.attrib["class"] == "on end"]
    assert ends == [what for _, _, _, what, _ in told if what not in ("sent", "arrives")], ends


def total(octets):
    """The sum that a checksum makes 0xFFFF."""
    words = struct.unpack(f">{(len(octets) + 1) // 2}H", octets + b"\0" * (len(octets) % 2))
    whole = sum(words)
    while whole > 0xFFFF:
        whole = (whole & 0xFFFF) + (whole >> 16)
    return whole


def packets(path):
    octets = open(path, "rb").read()
    assert octets[:24] == struct.pack("<IHHiIII", 0xA1B2C3D4, 2, 4, 0, 0, 65535, 101), octets[:24]
    at = 24
    while at < len(octets):
        seconds, micros, length, whole = struct.unpack("<IIII", octets[at:at + 16])
        assert length == whole and micros < 1000000
        yield seconds * 1000000 + micros, octets[at + 16:at + 16 + length]
        at += 16 + length
    assert at == len(octets)


def capture(path, trace):
    told = [it for it in steps(trace) if it[3] in ("arrives", "repeated")]
    masters = {"above": (1, 9, 49152), "above2": (3, 9, 49152)}
    masters.update({str(number): (2, 10 + number, 49153 + number) for number in range(16)})
    following, begun, came = {}, {}, []
    for micros, packet in packets(path):
        ip, tcp, unit = packet[:20], packet[20:40], packet[40:]
        assert ip[0] == 0x45 and ip[9] == 6 and struct.unpack(">H", ip[2:4])[0] == len(packet) and total(ip) == 0xFFFF, ip
        assert total(ip[12:20] + struct.pack(">HH", 6, len(packet) - 20) + tcp + unit) == 0xFFFF, tcp
        source, dest, sent, acked, offset, bits = struct.unpack(">HHIIBB", tcp[:14])
        from_end, to_end = (ip[12:16], source), (ip[16:20], dest)
        if bits & 2:
            begun.setdefault(frozenset((from_end, to_end)), []).append(bits)
            following[from_end, to_end] = sent + 1
        assert bits & 2 or following[from_end, to_end] == sent, "a sequence number"
        if bits & 16:
            assert acked == following[to_end, from_end], "an acknowledgment"
        if unit:
            assert bits == 0x18 and offset == 0x50
            following[from_end, to_end] = sent + len(unit)
            target, own = struct.unpack("<HH", unit[4:8])
            assert ip[12:16] == bytes((192, 0, 2, own)) and ip[16:20] == bytes((192, 0, 2, target)), "an address"
            way = "down" if dest == 20000 else "up"
            master, outstation, port = (own, target, source) if way == "down" else (target, own, dest)
            link = next(name for name, ends in masters.items() if ends == (master, outstation, port))
            came.append((micros, link, way))
    assert all(it == [2, 18] for it in begun.values()), begun
    assert len(begun) == len({link for _, link, _, _, _ in told}), "conversations"
    assert came == [(moment * 1000, link, way) for moment, link, way, _, _ in told], came


def phrase_of(lines):
    """What a packet says in the words of the trace, by the lines that decode prints of it."""
    frame, *more = lines
    if not more:
        return frame.split(" ")[2]
    flags = more[0].removeprefix("transport ")
    if not flags.startswith("FIR FIN "):
        # (the last one has the fragment's lines as well)
        return f"segment {flags}"
    kind, said = more[1].split(" ", 1)
    if kind == "request":
        said, name = said.rsplit(" ", 1)
    else:
        said, indications = said.split(", iin ")
        # (the names of those that are set stand behind the octets, and the trace has the octets alone)
        indications = indications[:5]
        name = "UNSOLICITED_RESPONSE" if "uns" in said.split(" ") else "RESPONSE"
        said += f" iin {indications}" * (indications != "00 00")
    headers, at = [], 2
    while at < len(more):
        head, has_rows, _ = more[at].partition(": ")
        what, how = head.split(" ", 1)
        first, is_range, last = how.partition("..")
        count = int(last) - int(first) + 1 if is_range else 0 if how == "all" else int(how.removeprefix("x"))
        assert not has_rows or all(it.startswith(head + ": ") for it in more[at:at + count]), more[at:at + count]
        headers.append(head if how == "all" else f"{what} x{count}")
        at += count if has_rows else 1
    return ", ".join([f"{name} {said}", *headers])


def decoded(path, trace):
    said = {}
    for line in open(path, encoding="ascii"):
        number, rest = line.rstrip("\n").split(" ", 1)
        assert "refused" not in rest, line
        said.setdefault(int(number), []).append(rest.strip())
    came = [phrase_of(said[number]) for number in sorted(said)]
    wanted = [phrase for _, _, _, what, phrase in steps(trace) if what in ("arrives", "repeated")]
    assert came == wanted, next((pair for pair in zip(came, wanted) if pair[0] != pair[1]), (len(came), len(wanted)))


def report(path, text):
    found = json.load(open(path, encoding="ascii"))
    lines, outcomes, lists, name = open(text, encoding="ascii").read().split("\n")[:-1], [], {}, None
    number = lambda word: None if word == "-" else int(word)
    for line in lines:
        words = line.split(" ")
        if words[0] in ("round", "control", "control2"):
            outcomes.append({words[0]: words[1], "outcome": words[2], **({"reason": int(words[3])} if words[3:] else {})})
        elif words[0]:
            name, count = words[0], int(words[1])
            lists[name] = count if name in ("lost", "lost2") else []
        elif words[2] in ("binary", "counter", "analog"):
            lists[name].append({"substation": int(words[1]), "kind": words[2], "index": int(words[3]), "value": int(words[4]),
                                "flags": words[5], "time": number(words[6])})
        else:
            names = ["index", "code", "count", "on_ms", "off_ms"] if words[2] == "block" else ["index", "value"]
            lists[name].append({"substation": int(words[1]), "command": words[2], **dict(zip(names, map(int, words[3:]), strict=True))})
    assert list(found) == ["outcomes", *lists], list(found)
    assert found == {"outcomes": outcomes, **lists}, found


def main():
    what, name, path, beside = sys.argv[1:]
    try:
        {"chart": chart, "capture": capture, "decoded": decoded, "report": report}[what](path, beside)
        print(f"ok {what}-of-{name}")
    except Exception as error:
        print(f"FAILED {what}-of-{name}: {type(error).__name__} {str(error)[:300]}")


if __name__ == "__main__":
    main()
