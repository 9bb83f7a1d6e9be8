"""Hostile texts: lines for `dnp answer`, plans, scripts, captures, networks and the names of their points. What is refused is refused
by a documented text, and where it is known what is wrong, by the right one; what a script prints stays the same with hostile events in between that do nothing."""
import json
import random
import re
import struct
import sys

import wire
from program import CHECK_WORD, DONE, FAULT, REFUSED, TOP, Broken, ran

sys.path.insert(0, str(TOP / "tests/headline"))
import holds
import scripts

OWN, PEER = 10, 1
NAMED = r"a line feed|a carriage return|a tab|a space|'[!-~]'|the octet [\dA-F]{2}"
TEXT = re.compile(rf"dnp: standard input: (?:column \d+: (?:(?:{NAMED}), where (?:a hexadecimal digit|one space or the end) belongs|the line ends, where "
                  r"a hexadecimal digit belongs)|the line has more than 2,000 characters)\n")
FRAMES = "Short", "Start", "HeaderCheck", "Length", "Size", "BlockCheck"
CAPTURE = re.compile(r"refused capture (?:Start|Link)\n")
# a key of a plan, what is put there, and the number of the refusal
WRONG = [("retries", "4", 3), ("retries", "-1", 3), ("confirm_ms", "0", 3), ("select_ms", "3600001", 3), ("response_ms", "1.5", 2),
         ("unsolicited", "1", 2), ("queue", "[1, 1, 1, 1, 1, 1, 1, 1]", 2), ("queue", "[1, 1, 1, 1, 1, 1, 1, 1, 4097]", 3),
         ("queue2", "[1, 1, 1, 1, 1, 1, 1, 1]", 2), ("queue2", "[1, 1, 1, 1, 1, 1, 1, 1, 0]", 3), ("queue2", '"1"', 2),
         ("lanes", "[0, 1, 1, 1, 1, 1, 1, 1, 1]", 3), ("lanes", "{}", 2), ("outputs", "257", 3), ("setpoints", "-1", 3), ("binary", "[4]", 4),
         ("binary", "[256]", 3), ("counter", "[255, 0]", 4), ("binary", '["1"]', 2), ("base", "[0, 0, 0, 0]", 2), ("base", "[0, 0, 0, 0, 65536]", 3),
         ("outputs", "99999999999999999999", 1), ("outputs", "1 1", 1), ("retries", "", 1), ("queue", "[1, 1", 1), ("unsolicited", "maybe", 1)]
# a key of a network, what is put there, and what is said of it
ILL = [("at", '"10.9.9.9"', "at: '10.9.9.9' without a port"), ("at", '"10.9.9.9:0"', "with a port that is no number"), ("at", '"::1:20000"', "more than one colon"),
       ("at", '"[::1:20000"', "a bracket that isn't closed"), ("at", '"[1::2::3]:1"', "no IPv6 address"), ("at", '"10.9.9:1"', "no IPv4 address"),
       ("at", '"a b:1"', "neither an address nor a name"), ("at", "20000", "at: a whole number"), ("at", "[]", "at: a list"), ("at", "{}", "at: a table"),
       ("address", "65520", "address: 65520, where a link address"), ("address", "-1", "address: -1, where a link address"), ("address", "2.5", "isn't whole"),
       ("address", "2", "the station's own address"), ("name", '""', "name: an empty string"), ("name", "true", "name: true or false"), ("at", "", "no TOML"),
       ("at", '"a:1" 1', "no TOML"), ("address", "99999999999999999999", "no TOML"), ("name", '"A"\nname = "A"', "no TOML"), ("name", '"A"\nhost = 1', "unknown key 'host'")]
HEAD = "substation,kind,index,name,unit,scale,zero,one"
# a record of a point that the plan has, made wrong, and what is said of it
UNNAMED = [("{s},{k},{i}", "a record of 3 fields"), ("{s},{k},{i},A,,,,,", "a record of 9 fields"), ("x,{k},{i},A,,,,", "substation: 'x'"),
           ("16,{k},{i},A,,,,", "substation: 16"), ("{s},{k}s,{i},A,,,,", "kind: '"), ("{s},{k},65536,A,,,,", "index: '65536'"), ("{s},{k},65535,A,,,,", "index: {k} 65535"),
           ("{s},{k},{i},,,,,", "name is empty"), ("{s},{k},{i},A,,1e3,,", "scale: '1e3'"), ("{s},{k},{i},A,,1234567890.123,,", "scale: '"),
           ('{s},{k},{i},A,,"1""",,', "scale: '"), ("{s},{k},{i},B,,,,\r\n{s},{k},{i},C,,,,", "the same point as in line")]
# lines that do nothing, whatever stands before them, and what a line may be given in place of a word
NOTHING = ["change {s} binary 65535 1 01 -", "change {s} counter 0 -1 01 5", "change {s} analog 0 2147483648 01 -", "change {s} binary 0 2 01 -",
           "change {s} analog 0 1 01 281474976710656", "change {s} counter 1024 1 01 -", "issue {s} block 65535 3 1 0 0", "issue {s} set16 65535 1",
           "issue {s} set32 256 -1", "issue2 {s} block 65535 3 1 0 0", "issue2 {s} set32 256 -1", "time {l} 281474976710656", "time {l} 18446744073709551615", "pass 0", "enable {l} 0", "disable {l} 0"]
WORDS = ["", "0", "-1", "16", "255", "256", "65536", "4294967296", "18446744073709551615", "18446744073709551616", "above", "above2", "above1", "up", "down", "master",
         "outstation", "centre", "centre2", "concentrator", "123", "0123", "11", "01", "fg", "-", "+1", "0x1", "block", "set16", "set32", "\t", "\r", "\0", "\u00e4", "A" * 300]


def fault_of(octets):
    """The refusal of octets that are no frame."""
    if len(octets) < wire.HEADER:
        return 1
    if octets[:2] != b"\x05\x64":
        return 2
    if not wire.begins(octets, 0):
        return 3
    if octets[2] < 5:
        return 4
    return 5 if len(octets) != wire.size_of(octets[2]) else 6 if wire.spoilt_block(octets) is not None else 0


def wrong_text(r, text):
    """The text with a character too many, too few or of another kind."""
    place = r.randrange(len(text) + 1)
    sign = r.choice(("", " ", "\n", "\r", "\t", "0", "g", "\0", "\x7f", "\u00e4"))
    return text[:place] + sign + text[place + r.randrange(3) :]


def answer(r, size, room, bounded):
    """Tries so many lines on `dnp answer`."""
    for _ in range(size):
        fragment = wire.fragment(r)
        unit = wire.frame(r.choice((0xC4, 0xC4, 0xC4, r.randrange(256))), r.choice((OWN, OWN, OWN, 11, 0xFFFF)), PEER, b"\xC0" + fragment[:240])
        octets = r.choice((wire.mutated, wire.spoilt_header, wire.spoilt_user, lambda _, it: it, lambda _, it: it))(r, unit)
        text = octets.hex(" ").upper() + r.choice(("", "\n"))
        if r.random() < 0.3:
            text = wrong_text(r, text)
        run = ran("answer", given=text.encode(), room=room)
        line = text.removesuffix("\n")
        if not re.fullmatch(r"(?:[\dA-Fa-f]{2}(?: [\dA-Fa-f]{2})*)?", line, re.ASCII) or "\n" in line or len(line) > 2000:
            if run.ends(REFUSED).out != "refused 0 Text\n" or not TEXT.fullmatch(run.err):
                raise run.broken("another text stands where the input is none")
            continue
        octets = bytes.fromhex(line)
        number = fault_of(octets)
        if number:
            block = f" {wire.spoilt_block(octets)}" if number == 6 else ""
            says = CHECK_WORD.fullmatch(run.err) is not None if "Check" in FRAMES[number - 1] else not run.err
            if run.ends(REFUSED).out != f"refused {number} {FRAMES[number - 1]}{block}\n" or not says:
                raise run.broken("another refusal belongs there")
            continue
        is_own = int.from_bytes(octets[4:6], "little") == OWN
        for line in run.ends(DONE).out.split("\n")[:-1]:
            if line != "no answer":
                reply = bytes.fromhex(line)
                if fault_of(reply) or reply[4:8] != bytes([PEER, 0, OWN, 0]) or line != reply.hex(" ").upper() or not is_own and octets[5] != 0xFF:
                    raise run.broken("the answer is no frame to the master")
        if not run.out or run.err:
            raise run.broken("nothing is said, or something of no fault")
    return size


def plans(r, size, room, bounded):
    """Tries so many plans."""
    for _ in range(size):
        text, number = scripts.Script(r.randrange(1 << 30), 0).plan.text(), None
        if r.random() < 0.5:
            key, value, number = r.choice(WRONG)
            text = re.sub(rf"(?m)^{key} = .*$", f"{key} = {value}", text, count=1)
        else:
            octets = wire.mutated(r, text.encode())
        given = text.encode() if number else octets + text.encode()[2048:]
        (room / "plan.toml").write_bytes(given)
        run = ran("sim", "--plain", "--plan", "plan.toml", room=room).ends(DONE, REFUSED)
        run.given["plan"] = given
        refused = re.fullmatch(r"refused plan ([1-6])\n", run.out)
        if (run.status == REFUSED) != bool(refused) or number and (not refused or int(refused[1]) != number):
            raise run.broken(f"the plan is refused otherwise than by {number or 'one of its numbers'}")
        if refused and not re.fullmatch(r"dnp: plan\.toml: [^\n]+\n", run.err):
            raise run.broken("standard error doesn't say at which place")
        if not refused:
            report_of(run)
    return size


def network_of(r, plan):
    """The text of a network for a plan, with the keys of the substations in any order."""
    lines = r.choice(([], ['name = "Net"'], ["[concentrator]"], ["[concentrator]", 'listen2 = "[::]:20101"', "centre = 5"]))
    for number in range(len(plan.substations)):
        keys = [f'at = "{r.choice((f"10.0.0.{number}", f"[2001:db8::{number}]", f"sub-{number}.example"))}:{r.randint(1, 65535)}"', f'name = "S{number}"',
                f"address = {r.randint(100, 65519)}", *r.choice(([], ["master = 2"], ['listen = "0.0.0.0:20000"'], ['unsolicited = "31"']))]
        lines += ["[[substation]]", *r.sample(keys, len(keys))]
    return "\n".join(lines) + "\n"


def is_formed(printed, form):
    """Whether what `dnp check` prints has this form."""
    if form == ["--csv"]:
        return printed.startswith("station,name,at,listen,address,peer,kind,index,above,class,deadband,point,unit,scale,zero,one")
    if not form:
        return re.search(r"(?m)^substation kind +index above class +deadband  name$", printed) is not None
    try:
        return set(json.loads(printed)) == {"name", "concentrator", "substations", "disagree", "points"}
    except ValueError:
        return False


def is_agreed(run, form, network, plan):
    """Whether what `dnp check` says of links on which plan and network disagree is where it belongs, and of as many as these two have."""
    said = json.loads(run.out)["disagree"] if form == ["--json"] else re.findall(r"(?m)^disagree: .*\n", run.err if form else run.out)
    if run.err != ("".join(said) if form == ["--csv"] else ""):
        return False
    # (each link has one, or none, where the network says nothing of it)
    return b"unsolicited" in network or len(said) in ((len(plan.substations) + 1, len(plan.substations) + 2) if plan.is_unsolicited else (0,))


def checked(r, room, network, points, plan):
    """What `dnp check` says of these files."""
    (room / "plan.toml").write_text(plan.text(), encoding="ascii")
    (room / "network.toml").write_bytes(network)
    (room / "points.csv").write_bytes(points)
    form = r.choice((["--csv"], ["--json"], []))
    run = ran("check", "--plan", "plan.toml", "--network", "network.toml", *form, room=room).ends(DONE, REFUSED, FAULT)
    run.given |= {"plan": plan.text().encode(), "network": network, "points": points}
    if run.status == DONE and not (is_formed(run.out, form) and is_agreed(run, form, network, plan)) or run.status != DONE and run.out:
        raise run.broken("what is printed doesn't fit how it ends")
    if run.status == FAULT and not (b"points" in network and re.search(r": (No such file|Is a directory|Not a directory|Permission denied|File name too long|"
                                                                       r"invalid)", run.err, re.I)):
        raise run.broken("it failed, where files were to be judged")
    if run.status == REFUSED and not re.fullmatch(r"dnp: (?:network\.toml|[^\n]+): [^\n]+\n", run.err):
        raise run.broken("standard error doesn't say at which place")
    return run


def judged(run, is_right, why):
    """Files that are right are taken, and of those that are wrong it is said why."""
    if is_right and run.status != DONE:
        raise run.broken("files that are right are refused")
    if why and (run.status != REFUSED or why not in run.err):
        raise run.broken(f"it is refused otherwise than by {why!r}")


def networks(r, size, room, bounded):
    """Tries so many files of networks: of five, three that are wrong, one that is right, and one that is spoilt."""
    for _ in range(size):
        plan = scripts.Script(r.randrange(1 << 30), 0).plan
        text, why, how = network_of(r, plan), None, r.randrange(5)
        if how < 3:
            key, value, why = r.choice(ILL)
            text = re.sub(rf"(?m)^{key} = .*$", lambda _: f"{key} = {value}", text, count=1)
        octets = wire.mutated(r, text.encode()) if how == 4 else text.encode()
        judged(checked(r, room, octets, b"", plan), how == 3, why)
    return size


def names(r, size, room, bounded):
    """Tries so many tables of points: of five, three that are wrong, one that is right, and one that is spoilt."""
    for _ in range(size):
        plan = scripts.Script(r.randrange(1 << 30), 0).plan
        named = [(number, kind, index) for number, station in enumerate(plan.substations) for kind in ("binary", "counter", "analog")
                 for index in range(len(station[kind]))]
        records = [HEAD, *(f'{number},{kind},{index},"P, {number}",,{r.choice(("", "1", "-0.5"))},,' for number, kind, index in r.sample(named, len(named)))]
        why, how = None, r.randrange(5)
        if named and how < 3:
            record, why = r.choice(UNNAMED)
            number, kind, index = r.choice(named)
            why = why.format(k=kind)
            records = [HEAD, record.format(s=number, k=kind, i=index)]
        end = r.choice(("\n", "\r\n"))
        octets = (end.join(records) + end).encode()
        if how == 4:
            octets = wire.mutated(r, octets)
        judged(checked(r, room, b'points = "points.csv"\n' + network_of(r, plan).encode(), octets, plan), how == 3, why)
    return size


def report_of(run):
    """Holds a report against the definitions of the headline."""
    try:
        holds.check(holds.read(run.out))
    except holds.Broken as broken:
        raise run.broken(f"the report breaks {broken}") from None


def planned(r, room):
    """A script whose lines all fit, and its plan in its file."""
    script = scripts.Script(r.randrange(1 << 30), 0)
    (room / "plan.toml").write_text(script.plan.text(), encoding="ascii")
    return script


def lines(r, size, room, bounded):
    """Tries so many scripts, each with one hostile line: where it doesn't fit, it is the one that is refused."""
    script = planned(r, room)
    for turn in range(size):
        if turn % 10 == 9:
            script = planned(r, room)
        place = r.randrange(len(script.lines))
        words = script.lines[place].split(" ")
        if r.random() < 0.5:
            words[r.randrange(len(words))] = r.choice(WORDS)
        line = " ".join(words) if r.random() < 0.7 else wrong_text(r, " ".join(words))
        given = "".join(it + "\n" for it in (*script.lines[:place], line, *script.lines[place + 1 :])).encode()
        run = ran("sim", "--plain", "--plan", "plan.toml", given=given, room=room).ends(DONE, REFUSED)
        run.given["plan"] = script.plan.text().encode()
        if run.status == DONE:
            report_of(run)
            continue
        refused = re.fullmatch(r"refused line (\d+)\n", run.out)
        if not refused or not place < int(refused[1]) <= place + 1 + line.count("\n"):
            raise run.broken(f"another line is refused than line {place + 1}")
        if not re.fullmatch(rf"dnp: line {refused[1]}(?:, word \d+: .+, where .+ belongs|: an empty line, where an event belongs|"
                            r": a carriage return at its end, where the line feed alone belongs)\n", run.err):
            raise run.broken("standard error says it otherwise")
    return size


def damage(r):
    """Octets that are no frame, as a line of a script has them."""
    unit = wire.frame(0xC4, r.choice((9, 10, 1, 2)), r.choice((1, 2, 9, 10)), b"\xC0" + wire.fragment(r)[:100])
    octets = r.choice((wire.spoilt_header, wire.spoilt_user, wire.mutated))(r, unit)[:292]
    return octets if octets and fault_of(octets) else b"\x05"


def events(r, size, room, bounded):
    """Tries so many events that do nothing, and units that are damaged where others are lost."""
    left = size
    while left > 0:
        script = planned(r, room)
        mixed, alone = [], []
        for line in script.lines:
            words = line.split(" ")
            if words[0] == "deliver" and r.random() < 0.5:
                mixed.append(f"damage {words[1]} {words[2]} {damage(r).hex()}")
                alone.append(f"lose {words[1]} {words[2]}")
                left -= 1
            else:
                mixed.append(line)
                alone.append(line)
            for _ in range(r.randrange(4)):
                link, station = script.link(), r.choice(script.stations)
                frame = wire.frame(0xC4, 10, 2, b"\xC0" + wire.fragment(r)[:100]).hex()
                mixed.append(r.choice((*NOTHING, f"damage {{l}} up {frame}", f"damage {{l}} down {frame}")).format(l=link, s=station))
                left -= 1
        wanted = ran("sim", "--plain", "--plan", "plan.toml", given="\n".join(alone).encode(), room=room).ends(DONE)
        run = ran("sim", "--plain", "--plan", "plan.toml", given="\n".join(mixed).encode(), room=room).ends(DONE)
        if run.out != wanted.out:
            raise run.broken("it prints another report", plan=script.plan.text().encode(), without="\n".join(alone).encode())
    return size - left


def newer(classic):
    """The packets of a classic capture, in the order of this machine, as one of the newer form with blocks of all kinds in between."""
    octets = block(0x0A0D0D0A, struct.pack("<IHHq", 0x1A2B3C4D, 1, 0, -1)) + block(1, struct.pack("<HHI", classic[20], 0, 65535))
    place, kind = 24, 0
    while place + 16 <= len(classic):
        count = int.from_bytes(classic[place + 8 : place + 12], "little")
        packet = classic[place + 16 : place + 16 + count]
        if len(packet) < count:
            break
        body = [struct.pack("<IQII", 0, 0, count, count), struct.pack("<I", count), struct.pack("<HHQII", 0, 0, 0, count, count)][kind % 3] + packet
        octets += block((6, 3, 2)[kind % 3], body) + block(5, b"") * (kind % 7 == 0)
        place, kind = place + 16 + count, kind + 1
    return octets


def block(kind, body):
    """A block of a capture of the newer form."""
    body += bytes(-len(body) % 4)
    return struct.pack("<II", kind, 12 + len(body)) + body + struct.pack("<I", 12 + len(body))


def captures(r, size, room, bounded):
    """Tries so many captures."""
    script = planned(r, room)
    ran("sim", "--plain", "--plan", "plan.toml", "--capture", "whole.pcap", given=script.text().encode(), room=room).ends(DONE)
    whole = (room / "whole.pcap").read_bytes()[:20_000]
    import decoding
    # (whole, both forms print the same lines)
    (room / "whole.pcap").write_bytes(whole)
    (room / "newer.pcap").write_bytes(newer(whole))
    runs = [ran("decode", "--pcap", name, room=room).ends(DONE, REFUSED) for name in ("whole.pcap", "newer.pcap")]
    lines = [[line for line in run.out.split("\n") if not line.endswith(" packet refused: the capture ends in it")] for run in runs]
    if lines[0] != lines[1]:
        raise runs[1].broken("a capture of the newer form is decoded otherwise")
    for _ in range(size):
        octets = bytearray(r.choice((whole, newer(whole))))
        for _ in range(r.choice((1, 1, 3, 20))):
            place = r.randrange(40) if r.random() < 0.2 else r.randrange(len(octets))
            octets[place % len(octets)] = r.choice((0, 0xFF, r.randrange(256)))
        octets = octets[: r.choice((len(octets), len(octets), r.randrange(len(octets))))]
        (room / "spoilt.pcap").write_bytes(octets)
        run = ran("decode", "--pcap", "spoilt.pcap", room=room).ends(DONE, REFUSED)
        run.given["capture"] = bytes(octets)
        if CAPTURE.fullmatch(run.out):
            if run.status != REFUSED or not run.err.startswith("dnp: spoilt.pcap: "):
                raise run.broken("a capture is refused otherwise")
            continue
        for line in run.out.split("\n")[:-1]:
            said = line.partition(" ")[2]
            if said != "packet refused: the capture ends in it" and not decoding.LINKED.fullmatch(said) and not decoding.BELOW.fullmatch(said):
                raise run.broken(f"a line has another form: {line!r}")
    return size
