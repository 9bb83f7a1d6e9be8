"""Hostile streams for `dnp decode`: units with something wrong in them, and well-formed frames in between. Of each unit the
link layer's line is known, by how it was made; of each well-formed frame all lines have to be those of a run without the
hostile units; and what stands below a hostile frame is worded as docs/decode.md has it. A case is a unit, or a line that is
no hexadecimal octets."""
import json
import re

import wire
from program import CHECK_WORD, DONE, REFUSED, ran

SIZE = 10_000
# the kilobytes that it may have: to begin with, and for each octet of the input
OWN, EACH = 65_536, 1.0
# destinations and sources of hostile frames whose check words are right, and of the well-formed ones
STRANGERS = [(10, 3), (3, 10), (65_519, 1), (0, 65_535), (1, 9)]
OUTSTATION, MASTER = 10, 1
HEADER = r"\d+\.\d+ (?:all|\d+\.\.\d+|x\d+)"
MOMENT = r"[-+\d]+T[\d:.]+Z"
# the names of flags and of indications that are set
SET = r"(?: [A-Z_\d]+| reserved)*"
OBJECT = (rf"-?\d+ = -?\d+ flags [\dA-F]{{2}}{SET}(?: at {MOMENT})?|\d+ = [01]|{MOMENT}|\d+ ms|"
          r"\d+ code [\dA-F]{2} count \d+ on \d+ off \d+ status \d+|\d+ set -?\d+ status \d+")
FAULT = "Short|FunctionUnknown|HeaderCut|QualifierUnknown|ObjectUnknown|RangeBackward|SizeUnknown|ObjectsCut|CommonTime"
# what the profile lacks: functions, the names of headers, and objects
BEYOND = ", beyond the profile"
OTHERS = ("IMMED_FREEZE|IMMED_FREEZE_NR|FREEZE_CLEAR|FREEZE_CLEAR_NR|FREEZE_AT_TIME|FREEZE_AT_TIME_NR|COLD_RESTART|WARM_RESTART|"
          "INITIALIZE_DATA|INITIALIZE_APPL|START_APPL|STOP_APPL|SAVE_CONFIG|ASSIGN_CLASS|RECORD_CURRENT_TIME|OPEN_FILE|CLOSE_FILE|"
          "DELETE_FILE|GET_FILE_INFO|AUTHENTICATE_FILE|ABORT_FILE|ACTIVATE_CONFIG|AUTHENTICATE_REQ|AUTH_REQ_NO_ACK")
NAMED = r"[-a-z0-9 ]+, [-a-zA-Z0-9 ,']+"
LACKED = r"(?: \d+)?(?: = [0-3])?(?: octets [\dA-F]{2}(?: [\dA-F]{2})*)?"
NAMES = ("CONFIRM|READ|WRITE|SELECT|OPERATE|DIRECT_OPERATE|DIRECT_OPERATE_NR|ENABLE_UNSOLICITED|DISABLE_UNSOLICITED|"
         "DELAY_MEASURE")
BITS = r"seq \d+(?: fir)?(?: fin)?(?: con)?(?: uns)?"
BELOW = re.compile(
    rf"  transport(?: FIR)?(?: FIN)? \d+|  transport refused: (?:Series|Size, \d+ octets)|  request {BITS} (?:{NAMES})|"
    rf"  response {BITS}, iin [\dA-F]{{2}} [\dA-F]{{2}}{SET}|    {HEADER}(?:: (?:{OBJECT}))?|  fragment refused: (?:{FAULT}) at octet \d+|"
    rf"  request {BITS} (?:{OTHERS}){BEYOND}|  response {BITS}, iin [\dA-F]{{2}} [\dA-F]{{2}}{SET}, AUTHENTICATE_RESP{BEYOND}|"
    rf"    {HEADER} {NAMED}{BEYOND}|    {HEADER}:{LACKED}{BEYOND}")
LINKED = re.compile(r"\d+>\d+ [\dA-F]{2} (?:[A-Z_]+|unknown function) \d+ octets, words good|\d+>\d+ frame refused: (?:Length at octet 2|"
                    r"BlockCheck \d+ at octet \d+)|\d+ octets skipped: (?:no frame begins there|HeaderCheck at octet 8)|frame refused: Cut at octet \d+")
LAYERS = {"transport", "request", "response", "header", "row", "indication", "time", "delay", "command", "fragment", "object"}


class Units:
    """Octets, unit after unit, and what each is told as: by its place, or the line in which it ends, the text, and which
    well-formed frame it is."""

    def __init__(self):
        self.octets, self.lines, self.by_place, self.by_line, self.noise = [], [], [], [], b""
        self.place = self.last_line = 0

    def put(self, octets):
        self.octets.append(octets)
        self.lines.append(octets.hex(" "))
        self.place += len(octets)
        self.last_line = len(self.lines)

    def tell(self, count, text, number=None):
        """The last so many octets are told so."""
        self.by_place.append((self.place - count, text, number))
        self.by_line.append((self.last_line, text, number))

    def end_noise(self, following):
        """Tells of the octets before the next unit, which begin none."""
        if not self.noise:
            return
        if wire.begins_within(self.noise + following[: wire.HEADER - 1]):
            self.add_noise(bytes(wire.HEADER))
        begun = "HeaderCheck at octet 8" if self.noise.startswith(b"\x05\x64") else "no frame begins there"
        self.tell(len(self.noise), f"{len(self.noise)} octets skipped: {begun}")
        self.noise = b""

    def add_noise(self, octets):
        self.noise += octets
        self.put(octets)

    def add(self, unit, number=None):
        """Adds octets that are a whole unit where a header begins them."""
        if not wire.begins(unit, 0):
            return self.add_noise(unit)
        self.end_noise(unit)
        length, control = unit[2:4]
        link = f"{int.from_bytes(unit[6:8], 'little')}>{int.from_bytes(unit[4:6], 'little')}"
        if length < 5:
            self.put(unit[: wire.HEADER])
            self.tell(wire.HEADER, f"{link} frame refused: Length at octet 2")
            return self.add_noise(unit[wire.HEADER :]) if unit[wire.HEADER :] else None
        assert len(unit) == wire.size_of(length)
        self.put(unit)
        block = wire.spoilt_block(unit)
        if block is None:
            said = f"{link} {control:02X} {wire.said_of(control)} {length - 5} octets, words good"
        else:
            said = f"{link} frame refused: BlockCheck {block} at octet {wire.HEADER + block * (wire.BLOCK + 2)}"
        return self.tell(len(unit), said, number)

    def add_wrong_line(self, r, octets):
        """A line that stops being hexadecimal octets, none of which are taken."""
        line, how = octets.hex(" "), r.randrange(3)
        if how == 0:
            line, column = line[:-1], len(line)
        elif how == 1:
            column = 3 * r.randrange(len(octets)) + 2
            line = line[: column - 1] + " " + line[column - 1 :]
        else:
            column = r.randint(1, len(line))
            line = line[: column - 1] + r.choice("gG./_\x7f\u00e4\0") + line[column - 1 :]
        self.lines.append(line)
        self.by_line.append((len(self.lines), f"text refused: no hexadecimal digit in column {column}", None))


def hostile(r, base):
    """Hostile octets: a whole unit where a header begins them."""
    control, (dest, source) = r.choice(wire.USER_DATA), r.choice(STRANGERS)
    how = r.random()
    if how < 0.5:
        segment = r.choice((0xC0, 0xC0, 0xC0, 0x40, 0x80, 0)) | r.randrange(64)
        return wire.frame(control, dest, source, (bytes([segment]) + wire.fragment(r))[: wire.MOST_USER])
    if how < 0.7:
        return wire.spoilt_header(r, r.choice(base))
    if how < 0.85:
        return wire.spoilt_user(r, r.choice(base))
    if how < 0.9:
        return wire.header(r.randrange(5), control, dest, source) + r.randbytes(r.randrange(3))
    if how < 0.95:
        return wire.frame(r.randrange(256), dest, source, r.randbytes(r.randrange(40)))
    return wire.noise(r)


def well_formed(r):
    """The frames of a request, or of a response, which may have several."""
    if r.random() < 0.5:
        return wire.frames(0xC4, OUTSTATION, MASTER, r.choice(wire.REQUESTS), r.randrange(64))
    count = r.choice((1, 2, 60, 100))
    rows = b"".join(bytes([k, 0, 1, k, 0, 0, 0]) for k in range(count))
    longer = bytes.fromhex("C0 81 80 00 20 01 28") + count.to_bytes(2, "little") + rows
    return wire.frames(0x44, MASTER, OUTSTATION, r.choice((longer, *wire.RESPONSES)), r.randrange(64))


def streams(r, size):
    """So many hostile units, and lines, with well-formed frames in between, and these alone."""
    mixed, alone = Units(), Units()
    base = [unit for _ in range(20) for unit in well_formed(r)]
    waiting, number, left = [], 0, size
    while left or waiting:
        if left:
            unit = hostile(r, base)
            mixed.add(unit)
            left -= 1
        if left and r.random() < 0.05:
            mixed.add_wrong_line(r, unit)
            left -= 1
        if not left or r.random() < 0.1:
            waiting = waiting or well_formed(r)
            for into in (mixed, alone):
                into.add(waiting[0], number)
            waiting, number = waiting[1:], number + 1
    return mixed, alone


def groups(run):
    """What was printed: the place or line of each unit, its line, and the lines below it."""
    found = []
    for line in run.out.split("\n")[:-1]:
        place, _, said = line.partition(" ")
        if said.startswith(" "):
            if not found:
                raise run.broken(f"the first line stands below no other: {line!r}")
            found[-1][2].append(said)
        else:
            found.append((int(place), said, []))
    return found


def hold(run, told, wanted):
    """Holds what was printed against what the units are told as, and of well-formed frames against what stands below them."""
    found = groups(run)
    for (place, said, below), (at, text, number) in zip(found, told):
        if (place, said) != (at, text):
            raise run.broken(f"'{place} {said}' is printed, where '{at} {text}' belongs")
        if number is not None:
            if wanted is not None and below != wanted[number]:
                raise run.broken(f"below '{at} {text}' stands {below}, and without the hostile units {wanted[number]}")
        elif below and not (said.endswith("words good") and all(map(BELOW.fullmatch, below))):
            raise run.broken(f"below '{at} {text}' stands {below}")
    if len(found) != len(told):
        raise run.broken(f"{len(found)} units are told of, and there are {len(told)}")
    return [below for (_, _, below), (_, _, number) in zip(found, told) if number is not None]


def hold_json(run, told):
    """Holds objects against what the units are told as."""
    texts = [json.loads(line) for line in run.out.split("\n")[:-1]]
    units = [it["at"] for it in texts if it["layer"] in ("frame", "text")]
    if units != [at for at, _, _ in told] or not {it["layer"] for it in texts} <= LAYERS | {"frame", "text"}:
        raise run.broken("other objects are printed than there are units")


def by_number(told):
    return told[0]


def tried(r, size, room, bounded):
    """Tries so many cases."""
    mixed, alone = streams(r, size)
    words, told, others = ["--raw"], mixed.by_place, alone.by_place
    given, without = b"".join(mixed.octets), b"".join(alone.octets)
    if r.random() < 0.3:
        words, told, others = [], sorted(mixed.by_line, key=by_number), alone.by_line
        given, without = "\n".join(mixed.lines).encode(), "\n".join(alone.lines).encode()
    wanted = hold(ran("decode", *words, given=without, room=room).ends(DONE), others, None)
    run = ran("decode", *words, given=given, room=room).ends(REFUSED)
    hold(run, told, wanted)
    if run.err and not (CHECK_WORD.fullmatch(run.err) and "Check" in run.out):
        raise run.broken("standard error says something else than which check word is right")
    if bounded and run.kilobytes > OWN + EACH * len(given):
        raise run.broken(f"{run.kilobytes} kilobytes of memory for {len(given)} octets")
    if r.random() < 0.1:
        hold_json(ran("decode", "--json", *words, given=given, room=room).ends(REFUSED), told)
    return size


def paired(r, size, room, bounded):
    """So many first segments, each between two other stations: the work for a frame may hardly grow with the pairs before it."""
    ways = r.sample(range(1 << 32), size)
    units = [wire.frame(0x44, way >> 16, way & 0xFFFF, b"\x40\xC0") for way in ways]
    seconds = []
    for count in (size // 8, size):
        given = b"".join(units[:count])
        run = ran("decode", "--raw", given=given, room=room).ends(DONE)
        seconds.append(run.seconds)
        if run.out.count("\n") != 2 * count or run.out.count(" words good\n") != count or run.out.count("  transport FIR 0\n") != count:
            raise run.broken(f"other lines than two for each of {count} segments")
        if bounded and run.kilobytes > OWN + 4 * count:
            raise run.broken(f"{run.kilobytes} kilobytes of memory for {count} pairs")
    if seconds[1] > 1 + 20 * seconds[0]:
        raise run.broken(f"{seconds[1]:.1f} seconds for {size} pairs, and {seconds[0]:.1f} for an eighth of them")
    return size
