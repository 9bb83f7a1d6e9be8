"""Files of stores with one octet spoilt. The program that tests/files runs refuses such a file, or opens it, puts a row there
and shows the rows: these have to be what Python's sqlite3 reads in the same file, or what stood there where that reads none.
`dnp centre` refuses a journal and a book by name, or goes on and finds nobody to ask. `dnp rows` refuses each by name, or shows
what sqlite3 reads, and leaves the file as it is. A case is an octet of a file."""
import json
import re
import shutil
import sqlite3
import tempfile
from pathlib import Path

from program import DNP, DONE, FAULT, REFUSED, STARTED, STORES, TOP, Broken, Run

SIZE = 30
PAGE = 1024
FILES = TOP / "tests/files"
ROWS = {"queue": "SELECT id, lane, point, flags, value, time FROM queue ORDER BY id",
        "journal": "SELECT id, kind, point, flags, value, time FROM journal ORDER BY id",
        "book": "SELECT id, target, kind, point, state, status FROM control ORDER BY id"}
EVENT = r"(?:lane|kind) (-?\d+) point (-?\d+) flags (-?\d+) value (-?\d+) time (?:None|Some\((-?\d+)\))"
LINES = {"queue": re.compile(rf"queue (\d+): {EVENT}"), "journal": re.compile(rf"journal (\d+): {EVENT}"),
         "book": re.compile(r"control (\d+): target (\d+) (Block|Set16|Set32) \{ index: (\d+), .* \} (Pending|Spent|Finished\(Status\((\d+)\)\))")}
KINDS, STATES = ("Block", "Set16", "Set32"), ("Pending", "Spent", "Finished")
# what `dnp centre` says of a file, and the status that goes with it
SAID = [(REFUSED, r"no (?:journal|book of controls): .+|no (?:journal|book of controls), or not whole|no (?:journal|book of controls) was made "
                  r"there: remove the file, and let '--new' make one|row \d+, .+: the plan has no such point|control \d+, .+: the plan has no such output"),
        (FAULT, r"its rows can't be read: out of memory, or its device failed|the device under the database failed|[^:]+")]
UTC = re.compile(r"\d{4}-\d\d-\d\dT\d\d:\d\d:\d\d\.\d{3}Z ")
WORDS = {"queue": "--queue", "journal": "--journal", "book": "--controls"}
STORE = {"queue": "queue", "journal": "journal", "book": "book of controls"}
EVENTS, COMMANDS = ("binary", "counter", "analog"), ("block", "set16", "set32")
PROGRESS = ("pending", "spent", "finished")
OTHERS = "other tables stand there too: nothing is promised of what is stored beside them"
PLAN = """confirm_ms = 5000
response_ms = 10000
select_ms = 5000
retries = 0
unsolicited = false
queue = [4, 4, 4, 4, 4, 4, 4, 4, 4]
queue2 = [4, 4, 4, 4, 4, 4, 4, 4, 4]
[[substation]]
lanes = [4, 4, 4, 4, 4, 4, 4, 4, 4]
binary = [1, 1, 1]
counter = [1, 1, 1]
analog = [1, 1, 1]
deadband = [0, 0, 0]
outputs = 10
setpoints = 10
base = [0, 0, 0, 0, 0]
"""


def made(room):
    """The files of the three stores, as sqlite3 makes them, and all that is to be spoilt of them."""
    for name in ROWS:
        path = room / f"whole-{name}.db"
        path.unlink(missing_ok=True)
        base = sqlite3.connect(path)
        base.execute(f"PRAGMA page_size = {PAGE}")
        base.executescript((FILES / f"{name}.sql").read_text(encoding="ascii"))
        if name == "book":
            # (all of a centre's controls are for the concentrator)
            base.execute("UPDATE control SET target = 0")
            base.commit()
        base.close()
    (room / "plan.toml").write_text(PLAN, encoding="ascii")
    return {name: (room / f"whole-{name}.db").read_bytes() for name in ROWS}


def rows_in(path, name):
    """What sqlite3 reads there, or nothing."""
    base = sqlite3.connect(path)
    try:
        return base.execute(ROWS[name]).fetchall()
    except (sqlite3.Error, OverflowError, UnicodeError):
        return None
    finally:
        base.close()


def row_of(name, line):
    """The row that a line shows."""
    words = LINES[name].fullmatch(line)
    if words is None:
        return None
    if name != "book":
        return tuple(None if word is None else int(word) for word in words.groups())
    number, target, kind, point, state, status = words.groups()
    return int(number), int(target), KINDS.index(kind), int(point), STATES.index(state.partition("(")[0]), int(status or 0)


def shown(run, name):
    """The rows that the program showed of a store, before the one that it put there, and none where it refused it."""
    lines = [line for line in run.out.split("\n")[:-1] if line.startswith("control" if name == "book" else name)]
    rows = [row_of(name, line) for line in lines]
    if None in rows:
        raise run.broken(f"a line has another form: {lines}")
    if name == "queue":
        # (by lanes, and the row that was put there is that of point 9)
        return sorted(row for row in rows if row[2] != 9)
    return rows[:-1]


def printed(name, line):
    """The row that a line of `dnp rows` says."""
    it = json.loads(line)
    if name == "book":
        return it["id"], it["target"], COMMANDS.index(it["command"]), it["index"], PROGRESS.index(it["state"]), it["status"] or 0
    number = EVENTS.index(it["kind"]) + (3 * (it["class"] - 1) if name == "queue" else 0)
    return it["id"], number, it["index"], int(it["flags"], 16), it["value"], it["time"]


def read_beside(room, name, octets, place, wanted):
    """`dnp rows` of a file with these octets, of which sqlite3 reads these rows, if any."""
    run = Run([DNP, "rows", WORDS[name], f"{name}.db", "--json"], b"", room).ends(DONE, REFUSED, FAULT)
    if (room / f"{name}.db").read_bytes() != octets or any((room / f"{name}.db{end}").exists() for end in ("-wal", "-shm")):
        raise run.broken(f"octet {place} of the {name}'s file spoilt: a file is changed or made", file=octets)
    if run.status != DONE:
        if re.fullmatch(f"dnp: {name}\\.db: no {STORE[name]}(?:, or not whole|: .+| was made there: .+)\n"
                        f"|dnp: {name}\\.db: (?:a queue of an earlier release, .+|its last id is \\d+: .+)\n", run.err) is None:
            raise run.broken(f"octet {place} of the {name}'s file spoilt: another refusal", file=octets)
    elif run.err or wanted is not None and [printed(name, line) for line in run.out.splitlines()] != wanted:
        raise run.broken(f"octet {place} of the {name}'s file spoilt: other rows than sqlite3 reads, {wanted}", file=octets)


def is_documented(run, name):
    """Whether the centre said which build it is, and ended as it may, having named the file that it refused, or found nobody."""
    begun, *said = run.err.split("\n")[:-1] or [""]
    if not STARTED.fullmatch(begun):
        return False
    if not all(UTC.match(line) for line in said):
        return False
    said = [line for line in (UTC.sub("", line) for line in said) if line != f"{name}.db: {OTHERS}"]
    if run.status == FAULT and len(said) == 1 and said[0].endswith("Connection refused (os error 111)"):
        return True
    wanted = next((words for status, words in SAID if status == run.status), "")
    return len(said) == 1 and not run.out and re.fullmatch(f"{name}\\.db: (?:{wanted})", said[0]) is not None


def tried(r, size, room, bounded):
    """Tries so many octets."""
    whole = made(room)
    for _ in range(size):
        name = r.choice(list(ROWS))
        spoil(r, room, whole, name, r.randrange(len(whole[name])), bounded)
    return size


def parts(size):
    """How many parts of so many octets all files have."""
    with tempfile.TemporaryDirectory() as room:
        return -(-sum(len(octets) for octets in made(Path(room)).values()) // size)


def walked(r, size, room, bounded, number):
    """Tries each octet of one of these parts."""
    whole = made(room)
    places = [(name, place) for name, octets in whole.items() for place in range(len(octets))][number * size:(number + 1) * size]
    for name, place in places:
        spoil(r, room, whole, name, place, bounded)
    return len(places)


def spoil(r, room, whole, name, place, bounded):
    """Tries a store's file with another octet at this place."""
    octets = bytearray(whole[name])
    octets[place] = r.choice([it for it in (octets[place] ^ 1 << r.randrange(8), r.randrange(256), 0, 0xFF) if it != octets[place]])
    try_one(room, whole, name, bytes(octets), place, bounded)


def try_one(room, whole, name, octets, place, bounded):
    """Tries a store's file with these octets."""
    for other, its in whole.items():
        (room / f"{other}.db").write_bytes(octets if other == name else its)
        for end in ("-wal", "-shm", "-journal"):
            (room / f"{other}.db{end}").unlink(missing_ok=True)
    shutil.copy(room / f"{name}.db", room / "copy.db")
    wanted = rows_in(room / "copy.db", name)
    read_beside(room, name, octets, place, wanted)
    if name != "queue":
        centre = Run([DNP, "centre", "--plan", "plan.toml", "--journal", "journal.db", "--controls", "book.db", "--port", "1"], b"", room)
        if not is_documented(centre, name):
            raise centre.broken(f"octet {place} of the {name}'s file spoilt: another end", file=octets)
        (room / f"{name}.db").write_bytes(octets)
        for end in ("-wal", "-shm"):
            (room / f"{name}.db{end}").unlink(missing_ok=True)
    run = Run([STORES, "show"], b"", room).ends(DONE)
    rows = shown(run, name)
    refused = run.out.endswith(("wrong: Store\n", "wrong: Memory\n")) or "wrong: File(" in run.out
    if bounded and run.kilobytes > 200_000:
        raise run.broken(f"octet {place} of the {name}'s file spoilt: {run.kilobytes} kilobytes of memory", file=octets)
    if refused and not rows:
        return
    if rows != (wanted if wanted is not None else rows_in(room / f"whole-{name}.db", name)):
        raise run.broken(f"octet {place} of the {name}'s file spoilt: {rows} is shown, and sqlite3 reads {wanted}", file=octets)
