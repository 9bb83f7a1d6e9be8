"""What became of events and controls, counted from the files of a network by sqlite3 of Python, once its programs have ended: the
headline, in another language. The events of each centre are counted by themselves."""
import collections
import sqlite3

# what the files of each centre, and the tables of its side of the queue, have after their names
CENTRES, FILES, SIDES = (1, 2), {1: "", 2: "2"}, {1: "", 2: "_b"}
Events = collections.namedtuple("Events", "faults missing again dropped")


def rows(path, query):
    """The rows of a store, which has to be whole."""
    base = sqlite3.connect(path, timeout=20)
    try:
        (whole,) = base.execute("PRAGMA integrity_check").fetchone()
        assert whole == "ok", f"{path.name}: {whole}"
        return base.execute(query).fetchall()
    finally:
        base.close()


def events(room, number, gone, made, columns="value"):
    """What is wrong with the events of one centre, how many of those that substations let go it lacks, how many stand more than
    once in its journal, and how many its lanes have dropped. An event is told by these columns: `gone` are those that the
    substations let go, `made` all that they ever had. What a centre lacks, its lanes have to have counted."""
    queue, lanes = f"queue{SIDES[number]}", f"lanes{SIDES[number]}"
    journal = collections.Counter(rows(room / f"journal{FILES[number]}.db", f"SELECT {columns} FROM journal"))
    waiting = set(rows(room / "queue.db", f"SELECT {columns} FROM {queue}"))
    ((dropped,),) = rows(room / "queue.db", f"SELECT sum(lost) FROM {lanes}")
    missing = sorted(event for event in gone if event not in journal and event not in waiting)
    faults = []
    if len(missing) > dropped:
        faults.append(f"centre {number}: {len(missing)} events are lost, {dropped} of them counted, as {missing[:5]}")
    for where, there in (("journal", journal.keys()), ("queue", waiting)):
        never = [event for event in there if event not in made]
        if never:
            faults.append(f"centre {number}: the {where} has {len(never)} events that never were, as {never[:5]}")
    return Events(faults, missing, sum(count > 1 for count in journal.values()), dropped)


def controls(room, operated):
    """What is wrong with the controls, of which each has an on-time of its own, and how many were issued. `operated` counts for
    each on-time how often it was operated."""
    issued = collections.Counter()
    for number in CENTRES:
        issued.update(on_ms for (on_ms,) in rows(room / f"above{FILES[number]}.db", "SELECT on_ms FROM control"))
    rows(room / "below.db", "SELECT id FROM control")
    faults = []
    often = [on_ms for on_ms, count in operated.items() if count > issued[on_ms] > 0]
    if often:
        faults.append(f"controls were operated more often than they were issued: {often}")
    if not operated.keys() <= issued.keys():
        faults.append("a control was operated that was never issued")
    return faults, issued.total()
