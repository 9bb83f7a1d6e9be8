"""What is done at the door of the second centre of a network: a half-closed connection, a newer one in place of an older one, and one that sends
and never reads. Part of standing_network.py."""
import socket
import sys
import time
from pathlib import Path

from standing import MEDIAN_MS, MOST_KB, ages, awaited, judge, memory_kb, percentile

sys.path.insert(0, str(Path(__file__).resolve().parents[1] / "hostile"))
import wire  # noqa: E402

CENTRE, CONCENTRATOR = 3, 9
ASK, ANSWER = wire.frame(0xC9, CONCENTRATOR, CENTRE), wire.frame(0x0B, CENTRE, CONCENTRATOR)


def connect(door, buffer=None):
    stream = socket.socket()
    if buffer:
        stream.setsockopt(socket.SOL_SOCKET, socket.SO_RCVBUF, buffer)
    stream.settimeout(10)
    stream.connect(door)
    return stream


def read_all(stream):
    """All that comes until the end, and whether it came in good order."""
    octets = b""
    try:
        while piece := stream.recv(65536):
            octets += piece
    except OSError as fault:
        return octets, repr(fault)
    return octets, ""


def half_closed(door):
    """All requests before the end of what a peer sends are answered."""
    stream = connect(door)
    stream.sendall(ASK * 50)
    stream.shutdown(socket.SHUT_WR)
    octets, fault = read_all(stream)
    stream.close()
    return judge("few-a-half-closed-connection-is-answered", "" if octets.count(ANSWER) == 50 else f"{octets.count(ANSWER)} answers", fault)


def newer(door, story):
    """A newer connection takes the place of the older one, of which what it sent before is answered first."""
    older = connect(door)
    unseen = story.network.says(rf":{older.getsockname()[1]} centre 2 connected")
    older.sendall(ASK * 50)
    newest = connect(door)
    newest.sendall(ASK)
    octets, fault = read_all(older)
    older.close()
    first = newest.recv(65536)
    newest.close()
    answers = octets.count(ANSWER)
    return judge("few-a-newer-connection-replaces-the-older-one", "" if answers == 50 else f"{answers} answers", fault, unseen,
                 "" if ANSWER in first else f"the newer one got {first.hex(' ')}")


def unread(door, story):
    """A peer that sends and never reads holds up nobody, and takes no memory."""
    program = story.network.programs["concentrator"]
    stream = connect(door, 4096)
    stream.setblocking(False)
    before, since, made, sent = memory_kb(program), len(story.follower.rows), len(story.third.made), 0
    end = time.monotonic() + 2
    while time.monotonic() < end:
        story.third.call(story.third.change)
        try:
            while True:
                sent += stream.send(ASK * 1000)
        except BlockingIOError:
            time.sleep(0.1)
    awaited(lambda: len(story.follower.rows) - since >= len(story.third.made) - made)
    came = len(story.follower.rows) - since
    median, after = percentile(ages(story.follower.rows[since:]), 0.5), memory_kb(program)
    stream.close()
    is_young = came >= len(story.third.made) - made > 0 and median <= MEDIAN_MS
    return judge("few-a-peer-that-never-reads-holds-up-nobody", "" if is_young else f"median {median} ms, {came} came",
                 "" if after <= MOST_KB else f"{after} kB", told=f"{sent} octets sent, {before} kB then {after}, median {median} ms")


def judged(story):
    """All of it, over the network of a story whose second centre has gone."""
    door = story.network.doors[1]
    good = half_closed(door)
    good = newer(door, story) and good
    return unread(door, story) and good
