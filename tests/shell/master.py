#!/usr/bin/env python3
"""A DNP3 master, made from the tables of IEEE Std 1815-2012, that shares nothing with the program that it talks to.

It connects to a port of this machine and does what the lines of standard input say:
    link CONTROL WANTED    sends a link frame without data, and wants a reply with this CONTROL octet
    > OCTETS               sends a fragment
    cut COUNT OCTETS       sends that many octets of the frame of a fragment
    < OCTETS               wants a fragment
    noise OCTETS           sends octets as they are
    slow                   sends each octet by itself from now on
    wait SECONDS           waits
    nothing                wants nothing to come for a while
    end                    wants the connection to end
    reset                  ends the connection at once, and not in an orderly way
    another                connects once more, and speaks on that connection from now on
    other                  speaks on the other one of the last two connections from now on
    gone LEAST MOST        wants the connection to end in so many seconds, and nothing to come
    drip LEAST MOST        the same, while it sends an octet 05 each tenth of a second
    deaf                   asks for readings again and again, reads nothing that comes, and wants the connection to end in 90 seconds
It prints the first line that came out otherwise, and what came.
"""
import socket
import struct
import sys
import time

OUTSTATION, MASTER = 10, 2
USER_DATA = 0x44  # from an outstation: PRM, UNCONFIRMED_USER_DATA


def check(octets):
    """The check word: the polynomial of the data link layer, low bits first, complemented."""
    word = 0
    for octet in octets:
        word ^= octet
        for _ in range(8):
            word = word >> 1 ^ (0xA6BC if word & 1 else 0)
    return struct.pack("<H", word ^ 0xFFFF)


def frame(control, user=b""):
    header = struct.pack("<BBBBHH", 0x05, 0x64, 5 + len(user), control, OUTSTATION, MASTER)
    blocks = [user[k : k + 16] for k in range(0, len(user), 16)]
    return b"".join(block + check(block) for block in [header, *blocks])


class Master:
    def __init__(self, port):
        self.port = port
        self.stream = connect(port)
        self.before = None
        self.slow = False
        self.number = 0

    def send(self, octets):
        for piece in [bytes([octet]) for octet in octets] if self.slow else [octets]:
            self.stream.sendall(piece)
            time.sleep(0.002 if self.slow else 0)

    def read(self, count):
        octets = b""
        while len(octets) < count:
            piece = self.stream.recv(count - len(octets))
            if not piece:
                raise ValueError("the end of the connection")
            octets += piece
        return octets

    def block(self, count):
        octets = self.read(count + 2)
        if check(octets[:-2]) != octets[-2:]:
            raise ValueError("a wrong check word: " + octets.hex(" "))
        return octets[:-2]

    def receive(self):
        """A frame's control octet and user data."""
        header = self.block(8)
        start, length, control, to, of = struct.unpack("<HBBHH", header)
        if (start, to, of) != (0x6405, MASTER, OUTSTATION):
            raise ValueError("another frame: " + header.hex(" "))
        left = length - 5
        user = b""
        while len(user) < left:
            user += self.block(min(16, left - len(user)))
        return control, user

    def send_fragment(self, fragment):
        pieces = [fragment[k : k + 249] for k in range(0, len(fragment), 249)]
        for k, piece in enumerate(pieces):
            first, last = k == 0, k == len(pieces) - 1
            self.send(frame(0xC4, bytes([last << 7 | first << 6 | self.number]) + piece))
            self.number = (self.number + 1) % 64

    def fragment(self):
        fragment = b""
        last = False
        while not last:
            control, user = self.receive()
            if control != USER_DATA or bool(user[0] & 0x40) != (fragment == b""):
                raise ValueError("control %02x and data %s" % (control, user.hex(" ")))
            fragment += user[1:]
            last = user[0] & 0x80
        return fragment

    def idle(self):
        self.stream.settimeout(0.4)
        try:
            came = self.stream.recv(300)
        except TimeoutError:
            came = None
        self.stream.settimeout(20)
        return came

    def another(self):
        self.before, self.stream, self.number = self.stream, connect(self.port), 0

    def other(self):
        self.before, self.stream = self.stream, self.before

    def gone(self, least, most, sent=b""):
        """Wants the connection to end in so many seconds, while it sends these octets again and again."""
        begun = time.monotonic()
        self.stream.settimeout(0.1)
        while time.monotonic() - begun < most:
            try:
                self.stream.sendall(sent)
                if came := self.stream.recv(300):
                    raise ValueError(came.hex(" "))
                break
            except TimeoutError:
                continue
            except (ConnectionResetError, BrokenPipeError):
                break
        within(least, most, time.monotonic() - begun)

    def deaf(self, sent):
        """Sends this again and again, and reads nothing, until the connection ends."""
        begun = time.monotonic()
        self.stream.settimeout(0.1)
        while time.monotonic() - begun < 90:
            try:
                self.stream.send(sent)
            except TimeoutError:
                continue
            except (ConnectionResetError, BrokenPipeError):
                return
        raise ValueError("no end")


def within(least, most, waited):
    if not least <= waited < most:
        raise ValueError("the end after %.2f seconds" % waited)


def connect(port):
    for _ in range(400):
        try:
            stream = socket.socket()
            # (so that little is sent to one who doesn't read)
            stream.setsockopt(socket.SOL_SOCKET, socket.SO_RCVBUF, 4096)
            stream.setsockopt(socket.IPPROTO_TCP, socket.TCP_NODELAY, 1)
            stream.settimeout(20)
            stream.connect(("127.0.0.1", port))
            return stream
        except ConnectionRefusedError:
            time.sleep(0.05)
    raise SystemExit("nobody listens on the port")


def wants(wanted, came):
    if came != wanted:
        raise ValueError("nothing" if came is None else came.hex(" ").upper() or "the end of the connection")


def do(master, words):
    word = words[0]
    if word in ("gone", "drip"):
        return master.gone(float(words[1]), float(words[2]), b"\x05" if word == "drip" else b"")
    if word == "deaf":
        return master.deaf(frame(0xC4, bytes.fromhex("C0 C0 01 3C 01 06")) * 50)
    octets = bytes.fromhex("".join(words[2:] if word in ("cut", "wait") else words[1:]))
    if word == "link":
        master.send(frame(octets[0]))
        control, user = master.receive()
        wants(octets[1:], bytes([control]) + user)
    elif word == ">":
        master.send_fragment(octets)
    elif word == "<":
        wants(octets, master.fragment())
    elif word == "cut":
        master.send(frame(0xC4, b"\xc0" + octets)[: int(words[1])])
    elif word == "noise":
        master.send(octets)
    elif word == "slow":
        master.slow = True
    elif word == "wait":
        time.sleep(float(words[1]))
    elif word == "nothing":
        wants(None, master.idle())
    elif word == "end":
        wants(b"", master.idle())
    elif word in ("another", "other"):
        getattr(master, word)()
    elif word == "reset":
        master.stream.setsockopt(socket.SOL_SOCKET, socket.SO_LINGER, struct.pack("ii", 1, 0))


def main():
    # The check word that the catalogues of such words give for this text.
    assert check(b"123456789") == b"\x82\xea"
    master = Master(int(sys.argv[1]))
    for line in sys.stdin:
        if words := line.split():
            try:
                do(master, words)
            except (ValueError, OSError) as fault:
                raise SystemExit("%s: came %s" % (line.strip(), fault)) from None
    master.stream.close()


main()
