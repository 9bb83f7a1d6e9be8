"""Frames and fragments for tests/hostile: well-formed ones, made from the tables of IEEE Std 1815-2012, and hostile ones, each
with what has to be told of it. Nothing here is the program's."""
import struct


def steps_of(octet):
    """What the check word's division makes of an octet."""
    for _ in range(8):
        octet = octet >> 1 ^ (0xA6BC if octet & 1 else 0)
    return octet


TABLE = [steps_of(octet) for octet in range(256)]
BLOCK, HEADER, MOST_USER = 16, 10, 250
PRIMARY = 0x40
USER_DATA = 0xC4, 0xC3, 0x44, 0x43
# the functions of the link layer, by PRM and the low four bits of CONTROL
LINK = {(1, 0): "RESET_LINK_STATES", (1, 2): "TEST_LINK_STATES", (1, 3): "CONFIRMED_USER_DATA",
        (1, 4): "UNCONFIRMED_USER_DATA", (1, 9): "REQUEST_LINK_STATUS", (0, 0): "ACK", (0, 1): "NACK",
        (0, 11): "LINK_STATUS", (0, 15): "NOT_SUPPORTED"}
FUNCTIONS = [0, 1, 2, 3, 4, 5, 6, 20, 21, 23, 129, 130]
# what stands in the octets of object headers, and what stands at their edges
TELLING = [0, 1, 2, 3, 4, 5, 6, 7, 8, 10, 12, 20, 22, 23, 30, 32, 40, 41, 50, 52, 60, 80, 0x17, 0x28, 0x7F, 0x80, 0x81, 0xFE, 0xFF]

TIME = "40 E5 55 9C 01 00"
BLOCK_COMMAND = "03 01 64 00 00 00 64 00 00 00 00"
REQUESTS = [bytes.fromhex(text) for text in (
    "C0 01 3C 02 06 3C 03 06 3C 04 06 3C 01 06",
    "C1 01 3C 02 07 05 02 00 06",
    "C2 01 01 00 06 1E 01 00 00 02 14 00 01 00 00 02 00 0A 02 06",
    "C3 01 02 00 07 03 20 00 07 03 16 00 07 FF",
    "C4 02 50 01 00 07 07 00",
    "C5 02 32 01 07 01 " + TIME,
    "C6 14 3C 02 06 3C 03 06 3C 04 06",
    "C7 15 3C 02 06",
    "C8 17",
    "C9 00",
    "D0 00",
    "CA 03 0C 01 28 01 00 01 00 " + BLOCK_COMMAND,
    "CB 04 0C 01 28 01 00 01 00 " + BLOCK_COMMAND,
    "CC 05 29 02 28 01 00 00 00 39 30 00",
    "CD 06 29 01 28 01 00 01 00 39 30 00 00 00",
    "C0 03 0C 01 17 02 01 " + BLOCK_COMMAND + " 02 " + BLOCK_COMMAND,
    "C3 03 29 02 17 02 01 00 02 00 02 00 02 00")]
RESPONSES = [bytes.fromhex(text) for text in (
    "C0 81 80 00 02 02 28 01 00 03 00 81 " + TIME,
    "E1 81 00 00 20 01 28 02 00 01 00 01 07 00 00 00 02 00 01 FF FF FF FF",
    "C2 81 00 00 1E 01 00 00 01 01 05 00 00 00 01 06 00 00 00",
    "C3 81 00 00 01 02 00 00 03 01 81 01 81",
    "C4 81 00 00 14 01 00 00 00 01 09 00 00 00",
    "C5 81 00 00 34 02 07 01 05 00",
    "C6 81 00 00 0A 02 00 00 00 01",
    "E7 81 00 00 16 05 28 01 00 02 00 01 08 00 00 00 " + TIME,
    "C8 81 00 00 01 01 00 00 0F FF FF",
    "F0 82 80 00 02 01 28 01 00 01 00 81",
    "C9 81 00 00 28 01 00 00 00 01 05 00 00 00",
    "CA 81 00 00 0C 01 28 01 00 01 00 " + BLOCK_COMMAND)]


def check(octets):
    """The check word: the polynomial of the data link layer, low bits first, complemented."""
    word, table = 0, TABLE
    for octet in octets:
        word = word >> 8 ^ table[(word ^ octet) & 255]
    return (word ^ 0xFFFF).to_bytes(2, "little")


def header(length, control, dest, source):
    octets = struct.pack("<BBBBHH", 5, 0x64, length, control, dest, source)
    return octets + check(octets)


def blocks(user):
    return b"".join(user[k : k + BLOCK] + check(user[k : k + BLOCK]) for k in range(0, len(user), BLOCK))


def frame(control, dest, source, user=b""):
    return header(5 + len(user), control, dest, source) + blocks(user)


def frames(control, dest, source, fragment, number=0):
    """The frames of a fragment, whose first segment has this number."""
    pieces = [fragment[k : k + MOST_USER - 1] for k in range(0, len(fragment), MOST_USER - 1)]
    last = len(pieces) - 1
    return [frame(control, dest, source, bytes([(k == last) << 7 | (k == 0) << 6 | (number + k) % 64]) + piece)
            for k, piece in enumerate(pieces)]


def size_of(length):
    """How many octets a frame has, by its LENGTH."""
    user = length - 5
    return HEADER + user + 2 * -(-user // BLOCK)


def said_of(control):
    """The name of the function of a CONTROL octet."""
    return LINK.get((control >> 6 & 1, control & 15), "unknown function")


def begins(octets, place):
    """Whether a header with a right check word stands there."""
    return octets[place : place + 2] == b"\x05\x64" and check(octets[place : place + 8]) == octets[place + 8 : place + 10]


def begins_within(octets):
    """Whether one stands anywhere in the octets."""
    place = octets.find(b"\x05\x64")
    while place >= 0:
        if place + HEADER <= len(octets) and begins(octets, place):
            return True
        place = octets.find(b"\x05\x64", place + 1)
    return False


def spoilt_block(unit):
    """The first block of user data with a wrong check word of octets with a right header, or none."""
    user = unit[2] - 5
    for number, place in enumerate(range(HEADER, len(unit), BLOCK + 2)):
        size = min(BLOCK, user - BLOCK * number)
        if check(unit[place : place + size]) != unit[place + size : place + size + 2]:
            return number
    return None


def mutated(r, octets):
    """Octets like these, with something wrong in them, or not."""
    octets = bytearray(octets)
    for _ in range(r.choice((1, 1, 1, 2, 4))):
        how, place = r.randrange(8), r.randrange(len(octets)) if octets else 0
        if not octets or how == 0:
            octets[place:place] = r.randbytes(r.randint(1, 4))
        elif how == 1:
            octets[place] ^= 1 << r.randrange(8)
        elif how == 2:
            octets[place] = r.choice(TELLING)
        elif how == 3:
            del octets[place:]
        elif how == 4:
            del octets[place : place + r.randint(1, 3)]
        elif how == 5:
            octets[place : place + 2] = struct.pack("<H", r.choice((0, 1, 255, 256, 0x7FFF, 0xFFFE, 0xFFFF)))
        elif how == 6:
            octets += octets[place : place + r.randint(1, 20)]
        else:
            octets[place] = r.randrange(256)
    return bytes(octets[:2048])


def fragment(r):
    """A mutated request or response."""
    if r.random() < 0.05:
        return r.randbytes(r.randint(0, 40))
    return mutated(r, r.choice(REQUESTS) if r.random() < 0.5 else r.choice(RESPONSES))


def noise(r):
    """Octets that no header begins: chance makes one of some in a few million."""
    while True:
        octets = r.choice((b"", b"\x05\x64", b"\x05")) + r.randbytes(r.randint(1, 30))
        if not begins(octets, 0):
            return octets


def spoilt_header(r, whole):
    """A frame whose header is wrong: nothing of it is a frame."""
    octets = bytearray(whole)
    flip(r, octets, range(8 * HEADER), r.choice((1, 1, 2, 3)))
    return bytes(octets)


def flip(r, octets, places, count):
    """Flips so many bits, each at another of these places: up to five of a block the check word always tells."""
    for place in r.sample(places, count):
        octets[place // 8] ^= 1 << place % 8


def spoilt_user(r, whole):
    """A frame whose header is right, and whose user data, or what stands in their place, are not."""
    octets = bytearray(whole)
    if len(octets) == HEADER or r.random() < 0.1:
        octets[:HEADER] = header(r.randint(6, 255), *struct.unpack("<BHH", whole[3:8]))
        octets += r.randbytes(size_of(octets[2]))
        del octets[size_of(octets[2]) :]
    elif r.random() < 0.1:
        # (as where the line was silent before its end)
        place = r.randrange(HEADER, len(octets))
        octets[place:] = bytes(len(octets) - place)
    else:
        flip(r, octets, range(8 * HEADER, 8 * len(octets)), r.choice((1, 1, 2, 5)))
    # (where another length ends as a block of the old frame did, all may be right)
    return spoilt_header(r, whole) if spoilt_block(octets) is None else bytes(octets)
