#!/usr/bin/env python3
"""packets.py pack HOW SECTIONS TS PCAP | flip SECTIONS | fields SECTIONS | notifications
               | same WANT GOT | dissected GOOD|BAD WANT GOT | all WORD WANT GOT

What lies between the library and its peers: transport packets of ISO/IEC 13818-1, and comparing. SECTIONS, WANT and what is
written have lines 'NAME HEX'. It uses neither the library nor a peer. The last three print the number of sections, and exit
with 1 at the first that differs.

pack           sections one right behind the other (HOW: packed), or each from a packet of its own on, with 0xFF behind it (HOW:
               alone), or each second one (HOW: paired); as a transport stream and as a capture of its packets, one a frame
flip           the sections with one bit flipped, another one in each, none of it in the bytes that say how long it is
fields         what each section is built from, as `theirs make` takes it
notifications  the same for resolution notification sections
same           GOT, whose lines end in HEX, has exactly the sections of WANT
dissected      GOT, tshark's fields of each frame, has each section of WANT with its table, length and CRC, GOOD or BAD
all            GOT has a line for each section of WANT, with WORD behind the name
"""
import struct
import sys

ROOM, PID = 184, 0x0123  # the bytes of a packet behind its header


def lines(path):
    return [line.split() for line in open(path)]


def sections(path):
    return [(name, bytes.fromhex(text)) for name, text in lines(path)]


def show(name, section):
    print(name, section.hex())


# ---- packets

def payloads(parts):
    """What the packets hold, each with whether a section begins in it: then its first byte points to that. Where the pointer
    would leave no room for the beginning, the packet ends in stuffing."""
    rest, parts = b"", list(parts)
    while rest or parts:
        if begins := bool(parts) and len(rest) < ROOM - 1:
            rest = bytes([len(rest)]) + rest
            while parts and len(rest) < ROOM:
                rest += parts.pop(0)
        yield begins, rest[:ROOM].ljust(ROOM, b"\xff")
        rest = rest[ROOM:]


def pack(how, path, stream, capture):
    parts = [section for _, section in sections(path)]
    many = {"alone": 1, "paired": 2, "packed": len(parts)}[how]
    runs = [parts[i : i + many] for i in range(0, len(parts), many)]
    with open(stream, "wb") as ts, open(capture, "wb") as pcap:
        pcap.write(struct.pack("<IHHiIII", 0xA1B2C3D4, 2, 4, 0, 0, 65535, 243))  # 243: MPEG-2 transport packets
        for k, (begins, payload) in enumerate(p for run in runs for p in payloads(run)):
            packet = struct.pack(">BHB", 0x47, begins << 14 | PID, 0x10 | k % 16) + payload
            ts.write(packet)
            pcap.write(struct.pack("<IIII", k, 0, len(packet), len(packet)) + packet)
    print(k + 1)


# ---- sections

def flip(path):
    for k, (name, section) in enumerate(sections(path)):
        bit = 24 + 37 * k % (8 * (len(section) - 3))
        flipped = bytearray(section)
        flipped[bit // 8] ^= 0x80 >> bit % 8
        show(name, flipped)


def fields(path):
    for name, s in sections(path):
        print(name, s[0], s[1] >> 6 & 1, s[3] << 8 | s[4], s[5] >> 1 & 31, s[5] & 1, s[6], s[7], s[8:-4].hex() or "-")


def sized(data):
    return struct.pack(">H", 0xF000 | len(data)) + data


def named(name, descriptors):
    return bytes([len(name)]) + name + sized(descriptors)


def notifications():
    for k in range(64):
        payload = bytes([k % 6]) + sized(b"\x5f\0" * (7 * k))
        for p in range(k % 13):
            authorities = (named(b"a" * (a % 60), b"\x5f\0" * (k % 4)) for a in range(k * p % 9))
            payload += sized(named(b"p%d.example.org" % p, b"\x5f\0" * (p % 3)) + b"".join(authorities))
        print(f"notification-{k:02}", 0x79, k % 2, 0x6DCA + k, k % 32, k // 2 % 2, k, 63, payload.hex())
    print("notification-common-to-the-limit", 0x79, 1, 1, 1, 1, 0, 0, (b"\x01" + sized(b"\x5f" * (4096 - 15))).hex())
    print("notification-816-providers", 0x79, 1, 1, 1, 1, 0, 0, (b"\x01" + sized(b"") + sized(named(b"", b"")) * 816).hex())
    print("notification-1350-authorities", 0x79, 1, 1, 1, 1, 0, 0, (b"\x01" + sized(b"") + sized(named(b"", b"") * 1351)).hex())


# ---- comparing

def compare(want, got):
    for k, (name, due) in enumerate(want):
        if k >= len(got) or got[k] != due:
            sys.exit(f"{name}, section {k + 1}: {str(got[k])[:160] if k < len(got) else 'missing'}; due is {str(due)[:160]}")
    if len(got) != len(want):
        sys.exit(f"{len(got)} sections, due are {len(want)}")
    print(len(want))


def same(want, got):
    compare([(name, s.hex()) for name, s in sections(want)], [words[-1] for words in lines(got)])


def dissected(status, want, got):
    due = [(n, (s[0], (s[1] & 15) << 8 | s[2], int.from_bytes(s[-4:], "big"), status)) for n, s in sections(want)]
    have = []
    for line in open(got):
        columns = [c.split(",") if c else [] for c in line.rstrip("\n").split("\t")]
        if len(set(map(len, columns))) != 1:
            sys.exit(f"a frame whose sections have not each a table, a length, a CRC and its status: {columns}")
        for table, length, crc, ok in zip(*columns):
            have.append((int(table, 0), int(length, 0), int(crc, 0), {"1": "GOOD", "0": "BAD"}.get(ok, ok)))
    compare(due, have)


def all_of(word, want, got):
    compare([(name, [name, word]) for name, _ in lines(want)], [words[:2] for words in lines(got)])


calls = {"pack": pack, "flip": flip, "fields": fields, "notifications": notifications, "same": same, "dissected": dissected,
         "all": all_of}
if len(sys.argv) < 2 or sys.argv[1] not in calls:
    sys.exit(__doc__)
calls[sys.argv[1]](*sys.argv[2:])
