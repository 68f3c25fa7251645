"""What `ccpack` has to print for a job, reckoned by carrying the job out.

A proposal is checked by doing what it says: the bytes of every piece, each marked with its service, its run and its place there, are laid into
blocks of packets, and the packets are written and read off again. What comes out of the packets is set beside what should. A proposal is made by
laying runs into packets as they come.
"""
from collections import Counter, defaultdict

MOST_RUNS, MOST_BLOCK, MOST_PACKET = 256, 31, 128


def header(service, size):
    """The header of a block: one byte, and one more above service 6."""
    return [service % 256, size % 256] if service > 6 else [service * 32 + size % 32]


def written(blocks):
    """The bytes of a packet whose blocks are a service and its bytes each."""
    return [0, *(byte for service, payload in blocks for byte in [*header(service, len(payload)), *payload])]


def laid(services, expected, pieces):
    """By packet and block number the marks that the pieces lay there; nothing if a piece is empty or there are more marks than `expected`."""
    packets, marks = defaultdict(lambda: defaultdict(list)), 0
    for run, first, size, packet, block in pieces:
        marks += size
        if size == 0 or marks > expected:
            return None
        service = services[run] if run < len(services) else None
        packets[packet][block] += [(service, run, place) for place in range(first, first + size)]
    return packets


def checked(services, lengths, pieces):
    """The number of the refusal of a proposal, or 0."""
    owed = [(service, run, place) for run, (service, size) in enumerate(zip(services, lengths)) for place in range(size)]
    packets = laid(services, len(owed), pieces)
    if packets is None:
        return 23
    sent = [mark for packet in sorted(packets) for block in sorted(packets[packet]) for mark in packets[packet][block]]
    if Counter(sent) != Counter(owed):
        return 23
    streams, should = defaultdict(list), defaultdict(list)
    for mark in sent:
        streams[mark[0]].append(mark)
    for mark in owed:
        should[mark[0]].append(mark)
    if streams != should:
        return 24
    where = defaultdict(set)
    for run, _, _, packet, block in pieces:
        where[run].add((packet, block))
    if any(len(places) > 1 for places in where.values()):
        return 25
    if any(not 0 < service < 64 for service in services) or any(not 0 < size <= MOST_BLOCK for size in lengths):
        return 26
    for blocks in packets.values():
        if any(len({service for service, _, _ in marks}) > 1 or len(marks) > MOST_BLOCK for marks in blocks.values()):
            return 26
        if len(written([(marks[0][0], marks) for marks in blocks.values()])) > MOST_PACKET:
            return 26
    return 0


def packed(services, lengths):
    """Where each run goes, a packet and a block for each, and the number of packets; nothing where a run goes nowhere."""
    packets, places = [], []
    for service, size in zip(services, lengths):
        if not 0 < service < 64 or not 0 < size <= MOST_BLOCK:
            return None
        packet = packets[-1] if packets else None
        mine = [place for place, (owner, _) in enumerate(packet or []) if owner == service]
        longer = [*packet] if packet else []
        if mine and len(packet[mine[-1]][1]) + size <= MOST_BLOCK:
            longer[mine[-1]] = (service, packet[mine[-1]][1] + [0] * size)
            place = mine[-1]
        else:
            longer.append((service, [0] * size))
            place = len(longer) - 1
        if packet is None or len(written(longer)) > MOST_PACKET:
            packets.append([(service, [0] * size)])
            place = 0
        else:
            packets[-1] = longer
        places.append((len(packets) - 1, place))
    return places, len(packets)


def told(job):
    """What `ccpack` prints for a job."""
    if len(job) < 3 or job[:1] not in (b"C", b"P"):
        return "bad\n"
    runs, rest = int.from_bytes(job[1:3], "big"), job[3:]
    if runs > MOST_RUNS:
        return "refused 26\n"
    services, lengths, left = rest[:runs], rest[runs : 2 * runs], rest[2 * runs :]
    if len(lengths) < runs:
        return "bad\n"
    if job[:1] == b"C":
        if len(left) % 5:
            return "bad\n"
        number = checked(services, lengths, [left[at : at + 5] for at in range(0, len(left), 5)])
        return f"refused {number}\n" if number else "ok\n"
    if left:
        return "bad\n"
    made = packed(services, lengths)
    if made is None:
        return "refused 26\n"
    places, packets = made
    pieces = [f"piece {run} 0 {size} {packet} {block}\n" for run, (size, (packet, block)) in enumerate(zip(lengths, places))]
    return f"packets {packets}\n{''.join(pieces)}end {runs}\n"


# Jobs in hex with what they print, worked out by hand from the rules.
EXAMPLES = [
    # nothing, no kind, no number of runs, half of it
    ("", "bad"),
    ("58 0000", "bad"),
    ("63 0000", "bad"),
    ("43", "bad"),
    ("50 00", "bad"),
    # no runs at all: no piece is needed, and no packet is filled
    ("43 0000", "ok"),
    ("43 0000 00", "bad"),
    ("43 0000 0000010000", "refused 23"),
    ("50 0000", "packets 0 / end 0"),
    ("50 0000 00", "bad"),
    # one run of two bytes
    ("43 0001 01 02 0000020000", "ok"),
    ("43 0001 01 02 0000020907", "ok"),
    ("43 0001 01 02 0000010000 0001010000", "ok"),
    ("43 0001 01 02 0001010000 0000010000", "refused 24"),
    ("43 0001 01 02 0001010001 0000010000", "refused 25"),
    ("43 0001 01 02 0001010100 0000010000", "refused 25"),
    ("43 0001 01 02 0001010000 0000010001", "refused 24"),
    ("43 0001 01 02", "refused 23"),
    ("43 0001 01 02 0000010000", "refused 23"),
    ("43 0001 01 02 0000030000", "refused 23"),
    ("43 0001 01 02 0000020000 0001010000", "refused 23"),
    ("43 0001 01 02 0000020000 0002000000", "refused 23"),
    ("43 0001 01 02 0000020000 0100010000", "refused 23"),
    ("43 0001 01 02 00000200", "bad"),
    ("43 0001 01 02 0000020000 00", "bad"),
    ("43 0001 01", "bad"),
    ("43 0001", "bad"),
    ("50 0001 01 02", "packets 1 / piece 0 0 2 0 0 / end 1"),
    ("50 0001 01 02 00", "bad"),
    ("50 0001 01", "bad"),
    # two runs of one service keep their order, by packet, by block and by the list; those of two services need not
    ("43 0002 0101 0101 0000010000 0100010000", "ok"),
    ("43 0002 0101 0101 0100010000 0000010000", "refused 24"),
    ("43 0002 0101 0101 0100010001 0000010000", "ok"),
    ("43 0002 0101 0101 0100010100 0000010000", "ok"),
    ("43 0002 0101 0101 0000010100 0100010000", "refused 24"),
    ("43 0002 0101 0101 0000010001 0100010000", "refused 24"),
    ("43 0002 0102 0101 0000010001 0100010000", "ok"),
    ("43 0002 0102 0101 0100010000 0000010001", "ok"),
    # a block is of one service
    ("43 0002 0102 0101 0000010000 0100010000", "refused 26"),
    ("50 0002 0101 0101", "packets 1 / piece 0 0 1 0 0 / piece 1 0 1 0 0 / end 2"),
    ("50 0002 0102 0101", "packets 1 / piece 0 0 1 0 0 / piece 1 0 1 0 1 / end 2"),
    # services from 1 to 63, runs of 1 to 31 bytes
    ("43 0001 00 01 0000010000", "refused 26"),
    ("43 0001 40 01 0000010000", "refused 26"),
    ("43 0001 3F 01 0000010000", "ok"),
    ("43 0001 01 1F 00001F0000", "ok"),
    ("43 0001 01 20 0000200000", "refused 26"),
    ("43 0001 01 00", "refused 26"),
    ("43 0001 01 00 0000000000", "refused 23"),
    ("50 0001 00 01", "refused 26"),
    ("50 0001 01 00", "refused 26"),
    ("50 0001 01 20", "refused 26"),
    # a block of 31 bytes and of 32
    ("43 0002 0101 100F 0000100000 01000F0000", "ok"),
    ("43 0002 0101 1010 0000100000 0100100000", "refused 26"),
    ("50 0002 0101 1010", "packets 1 / piece 0 0 16 0 0 / piece 1 0 16 0 1 / end 2"),
    # packets of 128 bytes and of 129: 1 + 32 + 32 + 32 + 31, and one more; above service 6 a header has two bytes
    ("43 0004 01020304 1F1F1F1E 00001F0000 01001F0001 02001F0002 03001E0003", "ok"),
    ("43 0004 01020304 1F1F1F1F 00001F0000 01001F0001 02001F0002 03001F0003", "refused 26"),
    ("43 0004 01020307 1F1F1F1E 00001F0000 01001F0001 02001F0002 03001E0003", "refused 26"),
    ("43 0004 01020307 1F1F1F1D 00001F0000 01001F0001 02001F0002 03001D0003", "ok"),
    ("50 0004 01020304 1F1F1F1E", "packets 1 / piece 0 0 31 0 0 / piece 1 0 31 0 1 / piece 2 0 31 0 2 / piece 3 0 30 0 3 / end 4"),
    ("50 0004 01020304 1F1F1F1F", "packets 2 / piece 0 0 31 0 0 / piece 1 0 31 0 1 / piece 2 0 31 0 2 / piece 3 0 31 1 0 / end 4"),
    ("50 0003 010701 1F1F03", "packets 1 / piece 0 0 31 0 0 / piece 1 0 31 0 1 / piece 2 0 3 0 2 / end 3"),
    # the latest block of a service takes a run, and no earlier one
    ("50 0004 01010101 1E1E0101", "packets 1 / piece 0 0 30 0 0 / piece 1 0 30 0 1 / piece 2 0 1 0 1 / piece 3 0 1 0 2 / end 4"),
    # more than 256 runs, whatever follows
    ("43 0101", "refused 26"),
    ("50 0101", "refused 26"),
    ("50 FFFF 01", "refused 26"),
    ("58 0101", "bad"),
    # the first reason in the order 23, 24, 25, 26
    ("43 0002 4040 0101 0100010001 0000010002", "refused 24"),
    ("43 0001 40 02 0000010000 0001010001", "refused 25"),
    ("43 0001 40 02 0000010000", "refused 23"),
]


def examples():
    """The examples as a job and what it prints."""
    for job, lines in EXAMPLES:
        yield bytes.fromhex(job), lines.replace(" / ", "\n") + "\n"
