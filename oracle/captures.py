#!/usr/bin/env python3
"""Makes a capture for `ccread`, of frames and distribution packets: captures.py SEED RECORDS [mark]. With `mark` the last record has a wrong
mark.
"""
import random, sys

seed, count = int(sys.argv[1]), int(sys.argv[2])
rand = random.Random(seed)


def block():
    number = rand.choice([1, 1, 2, 3, 6, 7, 40, 63])
    payload = bytes(rand.randrange(256) for _ in range(rand.randrange(1, 20)))
    header = [number << 5 | len(payload)] if number < 7 else [7 << 5 | len(payload), number]
    return bytes(header) + payload


def packet(sequence):
    blocks = b"".join(block() for _ in range(rand.randrange(1, 4)))
    blocks += bytes((len(blocks) + 1) % 2)
    return bytes([sequence << 6 | (len(blocks) + 1) // 2]) + blocks


def triples():
    """The triples of packets without end: a start, then the rest."""
    sequence = 0
    while True:
        data = packet(sequence)
        for at in range(0, len(data), 2):
            yield bytes([0xFF if at == 0 else 0xFE]) + data[at : at + 2]
        sequence = (sequence + 1) % 4


source = triples()


def whole_frame():
    pairs = [bytes([0xFC + rand.randrange(2), rand.randrange(256), rand.randrange(256)]) for _ in range(rand.randrange(3))]
    rest = [next(source) for _ in range(rand.randrange(0, 29))]
    padding = [b"\xfa\x00\x00"] * rand.choice([0, 0, 1])
    body = pairs + rest + padding
    return bytearray(bytes([0xC0 | len(body), 0xFF]) + b"".join(body))


def pair_behind(data):
    """The frame with a pair in the place of its last triple, or as it is where it is short."""
    if len(data) > 8:
        data[-3] = 0xFC
    return data


def flipped(data):
    data[rand.randrange(len(data))] ^= 1 << rand.randrange(8)
    return data


def frame():
    data = whole_frame()
    damage = rand.randrange(12)
    if damage == 0:
        data = flipped(data)
    elif damage == 1:
        data = data[: rand.randrange(len(data))]
    elif damage == 2:
        data += bytes(rand.randrange(4))
    elif damage == 3:
        data = pair_behind(data)
    return bytes(data)


def mended(data):
    """The packet with a last byte that makes the sum right."""
    data[-1] = -sum(data[:-1]) % 256
    return data


def distribution():
    """The next distribution packet, often damaged, or one that came before."""
    global counter
    if sent and rand.randrange(12) == 0:
        return rand.choice(sent[-3:])
    counter = (counter + rand.choice([1, 1, 1, 1, 2, 300])) % 65536
    held = pair_behind(whole_frame()) if rand.randrange(12) == 0 else whole_frame()
    twice, triples = counter.to_bytes(2, "big"), held[2:]
    code = rand.choice([4, 4, 4, 4, *range(16)]) if rand.randrange(4) == 0 else 4
    front = bytes([0x96, 0x69, 13 + len(triples), code << 4 | 15, 0x43]) + twice
    data = mended(bytearray(front + bytes([0x72, 0xE0 + len(triples) // 3]) + triples + b"\x74" + twice + b"\x00"))
    damage = rand.randrange(16)
    if damage == 0:
        data = flipped(data)
    elif damage == 1:
        data = mended(flipped(data))
    elif damage == 2:
        data = data[: rand.randrange(len(data))]
    elif damage == 3:
        data[4] = rand.randrange(256)
        data = mended(data)
    elif damage == 4:
        data[-2] ^= 1
        data = mended(data)
    sent.append(bytes(data))
    return sent[-1]


sent, counter, out = [], 65400, b""
for _ in range(count):
    mark, data = (0xCD, distribution()) if rand.randrange(3) == 0 else (0xDA, frame())
    out += bytes([0xCC, mark, len(data)]) + data
if "mark" in sys.argv:
    out += b"\xcc\xdb\x02\x00\x00"
sys.stdout.buffer.write(out)
