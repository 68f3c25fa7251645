"""A second reckoning of `ccscript`'s readers of blocks and packets, of its codes, of its multiplexer, with its carrying mode and its true
count, and of its distribution packets: the lines that a script has to print.

It is written from the rules (docs/RULES.md, whose numbers stand in square brackets), with exact fractions. What a frame
gets in the carrying mode is the difference of two sums, what is due up to it and what was due before it; no rest is handed
on from write to write. Codes are found by one pattern, and no length is looked up. A distribution packet is set beside the one
that would be written of what it says, and the least of all reasons against it is told. A value is never changed: a call that
is accepted gives a new one, one that is refused gives none.

`answers(records)` takes the records of a script without mark and length. It knows the operations in OPERATIONS.
"""
import re
from fractions import Fraction
from math import ceil, floor
from typing import NamedTuple

PAIRS, TRIPLES = 60, 600  # in a second [G1]
MOST_TRIPLES = 31


class Refused(Exception):
    """A call is refused; its arguments are the refusal's number and the values that it carries."""


def refuse_if(broken, *refusal):
    if broken:
        raise Refused(*refusal)


# Blocks and packets


class Block(NamedTuple):
    number: int
    payload: bytes = b""


class Packet(NamedTuple):
    sequence: int
    blocks: tuple = ()


def new_block(number):
    """[B11]"""
    refuse_if(number > 63, 6)
    return Block(number)


def push_to_block(block, run):
    """[B10]"""
    room = 31 - len(block.payload)
    refuse_if(not run, 7)
    refuse_if(block.number == 0, 4)
    refuse_if(len(run) > room, 3, len(run) - room)
    return Block(block.number, block.payload + run)


def block_bytes(block):
    """[B7]"""
    size = len(block.payload)
    header = [0xE0 + size, block.number] if block.number >= 7 else [32 * block.number + size]
    return bytes(header) + block.payload


def block_length(block):
    """[B8]"""
    return len(block_bytes(block)) if block.payload else 0


def read_block(data, offset=0):
    """The block at the front of bytes that stand at this offset ([B2] to [B5]), and how many bytes its header announces, itself among them."""
    first = data[0] if data else 0
    header, size = 2 if first > 0xE0 else 1, first % 32
    refuse_if(len(data) < header, 14, header, len(data), offset)
    refuse_if(len(data) < header + size, 15, header + size, len(data), offset)
    number = data[1] % 64 if header == 2 else first // 32
    return Block(number, data[header : header + size] if number else b""), header + size


def new_packet(sequence):
    """[P14]"""
    refuse_if(sequence > 3, 6)
    return Packet(sequence)


def packet_length(packet):
    """[P7]"""
    return 1 + sum(map(block_length, packet.blocks)) if packet.blocks else 0


def packet_room(packet):
    """[P9]"""
    return 128 - packet_length(packet)


def null_at(data, at):
    """Whether a header of number 0 stands there, in one byte or in two [T2]."""
    first, *rest = data[at:]
    return first < 0x20 or first > 0xE0 and rest != [] and rest[0] in (0x00, 0x40, 0x80, 0xC0)


def read_packet(data, tidily):
    """[P2] to [P6], and [T1] to [T3]"""
    refuse_if(not data, 13, 1, 0, 0)
    size = 2 * (data[0] % 64) or 128
    refuse_if(len(data) > size or tidily and len(data) < size, 13, size, len(data), 0)
    blocks, at = [], 1
    while at < len(data) and not (tidily and null_at(data, at)):
        block, announced = read_block(data[at:], at)
        blocks += [block] if block.payload else []
        at += announced if tidily else block_length(block) or 1
    return Packet(data[0] // 64, tuple(blocks))


def push_block(packet, block):
    """[P10]"""
    over = block_length(block) - packet_room(packet)
    refuse_if(over > 0, 3, over)
    refuse_if(not block.payload, 5)
    return Packet(packet.sequence, (*packet.blocks, block))


def push_run(packet, number, run):
    """[P11] and [P12]"""
    refuse_if(number > 63, 6)
    refuse_if(not run, 7)
    blocks = packet.blocks
    places = [place for place, block in enumerate(blocks) if block.number == number]
    if places and len(blocks[places[-1]].payload + run) <= 31:
        latest = places[-1]
        over = len(run) - packet_room(packet)
        refuse_if(over > 0, 3, over)
        return Packet(packet.sequence, (*blocks[:latest], push_to_block(blocks[latest], run), *blocks[latest + 1 :]))
    return push_block(packet, push_to_block(Block(number), run))


def packet_triples(packet):
    """The packet's bytes [P8] as the triples that carry them [W7]."""
    size = (packet_length(packet) + 1) // 2
    data = bytes([packet.sequence << 6 | size % 64]) + b"".join(map(block_bytes, packet.blocks))
    data += bytes(len(data) % 2)
    return [bytes([0xFF if at == 0 else 0xFE, data[at], data[at + 1]]) for at in range(0, len(data), 2)]


# Codes

# What stands at a place of a payload: a whole code, by its first byte [K1] or by the byte behind 0x10 [K2]; and if not that, a code of which no
# length is known, or else one that is cut short [K3].
CODE = re.compile(
    rb"""
      [\x00-\x0F\x20-\x87\x8E-\x8F\x93-\x96\xA0-\xFF]
    | [\x11-\x17\x88-\x8D] .
    | [\x18-\x1F\x90\x92] .{2}
    | \x91 .{3}
    | \x97 .{4}
    | [\x98-\x9F] .{6}
    | \x10 [\x00-\x07\x20-\x7F\xA0-\xFF]
    | \x10 [\x08-\x0F] .
    | \x10 [\x10-\x17] .{2}
    | \x10 [\x18-\x1F] .{3}
    | \x10 [\x80-\x87] .{4}
    | \x10 [\x88-\x8F] .{5}
    | (?P<unknown> \x10 [\x90-\x9F] )
    | (?P<short> . )
    """,
    re.VERBOSE | re.DOTALL,
)


def code_lengths(payload):
    """[K4]; [R21] or [R22], whichever is met first from the left"""
    found = list(CODE.finditer(payload))
    for code in found:
        refuse_if(code["unknown"], 21)
        refuse_if(code["short"], 22)
    return [len(code[0]) for code in found]


def code_counts(packet):
    """[K6]"""
    return [len(code_lengths(block.payload)) for block in packet.blocks]


# The multiplexer


class Sum(NamedTuple):
    """Where a sum of the carrying mode stands: its rate, what was left over when it began, in parts of numer, and the writes since.

    Without numbers it is one that is to start afresh."""

    numer: int = 0
    denom: int = 0
    pair_rest: int = 0
    triple_rest: int = 0
    writes: int = 0

    def due(self):
        """The pairs and the triples of all the writes together, with what was left over before them."""
        seconds = Fraction(self.writes * self.denom, self.numer)
        rests = Fraction(self.pair_rest, self.numer), Fraction(self.triple_rest, self.numer)
        return rests[0] + PAIRS * seconds, rests[1] + TRIPLES * seconds

    def within(self):
        return max(self.pair_rest, self.triple_rest) < self.numer or self == Sum()


class Multiplexer(NamedTuple):
    pair_padding: bool = False
    output_padding: bool = False
    carrying: bool = False
    true_count: bool = False
    sum: Sum = Sum()
    packets: tuple = ()  # no triple of which has left
    sending: tuple = ()  # the triples left of the packet being sent
    field1: tuple = ()
    field2: tuple = ()
    next_field: int = 1


def switch(mux, bits):
    """[W12] and [W17]; the sum of the carrying mode goes on only where the mode was on and stays on."""
    pair_padding, output_padding, carrying, true_count = (bits >> place & 1 == 1 for place in range(4))
    kept = mux.sum if mux.carrying and carrying else Sum()
    return mux._replace(pair_padding=pair_padding, output_padding=output_padding, carrying=carrying, true_count=true_count, sum=kept)


def push_packet(mux, packet):
    """[W10]"""
    if not packet.blocks:
        return mux
    refuse_if(len(mux.packets) == 16, 10)
    return mux._replace(packets=(*mux.packets, packet))


def push_pair(mux, field, pair):
    """[W11]"""
    if pair == b"\x80\x80":
        return mux
    name = f"field{field}"
    queue = getattr(mux, name)
    refuse_if(len(queue) == 64, 10)
    return mux._replace(**{name: (*queue, pair)})


def flush(mux):
    """[W13]; a sum starts afresh."""
    return mux._replace(packets=(), sending=(), field1=(), field2=(), sum=Sum())


def nearest(number):
    """The nearest whole number, halves up."""
    return floor(number + Fraction(1, 2))


def budgets(mux, numer, denom):
    """The pairs and the triples of the next frame at this rate ([G1], [G2]), and the sum that it leaves."""
    refuse_if(numer == 0, 8)
    seconds = Fraction(denom, numer)
    pairs, triples = nearest(PAIRS * seconds), nearest(TRIPLES * seconds)
    refuse_if(pairs == 0 or triples > MOST_TRIPLES, 8)
    if not mux.carrying:
        return pairs, triples, mux.sum
    refuse_if(TRIPLES * seconds > MOST_TRIPLES, 8)
    before = mux.sum if (mux.sum.numer, mux.sum.denom) == (numer, denom) else Sum(numer, denom)
    after = before._replace(writes=before.writes + 1)
    pairs, triples = (floor(now) - floor(then) for now, then in zip(after.due(), before.due()))
    return pairs, triples, after


def pair_triples(mux, turns):
    """What so many turns send ([W4] to [W6]), and the queues and the next field after them."""
    sent, queues, field = [], {1: list(mux.field1), 2: list(mux.field2)}, mux.next_field
    for _ in range(turns):
        if queues[field]:
            sent.append(bytes([0xFB + field]) + queues[field].pop(0))
        elif field == 1 and queues[2]:
            sent.append(b"\xFC\x80\x80")
        elif mux.pair_padding:
            sent.append(bytes([0xF7 + field, 0x80, 0x80]))
        field = 3 - field
    return sent, mux._replace(field1=tuple(queues[1]), field2=tuple(queues[2]), next_field=field)


def left_to_send(mux, triples):
    """The multiplexer of which these packet triples have not left: the last of all that there were."""
    starts = [place for place, triple in enumerate(triples) if triple[0] == 0xFF]
    sending = triples[: starts[0]] if starts else triples
    return mux._replace(sending=tuple(sending), packets=mux.packets[len(mux.packets) - len(starts) :])


def write(mux, numer, denom):
    """The next frame ([W1] to [W3], [W7] to [W9], [W17]), and the multiplexer behind it."""
    pairs, triples, behind = budgets(mux, numer, denom)
    wanted = max(len(mux.field1), 2 * len(mux.field2))
    turns = pairs if mux.pair_padding else min(pairs, wanted)
    unsent = [*mux.sending, *(triple for packet in mux.packets for triple in packet_triples(packet))]
    sent, mux = pair_triples(mux, turns)
    counted = len(sent) if mux.true_count else turns
    count = triples if mux.output_padding else min(triples, counted + len(unsent))
    room = count - len(sent)
    sent += unsent[:room]
    if mux.output_padding:
        sent += [b"\xFA\x00\x00"] * (count - len(sent))
    return bytes([0xC0 + count, 0xFF]) + b"".join(sent), left_to_send(mux, unsent[room:])._replace(sum=behind)


def durations(mux):
    """[D1] to [D3]"""
    pair, two_bytes = Fraction(1001 * 10**6, 60000), Fraction(2002 * 10**6, 1200000)
    size = sum(map(packet_length, mux.packets)) + 3 * len(mux.sending)
    return ceil(len(mux.field1) * pair), ceil(len(mux.field2) * pair), ceil((size + 1) // 2 * two_bytes)


# Distribution packets


class Distribution(NamedTuple):
    """The counter that the reader accepted last, if there is one, and the counter that the writer gives next."""

    last: int | None = None
    following: int = 0


MARK = b"\x96\x69"
RATE_CODES = range(1, 9)
DISTRIBUTION_SIZES = range(13, 107, 3)
# The bits of the rate's byte, of the flags and of the count's byte that go unread, as they are written, by the byte's place.
UNREAD = {3: (0x0F, 0x0F), 4: (0x5F, 0x43), 8: (0xE0, 0xE0)}


def distribution_packet(code, counter, triples):
    """The packet that is written of these."""
    twice = counter.to_bytes(2, "big")
    front = MARK + bytes([13 + len(triples), 16 * code + 15, 0x43]) + twice
    data = front + bytes([0x72, 0xE0 + len(triples) // 3]) + triples + b"\x74" + twice
    return data + bytes([-sum(data) % 256])


def differing(data, code, counter):
    """The places, but for the last byte, at which a packet of a possible size is not the one that is written of what it says."""
    written = distribution_packet(code, counter, data[9:-4])
    seen = bytearray(data)
    for place, (bits, usual) in UNREAD.items():
        seen[place] = seen[place] & ~bits | usual
    return {place for place in range(len(data) - 1) if seen[place] != written[place]}


def newer(counter, last):
    """Whether the way from the last counter, as a signed number of 16 bits, goes ahead."""
    way = (counter - last) % 2**16
    return int.from_bytes(way.to_bytes(2, "big"), "big", signed=True) > 0


def read_distribution(state, data):
    """The code, the counter and the frame of a packet, and the state behind it."""
    refuse_if(data[:2] != MARK, 16)
    refuse_if(len(data) not in DISTRIBUTION_SIZES or data[3] // 16 not in RATE_CODES, 17)
    code, counter, behind = data[3] // 16, data[5] * 256 + data[6], {len(data) - 3, len(data) - 2}
    wrong = differing(data, code, counter)
    reasons = {17} if wrong - behind else set()
    reasons |= {19} if wrong & behind else set()
    reasons |= {18} if sum(data) % 256 else set()
    reasons |= {20} if state.last is not None and not newer(counter, state.last) else set()
    refuse_if(reasons, *sorted(reasons)[:1])
    frame = bytes([0xC0 + len(data[9:-4]) // 3, 0xFF]) + data[9:-4]
    return code, counter, frame, state._replace(last=counter)


def write_distribution(state, code, frame):
    """The packet of a frame, and the state behind it."""
    said = [(first % 32, 0) for first in frame[:1]]
    refuse_if(code not in RATE_CODES or said != [divmod(len(frame) - 2, 3)], 17)
    return distribution_packet(code, state.following, frame[2:]), state._replace(following=(state.following + 1) % 2**16)


# The operations

ANY = range(255)
# By letter, how many argument bytes: the calls on the multiplexer, those on blocks, packets and payloads, those on distribution packets, and
# all. `R` is of the demultiplexer, which is not reckoned.
CALLS = {"S": [1], "q": [0], "1": [2], "2": [2], "w": [9], "u": [0], "x": [0]}
VALUES = {"b": [1], "c": ANY, "d": ANY, "p": ANY, "t": ANY, "k": [1], "v": [0], "a": ANY[1:], "g": ANY, "G": [0]}
DISTRIBUTIONS = {"X": [0], "<": ANY, "Y": [2], ">": ANY[2:]}
OPERATIONS = {**VALUES, "R": [0], "W": [0], "C": [16], **CALLS, **DISTRIBUTIONS}
FRESH = Block(1), Packet(0), Multiplexer(), Distribution()
# Where among the arguments the length of a lent output stands.
LENT = {"w": 8, ">": 1}


def numbers(args):
    """The four-byte numbers in a row of bytes, the highest byte first."""
    return [int.from_bytes(args[at : at + 4], "big") for at in range(0, len(args), 4)]


def hexed(data):
    return data.hex().upper() or "-"


def output(length):
    """A lent output as it is before a call."""
    return b"\xA5" * length


def put(data, length):
    """What is told of bytes that are written to a lent output of this length."""
    refuse_if(len(data) > length, 9, len(data))
    return len(data), hexed(data + output(length - len(data)))


def carry_out(state, letter, args):
    """The state behind an operation, and the values that it tells."""
    s, p, w, x = state
    values = ()
    refuse_if(letter in CALLS and not w.sum.within(), 11)
    match letter:
        case "b": s = new_block(args[0])
        case "c": s = push_to_block(s, args)
        case "d":
            s, _ = read_block(args)
            values = s.number, hexed(s.payload)
        case "p" | "t":
            p = read_packet(args, letter == "t")
            values = p.sequence, *(f"{number}:{hexed(payload)}" for number, payload in p.blocks)
        case "k": p = new_packet(args[0])
        case "v": p = push_block(p, s)
        case "a": p = push_run(p, args[0], args[1:])
        case "g": values = code_lengths(args)
        case "G": values = code_counts(p)
        case "W": w = Multiplexer()
        case "S": w = switch(w, args[0])
        case "q": w = push_packet(w, p)
        case "1" | "2": w = push_pair(w, int(letter), args)
        case "x": w = flush(w)
        case "C": w = w._replace(sum=Sum(*numbers(args)))
        case "u": values = durations(w)
        case "w":
            frame, w = write(w, *numbers(args[:8]))
            values = put(frame, args[8])
        case "X": x = x._replace(last=None)
        case "Y": x = x._replace(following=args[0] * 256 + args[1])
        case "<":
            code, counter, frame, x = read_distribution(x, args)
            values = code, counter, hexed(frame)
        case ">":
            packet, x = write_distribution(x, args[0], args[2:])
            values = put(packet, args[1])
    return (s, p, w, x), values


def answer(state, record):
    """What one record prints, and the state behind it."""
    letter, args = chr(record[0]), bytes(record[1:])
    if len(args) not in OPERATIONS[letter]:
        return "bad", state
    try:
        state, values = carry_out(state, letter, args)
        words = ["ok", *values]
    except Refused as refusal:
        words = ["refused", *refusal.args]
        if letter in LENT:
            words.append(hexed(output(args[LENT[letter]])))
    return " ".join(map(str, words)), state


def length_refusal(record):
    """Which length of a block or a packet that is read is wrong: the refusal's number and its values, or four times nothing."""
    try:
        carry_out(FRESH, chr(record[0]), bytes(record[1:]))
    except Refused as refusal:
        return refusal.args
    return None, None, None, None


def answers(records):
    state = FRESH
    for record in records:
        line, state = answer(state, record)
        yield line
