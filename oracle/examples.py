"""Operations with the lines that the rule book (docs/RULES.md) asks for: its examples, the true count, the carrying mode, the services of a
packet, codes, distribution packets, and raw fields set by `B`, `K`, `Z`, `D`, `Q` and `C`.

What follows a raw field is derived from the rules and not from the crate, whose fields are private: a value within the
limits is what its fields say, and every call on another is refused with 11 before anything else.
"""
import os, re

FILL = "A5"


def out(text, length):
    """The answer of a write to an output of so many bytes: how much was written, and all of the output."""
    data = text.replace(" ", "")
    return f"ok {len(data) // 2} {data}{FILL * (length - len(data) // 2)}"


def data(text):
    return list(bytes.fromhex(text))


FRAME = data("C3 FF FC 94 2C FF 82 21 FE 41 00")

TABLE = [
    # packets read, plainly and tidily
    (("p", data("82 21 41 00")), "ok 2 1:41"),
    (("k", 2), "ok"),
    (("a", 1, [0x41]), "ok"),
    (("o", 4), "ok 4 82214100"),
    (("p", data("02 E1 07 41")), "ok 0 7:41"),
    (("p", data("02 E1 01 41")), "refused 15 2 1 3"),
    (("p", data("02 01 21 41")), "ok 0 1:41"),
    (("t", data("02 01 21 41")), "ok 0"),
    (("p", data("03 21 41 1F 21 42")), "refused 15 32 3 3"),
    (("t", data("03 21 41 1F 21 42")), "ok 0 1:41"),
    (("p", data("04 21 41 E1 00 42 21 43")), "ok 0 1:41 2:2143"),
    (("t", data("04 21 41 E1 00 42 21 43")), "ok 0 1:41"),
    (("t", data("02 21 41 E1")), "refused 14 2 1 3"),
    (("p", data("01 21 41 00")), "refused 13 2 4 0"),
    (("p", data("08 21 41")), "ok 0 1:41"),
    (("t", data("08 21 41")), "refused 13 16 3 0"),
    (("p", data("04 21 41 E2")), "refused 14 2 1 3"),
    (("p", data("04 21 41 E2 07 42")), "refused 15 4 3 3"),
    (("p", []), "refused 13 1 0 0"),
    (("t", []), "refused 13 1 0 0"),
    (("d", []), "refused 14 1 0 0"),
    (("d", data("22 41")), "refused 15 3 2 0"),
    # a packet cut at every byte
    (("p", data("04")), "ok 0"),
    (("p", data("04 21")), "refused 15 2 1 1"),
    (("p", data("04 21 41")), "ok 0 1:41"),
    (("p", data("04 21 41 E2")), "refused 14 2 1 3"),
    (("p", data("04 21 41 E2 07")), "refused 15 4 2 3"),
    (("p", data("04 21 41 E2 07 42")), "refused 15 4 3 3"),
    (("p", data("04 21 41 E2 07 42 43")), "ok 0 1:41 7:4243"),
    (("p", data("04 21 41 E2 07 42 43 00")), "ok 0 1:41 7:4243"),
    (("p", data("04 21 41 E2 07 42 43 00 00")), "refused 13 8 9 0"),
    # frames read
    (("R",), "ok"),
    (("H",), "ok"),
    (("f", data("C2 FF FF 02 21")), "refused 12 8 5"),
    (("f", data("C2 FF FA 00 00 FC 94 2C")), "refused 2 3"),
    (("f", data("C1 FF FF 02 21")), "ok"),
    (("n",), "ok none"),
    (("f", data("C1 FF FE 41 00")), "ok"),
    (("n",), "ok packet 0 1:41"),
    (("f", data("C2 FF FF 04 00 FF 02 21")), "ok"),
    (("n",), "ok packet 0"),
    (("n",), "ok none"),
    (("f", data("C1 FF FE 41 00")), "ok"),
    (("n",), "ok packet 0 1:41"),
    # frames written
    (("W",), "ok"),
    (("2", 0x15, 0x2C), "ok"),
    (("w", 30, 1, 95), out("C2 FF FC 80 80 FD 15 2C", 95)),
    (("W",), "ok"),
    (("1", 0x94, 0x2C), "ok"),
    (("1", 0x94, 0x2C), "ok"),
    (("p", data("82 21 41 00")), "ok 2 1:41"),
    (("q",), "ok"),
    (("w", 30, 1, 11), out("C4 FF FC 94 2C FF 82 21 FE 41 00", 11)),
    (("f", data("C4 FF FC 94 2C FF 82 21 FE 41 00")), "refused 12 14 11"),
    (("W",), "ok"),
    (("S", 0, 0, 0, 1), "ok"),
    (("1", 0x94, 0x2C), "ok"),
    (("1", 0x94, 0x2C), "ok"),
    (("q",), "ok"),
    (("w", 30, 1, 11), out("C3 FF FC 94 2C FF 82 21 FE 41 00", 11)),
    (("f", data("C3 FF FC 94 2C FF 82 21 FE 41 00")), "ok"),
    (("n",), "ok field1 942C"),
    (("n",), "ok packet 2 1:41"),
    (("n",), "ok none"),
    (("W",), "ok"),
    (("S", 1, 0), "ok"),
    (("1", 0x94, 0x2C), "ok"),
    (("1", 0x94, 0x2C), "ok"),
    (("q",), "ok"),
    (("w", 30, 1, 13), "refused 9 14 " + FILL * 13),
    (("w", 30, 1, 14), out("C4 FF FC 94 2C F9 80 80 FF 82 21 FE 41 00", 14)),
    (("W",), "ok"),
    (("S", 1, 0, 0, 1), "ok"),
    (("1", 0x94, 0x2C), "ok"),
    (("1", 0x94, 0x2C), "ok"),
    (("q",), "ok"),
    (("w", 30, 1, 14), out("C4 FF FC 94 2C F9 80 80 FF 82 21 FE 41 00", 14)),
    (("W",), "ok"),
    (("S", 0, 1), "ok"),
    (("w", 60, 1, 95), out("CA FF" + "FA 00 00" * 10, 95)),
    (("W",), "ok"),
    (("w", 120, 1, 2), out("C0 FF", 2)),
    (("w", 121, 1, 2), "refused 8 A5A5"),
    (("w", 401, 21, 2), out("C0 FF", 2)),
    (("w", 400, 21, 2), "refused 8 A5A5"),
    # durations
    (("1", 0x94, 0x2C), "ok"),
    (("u",), "ok 16684 0 0"),
    (("W",), "ok"),
    (("k", 0), "ok"),
    (("a", 1, [0x41]), "ok"),
    (("l",), "ok 0 3 125 1"),
    (("q",), "ok"),
    (("q",), "ok"),
    (("u",), "ok 0 0 5005"),
]

def padded(pairs, triples, field=1):
    """The answer of a write with both paddings on and nothing queued, whose first turn is this field's, to an output of 95 bytes."""
    turns = "".join(["F8 80 80", "F9 80 80"][(field - 1 + turn) % 2] for turn in range(pairs))
    return out(f"{0xC0 + triples:02X} FF" + turns + "FA 00 00" * (triples - pairs), 95)


COUNTING = [
    # two pairs of field 1: two turns, of which the second, field 2's, sends nothing; it is counted, or with the true count it is not
    (("W",), "ok"),
    (("1", 0x94, 0x2C), "ok"),
    (("1", 0x94, 0x20), "ok"),
    (("w", 30, 1, 5), out("C2 FF FC 94 2C", 5)),
    (("w", 30, 1, 5), out("C1 FF FC 94 20", 5)),
    (("W",), "ok"),
    (("S", 0, 0, 0, 1), "ok"),
    (("1", 0x94, 0x2C), "ok"),
    (("1", 0x94, 0x20), "ok"),
    (("w", 30, 1, 5), out("C1 FF FC 94 2C", 5)),
    (("w", 30, 1, 5), out("C1 FF FC 94 20", 5)),
    # the turn was taken: the next is field 2's, and field 1's pair waits for its own
    (("1", 0x94, 0x2C), "ok"),
    (("w", 60, 1, 2), out("C0 FF", 2)),
    (("w", 60, 1, 5), out("C1 FF FC 94 2C", 5)),
    # field 2 begins: its pair, and then a turn of field 1 that finds nothing, for it was the last
    (("2", 0x15, 0x2C), "ok"),
    (("w", 30, 1, 5), out("C1 FF FD 15 2C", 5)),
    (("2", 0x15, 0x2C), "ok"),
    (("2", 0x15, 0x20), "ok"),
    (("w", 25, 1, 8), out("C2 FF FD 15 2C FC 80 80", 8)),
    (("w", 25, 1, 5), out("C1 FF FD 15 20", 5)),
    # without the true count the same is counted above what is sent
    (("S", 0, 0), "ok"),
    (("w", 60, 1, 2), out("C0 FF", 2)),
    (("2", 0x15, 0x2C), "ok"),
    (("2", 0x15, 0x2C), "ok"),
    (("w", 20, 1, 11), out("C3 FF FD 15 2C FC 80 80 FD 15 2C", 11)),
    (("2", 0x15, 0x2C), "ok"),
    (("w", 30, 1, 8), out("C2 FF FC 80 80 FD 15 2C", 8)),
    # with a padding on nothing changes
    (("S", 1, 0, 0, 1), "ok"),
    (("1", 0x94, 0x2C), "ok"),
    (("w", 30, 1, 8), out("C2 FF FC 94 2C F9 80 80", 8)),
    (("S", 0, 1, 0, 1), "ok"),
    (("1", 0x94, 0x2C), "ok"),
    (("1", 0x94, 0x2C), "ok"),
    (("w", 60, 1, 32), out("CA FF FC 94 2C" + "FA 00 00" * 9, 32)),
    (("S", 1, 1, 0, 1), "ok"),
    (("w", 60, 1, 32), out("CA FF F9 80 80" + "FA 00 00" * 9, 32)),
    # a flush leaves the switch; so does a write that is refused
    (("S", 0, 0, 0, 1), "ok"),
    (("x",), "ok"),
    (("1", 0x94, 0x2C), "ok"),
    (("1", 0x94, 0x20), "ok"),
    (("w", 30, 1, 4), "refused 9 5 A5A5A5A5"),
    (("w", 121, 1, 5), "refused 8 A5A5A5A5A5"),
    (("w", 30, 1, 5), out("C1 FF FC 94 2C", 5)),
    # the other bits are not looked at
    (("raw", [0x53, 0xF8]), "ok"),
    (("w", 30, 1, 5), out("C1 FF FC 94 20", 5)),
]

# Beside a rate stands what is due in each frame, and so what its frames get.
CARRYING = [
    # 24/1: 2.5 pairs, so two and three in turn; 25 triples
    (("W",), "ok"),
    (("S", 1, 1, 1), "ok"),
    (("w", 24, 1, 95), padded(2, 25)),
    (("w", 24, 1, 95), padded(3, 25)),
    (("w", 24, 1, 95), padded(2, 25, 2)),
    (("w", 24, 1, 95), padded(3, 25, 2)),
    # without the mode the 2.5 are 3 each time
    (("S", 1, 1), "ok"),
    (("w", 24, 1, 95), padded(3, 25)),
    (("w", 24, 1, 95), padded(3, 25, 2)),
    # turned on when it is on, the sum goes on; turned off and on, it starts afresh
    (("S", 1, 1, 1), "ok"),
    (("w", 24, 1, 95), padded(2, 25)),
    (("S", 1, 1, 1), "ok"),
    (("w", 24, 1, 95), padded(3, 25)),
    (("w", 24, 1, 95), padded(2, 25, 2)),
    (("S", 1, 1, 0), "ok"),
    (("S", 1, 1, 0), "ok"),
    (("S", 1, 1, 1), "ok"),
    (("w", 24, 1, 95), padded(2, 25, 2)),
    # a flush starts it afresh, and leaves the mode
    (("x",), "ok"),
    (("w", 24, 1, 95), padded(2, 25, 2)),
    (("w", 24, 1, 95), padded(3, 25, 2)),
    # so does another rate: 25/1 has 2.4 pairs and 24 triples; 48/2 is another than 24/1
    (("W",), "ok"),
    (("S", 1, 1, 1), "ok"),
    (("w", 24, 1, 95), padded(2, 25)),
    (("w", 25, 1, 95), padded(2, 24)),
    (("w", 24, 1, 95), padded(2, 25)),
    (("w", 48, 2, 95), padded(2, 25)),
    (("w", 48, 2, 95), padded(3, 25)),
    (("w", 48, 2, 95), padded(2, 25, 2)),
    (("w", 24, 1, 95), padded(2, 25, 2)),
    # the same numer is not enough: 100/1 has 0.6 pairs and 6 triples, 100/4 has 2.4 and 24
    (("w", 100, 1, 95), padded(0, 6)),
    (("w", 100, 4, 95), padded(2, 24, 2)),
    (("w", 100, 1, 95), padded(0, 6)),
    # at 25/1 the pairs of five frames are 12: 2, 4, 7, 9, 12
    (("W",), "ok"),
    (("S", 1, 1, 1), "ok"),
    (("w", 25, 1, 95), padded(2, 24)),
    (("w", 25, 1, 95), padded(2, 24)),
    (("w", 25, 1, 95), padded(3, 24)),
    (("w", 25, 1, 95), padded(2, 24, 2)),
    (("w", 25, 1, 95), padded(3, 24, 2)),
    # a refused write changes nothing, whatever its rate
    (("W",), "ok"),
    (("S", 1, 1, 1), "ok"),
    (("w", 24, 1, 95), padded(2, 25)),
    (("w", 24, 1, 3), "refused 9 77 A5A5A5"),
    (("w", 25, 1, 0), "refused 9 74 -"),
    (("w", 401, 21, 1), "refused 8 A5"),
    (("w", 0, 1, 1), "refused 8 A5"),
    (("w", 24, 1, 95), padded(3, 25)),
    # pushes leave the sum
    (("W",), "ok"),
    (("S", 0, 0, 1), "ok"),
    (("w", 24, 1, 2), out("C0 FF", 2)),
    (("k", 2), "ok"),
    (("a", 1, [0x41]), "ok"),
    (("q",), "ok"),
    (("1", 0x94, 0x2C), "ok"),
    (("1", 0x94, 0x2C), "ok"),
    (("1", 0x94, 0x2C), "ok"),
    (("w", 24, 1, 14), out("C5 FF FC 94 2C FC 94 2C FF 82 21 FE 41 00", 14)),
    # the true count is free of the mode: at 24/1 three turns, of which the second sends nothing
    (("W",), "ok"),
    (("S", 0, 0, 1, 1), "ok"),
    (("w", 24, 1, 2), out("C0 FF", 2)),
    (("1", 0x94, 0x2C), "ok"),
    (("1", 0x94, 0x20), "ok"),
    (("1", 0x94, 0x25), "ok"),
    (("w", 24, 1, 8), out("C2 FF FC 94 2C FC 94 20", 8)),
    (("w", 24, 1, 2), out("C0 FF", 2)),
    (("S", 0, 0, 1, 0), "ok"),
    (("w", 24, 1, 5), out("C1 FF FC 94 25", 5)),
    (("1", 0x94, 0x2C), "ok"),
    (("w", 24, 1, 2), out("C1 FF", 2)),
    # 24000/1001: 25.025 triples, so 25 in 39 frames and 26 in the fortieth
    (("W",), "ok"),
    (("S", 0, 1, 1), "ok"),
    *[(("w", 24000, 1001, 95), padded(0, 25))] * 39,
    (("w", 24000, 1001, 95), padded(0, 26)),
    (("w", 24000, 1001, 95), padded(0, 25)),
    # 120/1: half a pair, so none and one in turn; 5 triples
    (("W",), "ok"),
    (("S", 1, 1, 1), "ok"),
    (("w", 120, 1, 95), padded(0, 5)),
    (("w", 120, 1, 95), padded(1, 5)),
    (("w", 120, 1, 95), padded(0, 5)),
    (("w", 120, 1, 95), padded(1, 5, 2)),
    (("S", 0, 0, 1), "ok"),
    (("1", 0x94, 0x2C), "ok"),
    (("w", 120, 1, 2), out("C0 FF", 2)),
    (("w", 120, 1, 5), out("C1 FF FC 94 2C", 5)),
    # refusal 8: more than 31 triples are due, though rounded they are 31
    (("W",), "ok"),
    (("w", 401, 21, 2), out("C0 FF", 2)),
    (("w", 599, 31, 2), out("C0 FF", 2)),
    (("S", 0, 0, 1), "ok"),
    (("w", 401, 21, 2), "refused 8 A5A5"),
    (("w", 599, 31, 2), "refused 8 A5A5"),
    (("w", 600, 31, 2), out("C0 FF", 2)),
    (("w", 400, 21, 2), "refused 8 A5A5"),
    (("w", 121, 1, 2), "refused 8 A5A5"),
    (("w", 0, 1, 2), "refused 8 A5A5"),
    (("w", 24, 0, 2), "refused 8 A5A5"),
    (("S", 0, 1, 1), "ok"),
    (("w", 600, 31, 95), padded(0, 31)),
    (("w", 600, 31, 95), padded(0, 31)),
    # carried parts: (12 + 60) / 24 pairs and (23 + 600) / 24 triples, then (0 + 60) / 24 and (23 + 600) / 24
    (("W",), "ok"),
    (("S", 1, 1, 1), "ok"),
    (("C", 24, 1, 12, 23), "ok"),
    (("w", 24, 1, 95), padded(3, 25)),
    (("w", 24, 1, 95), padded(2, 25, 2)),
    (("C", 24, 1, 12, 0), "ok"),
    (("w", 48, 2, 95), padded(2, 25, 2)),
    # at 24000/1001 each frame adds 600 to the rest of the triples: 23400 and 600 are a whole triple
    (("C", 24000, 1001, 0, 23400), "ok"),
    (("w", 24000, 1001, 95), padded(2, 26, 2)),
    (("C", 24000, 1001, 0, 23399), "ok"),
    (("w", 24000, 1001, 95), padded(2, 25, 2)),
    (("w", 24000, 1001, 95), padded(3, 26, 2)),
    # another number of argument bytes
    (("raw", [0x43] + [0] * 15), "bad"),
    (("raw", [0x43] + [0] * 17), "bad"),
    (("raw", [0x43]), "bad"),
    (("w", 24000, 1001, 95), padded(2, 25)),
    # a rest that is not below numer: every call is refused with 11, and changes nothing
    (("C", 24, 1, 24, 0), "ok"),
    (("u",), "refused 11"),
    (("S", 0, 0, 0), "refused 11"),
    (("S", 1, 1, 1), "refused 11"),
    (("1", 0x80, 0x80), "refused 11"),
    (("2", 1, 2), "refused 11"),
    (("q",), "refused 11"),
    (("w", 24, 1, 2), "refused 11 A5A5"),
    (("w", 0, 1, 2), "refused 11 A5A5"),
    (("x",), "refused 11"),
    (("C", 24, 1, 23, 23), "ok"),
    (("u",), "ok 0 0 0"),
    (("C", 24, 1, 0, 24), "ok"),
    (("u",), "refused 11"),
    (("C", 0, 0, 0, 0), "ok"),
    (("u",), "ok 0 0 0"),
    (("C", 0, 0, 0, 1), "ok"),
    (("u",), "refused 11"),
    (("C", 0, 1, 0, 0), "ok"),
    (("u",), "refused 11"),
    (("C", 24, 0, 0, 0), "ok"),
    (("u",), "ok 0 0 0"),
    (("w", 24, 1, 95), padded(2, 25)),
    (("w", 24, 1, 95), padded(3, 25)),
    # the same with the mode off, where parts within the limits make no difference
    (("W",), "ok"),
    (("C", 24, 1, 24, 0), "ok"),
    (("w", 24, 1, 2), "refused 11 A5A5"),
    (("S", 0, 0), "refused 11"),
    (("x",), "refused 11"),
    (("C", 24, 1, 23, 23), "ok"),
    (("S", 1, 1), "ok"),
    (("w", 24, 1, 95), padded(3, 25)),
    (("C", 24, 1, 23, 23), "ok"),
    (("w", 24, 1, 95), padded(3, 25, 2)),
    (("S", 1, 1, 1), "ok"),
    (("w", 24, 1, 95), padded(2, 25)),
]

# The numbers of the blocks stand beside each packet.
SERVICES = [
    (("k", 0), "ok"),
    (("z",), "ok 0000000000000000 0"),
    # 1; 1 again, in the same block; 1, 63; 1, 63, 1; 1, 63, 1, 2
    (("a", 1, [0x41] * 30), "ok"),
    (("z",), "ok 0000000000000002 1"),
    (("a", 1, [0x42]), "ok"),
    (("z",), "ok 0000000000000002 1"),
    (("a", 63, [0x43]), "ok"),
    (("z",), "ok 8000000000000002 2"),
    (("a", 1, [0x44]), "ok"),
    (("l",), "ok 0 38 90 3"),
    (("z",), "ok 8000000000000002 2"),
    (("i", 2, [0x45]), "ok"),
    (("z",), "ok 8000000000000006 3"),
    # a push that is refused leaves the set
    (("a", 7, [0x46] * 32), "refused 3 1"),
    (("z",), "ok 8000000000000006 3"),
    # 2 twice, plainly and tidily; behind the null header nothing is a block of the tidy reader's
    (("p", data("44 41 41 41 42 00 21 43")), "ok 1 2:41 2:42 1:43"),
    (("z",), "ok 0000000000000006 2"),
    (("t", data("44 41 41 41 42 00 21 43")), "ok 1 2:41 2:42"),
    (("z",), "ok 0000000000000004 1"),
    # a block that is pushed: 2, 2, 6
    (("b", 6), "ok"),
    (("c", [0x47]), "ok"),
    (("v",), "ok"),
    (("z",), "ok 0000000000000044 2"),
    # other sets: one service more, one less, service 0, each bit moved up; every call is refused with 11, and changes nothing
    (("Z", 0x4C), "ok"),
    (("z",), "refused 11"),
    (("Z", 0x40), "ok"),
    (("z",), "refused 11"),
    (("Z", 0x45), "ok"),
    (("z",), "refused 11"),
    (("Z", 0x88), "ok"),
    (("z",), "refused 11"),
    (("l",), "refused 11"),
    (("o", 2), "refused 11 A5A5"),
    (("a", 2, [1]), "refused 11"),
    (("a", 64, []), "refused 11"),
    (("i", 2, [1]), "refused 11"),
    (("v",), "refused 11"),
    (("W",), "ok"),
    (("q",), "refused 11"),
    (("Z", 0x44), "ok"),
    (("z",), "ok 0000000000000044 2"),
    (("o", 8), "ok 8 4441414142C14700"),
    # fewer blocks: the set is still that of all three
    (("K", 1, 2), "ok"),
    (("z",), "refused 11"),
    (("Z", 4), "ok"),
    (("z",), "ok 0000000000000004 1"),
    # another number of argument bytes
    (("raw", [0x7A, 0]), "bad"),
    (("raw", [0x5A] + [0] * 7), "bad"),
    (("raw", [0x5A] + [0] * 9), "bad"),
    (("z",), "ok 0000000000000004 1"),
]

CODES = [
    (("g", []), "ok"),
    (("g", data("41 42 43")), "ok 1 1 1"),
    (("g", data("10 80 01 02 03 04")), "ok 6"),
    (("g", data("91 01 02 03")), "ok 4"),
    # a 10 that is the last byte, a length that is not known, a code that the end cuts
    (("g", data("10")), "refused 22"),
    (("g", data("10 90")), "refused 21"),
    (("g", data("98 41")), "refused 22"),
    # what is met first from the left: the unknown length before the cut code, and a cut code to which 10 90 belongs
    (("g", data("41 10 90 98")), "refused 21"),
    (("g", data("41 98 10 90")), "refused 22"),
    # bytes that belong to a code begin none
    (("g", data("98 10 90 10 90 10 90")), "ok 7"),
    (("g", data("11 10 90 10 90 12 10")), "ok 2 3 2"),
    # both ends of each range of first bytes
    (("g", data("00 0F")), "ok 1 1"),
    (("g", data("11 01 17 01")), "ok 2 2"),
    (("g", data("18 01 02 1F 01 02")), "ok 3 3"),
    (("g", data("20 87")), "ok 1 1"),
    (("g", data("88 01 8D 01")), "ok 2 2"),
    (("g", data("8E 8F")), "ok 1 1"),
    (("g", data("90 01 02 91 01 02 03 92 01 02")), "ok 3 4 3"),
    (("g", data("93 96")), "ok 1 1"),
    (("g", data("97 01 02 03 04")), "ok 5"),
    (("g", data("98 01 02 03 04 05 06 9F 01 02 03 04 05 06")), "ok 7 7"),
    (("g", data("A0 FF")), "ok 1 1"),
    # and of bytes behind 10
    (("g", data("10 00 10 07")), "ok 2 2"),
    (("g", data("10 08 01 10 0F 01")), "ok 3 3"),
    (("g", data("10 10 01 02 10 17 01 02")), "ok 4 4"),
    (("g", data("10 18 01 02 03 10 1F 01 02 03")), "ok 5 5"),
    (("g", data("10 20 10 7F")), "ok 2 2"),
    (("g", data("10 80 01 02 03 04 10 87 01 02 03 04")), "ok 6 6"),
    (("g", data("10 88 01 02 03 04 05 10 8F 01 02 03 04 05")), "ok 7 7"),
    (("g", data("10 9F")), "refused 21"),
    (("g", data("10 A0 10 FF")), "ok 2 2"),
    # blocks of a packet: whole codes; an unknown length in the second; a second block whose last byte belongs to its code
    (("p", data("06 26 41 97 01 02 03 04 43 10 08 05")), "ok 0 1:419701020304 2:100805"),
    (("G",), "ok 2 1"),
    (("p", data("06 26 41 97 01 02 03 04 43 10 98 05")), "ok 0 1:419701020304 2:109805"),
    (("G",), "refused 21"),
    (("p", data("06 26 41 97 01 02 03 04 43 10 08 88")), "ok 0 1:419701020304 2:100888"),
    (("G",), "ok 2 1"),
    # a cut code in the first block stands before the unknown length in the second; a block's end cuts, whatever follows it
    (("p", data("04 21 88 42 10 90")), "ok 0 1:88 2:1090"),
    (("G",), "refused 22"),
    (("p", data("04 42 10 90 21 88")), "ok 0 2:1090 1:88"),
    (("G",), "refused 21"),
    # a payload that comes in two runs is one
    (("k", 0), "ok"),
    (("G",), "ok"),
    (("a", 1, [0x88]), "ok"),
    (("G",), "refused 22"),
    (("a", 1, [0x41]), "ok"),
    (("G",), "ok 1"),
    # another number of argument bytes
    (("raw", [0x47, 0]), "bad"),
    (("G",), "ok 1"),
]

# What breaks a limit is refused before any code is looked at.
CODES_RAW = [
    (("k", 0), "ok"),
    (("G",), "ok"),
    (("K", 0, 1), "ok"),
    (("G",), "refused 11"),
    (("g", data("10 90")), "refused 21"),
    (("p", data("06 26 41 97 01 02 03 04 43 10 98 05")), "ok 0 1:419701020304 2:109805"),
    (("K", 4, 2), "ok"),
    (("G",), "refused 11"),
    (("K", 3, 2), "ok"),
    (("G",), "refused 21"),
    (("Z", 2), "ok"),
    (("G",), "refused 11"),
    (("K", 3, 1), "ok"),
    (("G",), "ok 2"),
]

def bare(counter):
    """A distribution packet of no triples at 30000/1001. Without its counters and its last byte it sums to 868, which is 100 above three times
    256, so that with 156 and no counter the sum is 0."""
    high, low = divmod(counter, 256)
    return [0x96, 0x69, 13, 0x4F, 0x43, high, low, 0x72, 0xE0, 0x74, high, low, (156 - 2 * (high + low)) % 256]


def behind(last, *ways):
    """A fresh reader takes a counter, and then packets that lie so far ahead of it, each beside whether it is newer than what was accepted."""
    yield ("X",), "ok"
    yield ("<", bare(last)), f"ok 4 {last} C0FF"
    for way, newer in ways:
        counter = (last + way) % 65536
        yield ("<", bare(counter)), f"ok 4 {counter} C0FF" if newer else "refused 20"


PAIR_AND_START = "FC 94 2C FF 02 21"
TWO = data("C2 FF" + PAIR_AND_START)

DISTRIBUTION = [
    # written, and the counter moves on; what stands behind the packet stays; read back in order, and once
    (("X",), "ok"),
    (("Y", 0, 0), "ok"),
    ((">", 4, 20, TWO), out("96 69 13 4F 43 00 00 72 E2 FC 94 2C FF 02 21 74 00 00 B6", 20)),
    ((">", 4, 19, TWO), out("96 69 13 4F 43 00 01 72 E2 FC 94 2C FF 02 21 74 00 01 B4", 19)),
    ((">", 8, 13, data("C0 FF")), out("96 69 0D 8F 43 00 02 72 E0 74 00 02 58", 13)),
    ((">", 4, 106, data("DF FF" + "FA 00 00" * 31)), out("96 69 6A 4F 43 00 03 72 FF" + "FA 00 00" * 31 + "74 00 03 D4", 106)),
    (("<", data("96 69 13 4F 43 00 00 72 E2 FC 94 2C FF 02 21 74 00 00 B6")), "ok 4 0 C2FFFC942CFF0221"),
    (("<", data("96 69 13 4F 43 00 01 72 E2 FC 94 2C FF 02 21 74 00 01 B4")), "ok 4 1 C2FFFC942CFF0221"),
    (("<", data("96 69 13 4F 43 00 01 72 E2 FC 94 2C FF 02 21 74 00 01 B4")), "refused 20"),
    (("<", data("96 69 0D 8F 43 00 02 72 E0 74 00 02 58")), "ok 8 2 C0FF"),
    (("<", data("96 69 6A 4F 43 00 03 72 FF" + "FA 00 00" * 31 + "74 00 03 D4")), "ok 4 3 DFFF" + "FA0000" * 31),
    (("<", data("96 69 13 4F 43 00 00 72 E2 FC 94 2C FF 02 21 74 00 00 B6")), "refused 20"),
    (("X",), "ok"),
    (("<", data("96 69 13 4F 43 00 00 72 E2 FC 94 2C FF 02 21 74 00 00 B6")), "ok 4 0 C2FFFC942CFF0221"),
    # 16: no bytes, one, another first or second byte; behind a right mark it is 17
    (("X",), "ok"),
    (("<", []), "refused 16"),
    (("<", data("96")), "refused 16"),
    (("<", data("96 69")), "refused 17"),
    (("<", data("97 69 0D 4F 43 00 00 72 E0 74 00 00 9B")), "refused 16"),
    (("<", data("96 68 0D 4F 43 00 00 72 E0 74 00 00 9D")), "refused 16"),
    (("<", data("69 96 0D 4F 43 00 00 72 E0 74 00 00 9C")), "refused 16"),
    # 17, lengths: what the length's byte says, one byte fewer or more; the fewest bytes, and one fewer; a byte that belongs to no triple
    (("<", data("96 69 0C 4F 43 00 00 72 E0 74 00 00 9D")), "refused 17"),
    (("<", data("96 69 0E 4F 43 00 00 72 E0 74 00 00 9B")), "refused 17"),
    (("<", data("96 69 0D 4F 43 00 00 72 E0 74 00 00")), "refused 17"),
    (("<", data("96 69 0D 4F 43 00 00 72 E0 74 00 00 9C 00")), "refused 17"),
    (("<", data("96 69 0C 4F 43 00 00 72 74 00 00 7D")), "refused 17"),
    (("<", data("96 69 0E 4F 43 00 00 72 E0 00 74 00 00 9B")), "refused 17"),
    # 17, the count: one fewer and one more than there are triples
    (("<", data("96 69 13 4F 43 00 00 72 E1 FC 94 2C FF 02 21 74 00 00 B7")), "refused 17"),
    (("<", data("96 69 13 4F 43 00 00 72 E3 FC 94 2C FF 02 21 74 00 00 B5")), "refused 17"),
    # 17, the rate codes 0, 9 and 15; 1 to 8 are taken
    (("<", data("96 69 0D 0F 43 00 00 72 E0 74 00 00 DC")), "refused 17"),
    (("<", data("96 69 0D 9F 43 00 00 72 E0 74 00 00 4C")), "refused 17"),
    (("<", data("96 69 0D FF 43 00 00 72 E0 74 00 00 EC")), "refused 17"),
    (("<", data("96 69 0D 1F 43 00 00 72 E0 74 00 00 CC")), "ok 1 0 C0FF"),
    (("<", data("96 69 0D 2F 43 00 01 72 E0 74 00 01 BA")), "ok 2 1 C0FF"),
    (("<", data("96 69 0D 3F 43 00 02 72 E0 74 00 02 A8")), "ok 3 2 C0FF"),
    (("<", data("96 69 0D 4F 43 00 03 72 E0 74 00 03 96")), "ok 4 3 C0FF"),
    (("<", data("96 69 0D 5F 43 00 04 72 E0 74 00 04 84")), "ok 5 4 C0FF"),
    (("<", data("96 69 0D 6F 43 00 05 72 E0 74 00 05 72")), "ok 6 5 C0FF"),
    (("<", data("96 69 0D 7F 43 00 06 72 E0 74 00 06 60")), "ok 7 6 C0FF"),
    (("<", data("96 69 0D 8F 43 00 07 72 E0 74 00 07 4E")), "ok 8 7 C0FF"),
    # 17, the flags 80 and 20 alone; a time code section and service information, with their flags and without; the two section marks
    (("X",), "ok"),
    (("<", data("96 69 0D 4F C3 00 00 72 E0 74 00 00 1C")), "refused 17"),
    (("<", data("96 69 0D 4F 63 00 00 72 E0 74 00 00 7C")), "refused 17"),
    (("<", data("96 69 12 4F C3 00 00 71 C1 82 03 04 72 E0 74 00 00 5C")), "refused 17"),
    (("<", data("96 69 12 4F 43 00 00 71 C1 82 03 04 72 E0 74 00 00 DC")), "refused 17"),
    (("<", data("96 69 0F 4F 63 00 00 72 E0 73 80 74 00 00 87")), "refused 17"),
    (("<", data("96 69 0F 4F 43 00 00 72 E0 73 80 74 00 00 A7")), "refused 17"),
    (("<", data("96 69 0D 4F 43 00 00 71 E0 74 00 00 9D")), "refused 17"),
    (("<", data("96 69 0D 4F 43 00 00 73 E0 74 00 00 9B")), "refused 17"),
    (("<", data("96 69 0D 4F 43 00 00 72 E0 75 00 00 9B")), "refused 17"),
    # what goes unread: the other flags, all and none of them; the lower half of the rate's byte; the upper three bits beside the count
    (("<", data("96 69 0D 4F 5F 00 00 72 E0 74 00 00 80")), "ok 4 0 C0FF"),
    (("X",), "ok"),
    (("<", data("96 69 0D 4F 00 00 00 72 E0 74 00 00 DF")), "ok 4 0 C0FF"),
    (("X",), "ok"),
    (("<", data("96 69 0D 40 43 00 00 72 E0 74 00 00 AB")), "ok 4 0 C0FF"),
    (("X",), "ok"),
    (("<", data("96 69 0D 4F 43 00 00 72 00 74 00 00 7C")), "ok 4 0 C0FF"),
    (("X",), "ok"),
    (("<", data("96 69 13 4F 43 00 00 72 42 FC 94 2C FF 02 21 74 00 00 56")), "ok 4 0 C2FFFC942CFF0221"),
    # 18: the last byte is in the sum; one less, one more, 0, and the sum of the others itself; with others that sum to 0 it is 0
    (("X",), "ok"),
    (("<", data("96 69 0D 4F 43 00 00 72 E0 74 00 00 9B")), "refused 18"),
    (("<", data("96 69 0D 4F 43 00 00 72 E0 74 00 00 9D")), "refused 18"),
    (("<", data("96 69 0D 4F 43 00 00 72 E0 74 00 00 00")), "refused 18"),
    (("<", data("96 69 0D 4F 43 00 00 72 E0 74 00 00 64")), "refused 18"),
    (("<", data("96 69 10 4F 43 00 00 72 E1 98 00 00 74 00 00 00")), "ok 4 0 C1FF980000"),
    (("X",), "ok"),
    (("<", data("96 69 0D 4F 43 00 00 72 E0 74 00 00 9C")), "ok 4 0 C0FF"),
    # 19: another counter behind 74, in its lower and in its higher byte, and the two bytes the other way round
    (("X",), "ok"),
    (("<", data("96 69 0D 4F 43 00 00 72 E0 74 00 01 9B")), "refused 19"),
    (("<", data("96 69 0D 4F 43 00 00 72 E0 74 01 00 9B")), "refused 19"),
    (("<", data("96 69 0D 4F 43 01 00 72 E0 74 00 01 9A")), "refused 19"),
    (("<", data("96 69 0D 4F 43 01 00 72 E0 74 01 00 9A")), "ok 4 256 C0FF"),
    # 20: none of the refused ones above was taken for the last; newer is 1 to 32,767 ahead, and a refused one leaves what was last
    (("X",), "ok"),
    (("<", data("96 69 0D 4F 43 00 07 72 E0 74 00 08 8D")), "refused 19"),
    (("<", data("96 69 0D 4F 43 00 07 72 E0 74 00 07 8F")), "refused 18"),
    (("<", bare(7)), "ok 4 7 C0FF"),
    *behind(0, (0, False), (32768, False), (32769, False), (65535, False), (32767, True)),
    *behind(0, (32768, False), (1, True), (32768, True), (1, False), (0, False)),
    *behind(1, (65535, False), (32768, False), (32767, True)),
    *behind(32767, (32768, False), (32767, True)),
    *behind(32768, (0, False), (32768, False), (65535, False), (32767, True)),
    *behind(65534, (0, False), (1, True), (2, True), (3, True), (2, False), (32771, False), (32770, True)),
    *behind(65535, (0, False), (65535, False), (32768, False), (1, True), (1, False), (0, False)),
    *behind(65535, (32767, True)),
    # the order: all wrong; all but the mark; then the sum, the counters and an old counter; the last two; the last
    (("X",), "ok"),
    (("<", bare(5)), "ok 4 5 C0FF"),
    (("<", data("97 69 0D 0F C3 00 05 72 E0 74 00 06 00")), "refused 16"),
    (("<", data("96 69 0D 0F C3 00 05 72 E0 74 00 06 00")), "refused 17"),
    (("<", data("96 69 0D 4F 43 00 05 72 E0 74 00 06 00")), "refused 18"),
    (("<", data("96 69 0D 4F 43 00 05 72 E0 74 00 06 91")), "refused 19"),
    (("<", data("96 69 0D 4F 43 00 05 72 E0 74 00 05 00")), "refused 18"),
    (("<", data("96 69 0D 4F 43 00 05 72 E0 74 00 05 92")), "refused 20"),
    (("<", bare(6)), "ok 4 6 C0FF"),
    # writing, 17: no frame, one byte, a byte fewer and more, a count that is not the triples'; the rate codes 0 and 9; before 9
    (("Y", 0, 7), "ok"),
    ((">", 4, 2, []), "refused 17 A5A5"),
    ((">", 4, 2, data("C0")), "refused 17 A5A5"),
    ((">", 4, 2, TWO[:-1]), "refused 17 A5A5"),
    ((">", 4, 2, TWO + [0]), "refused 17 A5A5"),
    ((">", 4, 2, data("C1 FF" + PAIR_AND_START)), "refused 17 A5A5"),
    ((">", 4, 2, data("C3 FF" + PAIR_AND_START)), "refused 17 A5A5"),
    ((">", 0, 19, TWO), "refused 17 " + FILL * 19),
    ((">", 9, 19, TWO), "refused 17 " + FILL * 19),
    ((">", 0, 0, []), "refused 17 -"),
    # 9: an output that is one byte too short; none at all
    ((">", 4, 18, TWO), "refused 9 19 " + FILL * 18),
    ((">", 4, 0, data("C0 FF")), "refused 9 13 -"),
    # no refused write has moved the counter; of the frame's first two bytes only the count is looked at
    ((">", 4, 13, data("C0 FF")), out("96 69 0D 4F 43 00 07 72 E0 74 00 07 8E", 13)),
    ((">", 4, 13, data("00 00")), out("96 69 0D 4F 43 00 08 72 E0 74 00 08 8C", 13)),
    ((">", 1, 19, data("22 41" + PAIR_AND_START)), out("96 69 13 1F 43 00 09 72 E2 FC 94 2C FF 02 21 74 00 09 D4", 19)),
    # behind 65,535 comes 0
    (("Y", 0xFF, 0xFE), "ok"),
    ((">", 4, 13, data("C0 FF")), out("96 69 0D 4F 43 FF FE 72 E0 74 FF FE A2", 13)),
    ((">", 4, 12, data("C0 FF")), "refused 9 13 " + FILL * 12),
    ((">", 4, 13, data("C0 FF")), out("96 69 0D 4F 43 FF FF 72 E0 74 FF FF A0", 13)),
    ((">", 4, 13, data("C0 FF")), out("96 69 0D 4F 43 00 00 72 E0 74 00 00 9C", 13)),
    # a fresh reader leaves the writer, and the writer's counter the reader
    (("X",), "ok"),
    ((">", 4, 13, data("C0 FF")), out("96 69 0D 4F 43 00 01 72 E0 74 00 01 9A", 13)),
    (("<", bare(65534)), "ok 4 65534 C0FF"),
    (("Y", 0, 0), "ok"),
    (("<", bare(65534)), "refused 20"),
    (("<", bare(65535)), "ok 4 65535 C0FF"),
    # another number of argument bytes
    (("raw", [0x58, 0]), "bad"),
    (("raw", [0x59]), "bad"),
    (("raw", [0x59, 0]), "bad"),
    (("raw", [0x59, 0, 0, 0]), "bad"),
    (("raw", [0x3E]), "bad"),
    (("raw", [0x3E, 4]), "bad"),
    (("raw", [0x3E, 4, 1]), "refused 17 A5"),
    (("<", bare(65535)), "refused 20"),
    ((">", 4, 13, data("C0 FF")), out("96 69 0D 4F 43 00 00 72 E0 74 00 00 9C", 13)),
]

RAW = [
    # a block: a number above 63, a length above 31, block 0 with payload
    (("b", 1), "ok"),
    (("c", [0x41, 0x42, 0x43]), "ok"),
    (("B", 64, 3), "ok"),
    (("m",), "refused 11"),
    (("c", [1]), "refused 11"),
    (("c", []), "refused 11"),
    (("e", 3), "refused 11 A5A5A5"),
    (("v",), "refused 11"),
    (("B", 1, 32), "ok"),
    (("m",), "refused 11"),
    (("B", 0, 1), "ok"),
    (("m",), "refused 11"),
    (("B", 0, 0), "ok"),
    (("m",), "ok 0 0 31 1"),
    (("B", 63, 31), "ok"),
    (("m",), "ok 63 33 0 0"),
    (("B", 7, 2), "ok"),
    (("e", 5), "ok 4 E2074142A5"),
    # a packet: a sequence number above 3, a count above 63, a block without payload
    (("k", 1), "ok"),
    (("a", 1, [0x41]), "ok"),
    (("K", 4, 1), "ok"),
    (("l",), "refused 11"),
    (("o", 2), "refused 11 A5A5"),
    (("a", 64, []), "refused 11"),
    (("i", 1, [1]), "refused 11"),
    (("v",), "refused 11"),
    (("W",), "ok"),
    (("q",), "refused 11"),
    (("K", 0, 64), "ok"),
    (("l",), "refused 11"),
    (("K", 0, 2), "ok"),
    (("l",), "refused 11"),
    (("K", 3, 1), "ok"),
    (("l",), "ok 3 3 125 1"),
    (("o", 4), "ok 4 C2214100"),
    (("K", 3, 0), "ok"),
    (("l",), "refused 11"),
    (("Z", 0), "ok"),
    (("l",), "ok 3 0 128 0"),
    # a demultiplexer: the counts as they are, fewer, and beyond the limits
    (("R",), "ok"),
    (("H",), "ok"),
    (("f", FRAME), "ok"),
    (("D", 1, 0, 1), "ok"),
    (("n",), "ok field1 942C"),
    (("n",), "ok packet 2 1:41"),
    (("f", FRAME), "ok"),
    (("D", 0, 0, 1), "ok"),
    (("n",), "ok packet 2 1:41"),
    (("f", FRAME), "ok"),
    (("D", 32, 0, 1), "ok"),
    (("n",), "refused 11"),
    (("f", FRAME), "refused 11"),
    (("f", []), "refused 11"),
    (("H",), "refused 11"),
    (("F",), "refused 11"),
    (("D", 1, 0, 33), "ok"),
    (("n",), "refused 11"),
    (("D", 1, 0, 1), "ok"),
    (("n",), "ok field1 942C"),
    (("n",), "ok packet 2 1:41"),
    (("n",), "ok none"),
    # pending bytes: those that wait, none, an odd number, and a whole packet, which never waits
    (("f", data("C1 FF FF 02 21")), "ok"),
    (("D", 0, 1, 0), "ok"),
    (("n",), "refused 11"),
    (("D", 0, 4, 0), "ok"),
    (("n",), "refused 11"),
    (("D", 0, 2, 0), "ok"),
    (("f", data("C1 FF FE 41 00")), "ok"),
    (("n",), "ok packet 0 1:41"),
    (("f", data("C1 FF FF 02 21")), "ok"),
    (("D", 0, 0, 0), "ok"),
    (("f", data("C1 FF FE 41 00")), "ok"),
    (("n",), "ok none"),
    # a multiplexer: the counts as they are, fewer, and beyond the limits
    (("W",), "ok"),
    (("1", 0x94, 0x2C), "ok"),
    (("2", 0x15, 0x2C), "ok"),
    (("p", data("82 21 41 00")), "ok 2 1:41"),
    (("q",), "ok"),
    (("Q", 1, 0, 1, 1), "ok"),
    (("u",), "ok 16684 16684 3337"),
    (("Q", 0, 0, 1, 1), "ok"),
    (("u",), "ok 16684 16684 0"),
    (("Q", 17, 0, 1, 1), "ok"),
    (("u",), "refused 11"),
    (("S", 1, 1), "refused 11"),
    (("1", 0x80, 0x80), "refused 11"),
    (("2", 1, 2), "refused 11"),
    (("q",), "refused 11"),
    (("w", 0, 1, 2), "refused 11 A5A5"),
    (("x",), "refused 11"),
    (("Q", 0, 0, 65, 0), "ok"),
    (("u",), "refused 11"),
    (("Q", 0, 0, 0, 65), "ok"),
    (("u",), "refused 11"),
    (("Q", 0, 2, 0, 0), "ok"),
    (("u",), "refused 11"),
    (("Q", 1, 0, 1, 1), "ok"),
    (("w", 30, 1, 14), out("C4 FF FC 94 2C FD 15 2C FF 82 21 FE 41 00", 14)),
    # a packet of 22 bytes, of which ten triples leave in the first frame
    (("W",), "ok"),
    (("k", 0), "ok"),
    (("a", 1, [0x41] * 20), "ok"),
    (("q",), "ok"),
    (("w", 60, 1, 32), out("CA FF FF 0B 34" + "FE 41 41" * 9, 32)),
    (("u",), "ok 0 0 3337"),
    (("Q", 0, 24, 0, 0), "ok"),
    (("u",), "refused 11"),
    (("Q", 0, 19, 0, 0), "ok"),
    (("u",), "refused 11"),
    (("Q", 0, 0, 0, 0), "ok"),
    (("u",), "ok 0 0 28362"),
    (("Q", 0, 18, 0, 0), "ok"),
    (("w", 60, 1, 8), out("C2 FF FE 41 41 FE 41 41", 8)),
    (("u",), "ok 0 0 0"),
]


# What an accepted operation of those inputs prints, where it is more than `ok`.
TOLD = {"< 96 69 0D 4F 43 00 07 72 E0 74 00 07 8E": "ok 4 7 C0FF"}


def refusals():
    """The inputs of docs/REFUSALS.md, each record with the line that it is answered with: all but the last of an input are accepted."""
    with open(os.path.join(os.path.dirname(os.path.abspath(__file__)), "../docs/REFUSALS.md")) as file:
        inputs = re.findall(r"^- \*\*Input\*\*: (.*) prints `([^`]*)`$", file.read(), re.M)
    for operations, line in inputs:
        words = re.findall(r"`([^`]*)`", operations)
        for i, operation in enumerate(words):
            letter, *numbers = operation.split(" ")
            record = letter.encode() + bytes(int(number, 16) for number in numbers)
            yield ("raw", record), line if i == len(words) - 1 else TOLD.get(operation, "ok")


REFUSALS = list(refusals())
