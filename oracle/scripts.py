"""Scripts for `ccscript`, by kind: all short ones, every limit from both sides, damaged copies of good bytes, any order of calls.

An operation is a tuple of its letter and its arguments, or of "raw" and a record's bytes; a script is a list of operations.
`generate(seed, written)` gives each kind with its scripts, `generate_reading(seed)` those of reading and `generate_codes(seed)`
those of codes that the reckoning knows too, `generate_distribution(seed)` those of distribution packets, and
`generate_carrying(seed)` those of the carrying mode, which the crate does not have. `generate_counting` and
`generate_carrying_counting` give those with writes once more, with the true count.
"""
import random, itertools
R = random.Random()
def byte(): return R.choice([0, 1, 0x20, 0x41, 0x7F, 0x80, 0xFF, R.randrange(256), R.randrange(256)])
def some(n): return [byte() for _ in range(n)]
def batch(groups, n):
    """One script of every n groups of operations."""
    for i in range(0, len(groups), n): yield [o for g in groups[i:i + n] for o in g]

def short_strings(op):
    """Every string of up to two bytes."""
    strings = [[]] + [[a] for a in range(256)] + [[a, b] for a in range(256) for b in range(256)]
    return batch([[(op, d)] for d in strings], 64)

def block_headers():
    """Every two first bytes of a block, with all the bytes that it may need and one byte fewer than it needs."""
    body = [0x20 + i for i in range(33)]
    for h in range(256):
        size, two = h & 31, h >> 5 == 7 and h & 31 != 0
        ds = [[h, z] + body for z in range(256)]
        yield [("d", d) for d in ds] + [("d", d[:size + two]) for d in (ds if two else ds[:1])]

def packet_headers(op):
    """Every two first bytes of a packet, with some bytes behind them."""
    body = [0x41, 0x22, 0xE1, 0x07, 0x61, 0x00]
    for h in range(256):
        yield [(op, ([h, z] + body)[:max(2, min(8, 2 * (h & 63) or 8))]) for z in range(256)]

def block_reading():
    groups = [[("d", []), ("m",), ("y", []), ("e", 3)]]
    for h in range(256):
        size, two = h & 31, h >> 5 == 7 and h & 31 != 0
        seconds = [R.choice([0, 1, 5, 6, 7, 63, 64, 65, 70, 71, 127, 128, 192, 255]) for _ in range(3)] if two else [None]
        need = 1 + two + size
        for k in sorted({1, 2, 3, need - 1, need, need + 1, R.randrange(1, 40)}):
            for z in seconds:
                d = ([h] + ([z] if two else []) + some(40))[:k]
                groups.append([("d", d), ("y", d), ("m",)])
    for z in range(256): groups.append([("d", [0xE2, z, 0x41, 0x42]), ("y", [0xE2, z, 0x41, 0x42]), ("m",), ("e", R.randrange(6))])
    return batch(groups, 15)

def a_block():
    n = R.choice([0, 1, 2, 6, 7, 8, 63, R.randrange(64)])
    size = R.choice([0, 1, 2, 3, 5, 30, 31, R.randrange(32)])
    if R.random() < .5: size = R.randrange(6)
    if n < 7 and R.random() < .8: return [n << 5 | size] + some(size)
    return [0xE0 | size] + ([n | R.choice([0, 64, 128, 192])] if size else []) + some(size)

def packet_bytes(most=128):
    body = []
    while len(body) < most - 1 and R.random() < .85: body += a_block()
    body = body[:most - 1]
    if len(body) % 2 == 0 and R.random() < .8: body.append(0)
    n = (len(body) + 1 + 1) // 2 & 63
    r = R.random()
    if r < .1: n = R.randrange(64)
    elif r < .2: n = max(0, min(63, n + R.choice([-1, 1, 2])))
    d = [R.randrange(4) << 6 | n] + body
    r = R.random()
    if r < .15: d = d[:R.randrange(len(d) + 1)]
    elif r < .25: d = d + some(R.randrange(4))
    elif r < .4: d[R.randrange(len(d))] = R.randrange(256)
    return d

def packet_reading(count, op):
    alphabet = [0x00, 0x01, 0x02, 0x20, 0x21, 0x22, 0x41, 0xE0, 0xE1, 0xE2, 0x07]
    groups = []
    for n in range(0, 4):
        for d in itertools.product(alphabet, repeat=n):
            if n == 3 and R.random() > .35: continue
            for h in ([0x02] if n == 3 else [0x02, 0x01, 0xC0, 0x03]): groups.append([(op, [h] + list(d))])
    groups.append([(op, [])])
    for h in range(256): groups.append([(op, [h] + [0x21, 0x41] * R.randrange(3) + [0] * R.randrange(3))])
    # every length beside the header's size
    for n in range(64):
        size = 2 * n or 128
        for k in (size - 1, size, size + 1): groups.append([(op, ([n] + [0] * 200)[:k])])
    for _ in range(count): groups.append([(op, packet_bytes())] + ([("l",), ("o", R.choice([0, 1, 3, 128, 129, 200]))] if op == "p" else []))
    return batch(groups, 25)

def cut_everywhere(count):
    """Blocks and packets cut at every byte; of a packet also with a header that says the bytes left, so that it is read tidily too."""
    for _ in range(count):
        block, d = a_block(), packet_bytes(R.choice([4, 8, 20, 60, 128]))
        s = [("d", block[:k]) for k in range(len(block) + 1)]
        for k in range(min(len(d), 128) + 1):
            fitting = [d[0] & 0xC0 | (k + 1) // 2 % 64, *d[1:k]] if k else []
            s += [("p", d[:k]), ("p", fitting), ("t", fitting)]
        yield s

def whole_blocks(n):
    """Blocks that take exactly so many bytes, none of number 0."""
    d = []
    while n:
        two = n > 2 and R.random() < .4
        size = R.randrange(two, min(32, n - two))
        d += [0xE0 | size, R.randrange(1, 64) | R.choice([0, 64, 128, 192])] if two else [R.randrange(1, 8 if size == 0 else 7) << 5 | size]
        d += some(size)
        n -= 1 + two + size
    return d

def null_headers(rounds):
    """Null headers of both forms behind whole blocks, at every place of a packet, with fill of every kind behind them up to what the header
    says; and a header of two bytes that the packet's end cuts."""
    forms = [[h] for h in range(32)] + [[h, z] for h in range(0xE1, 0x100) for z in (0, 64, 128, 192)]
    kinds = [lambda n: [0] * n, some, whole_blocks, lambda n: [R.choice([0xE1, 0xFF, 0x3F, 0x21, 0x1F])] * n, lambda n: R.choices(range(256), k=n)]
    for at in range(1, 128):
        s = []
        for null in R.choices(forms, k=rounds) + [[R.randrange(0xE1, 0x100)]]:
            d = whole_blocks(at - 1) + null
            most = 127 - len(d)
            if most < 0: continue
            left = R.choice([0, 1, 2, 3, most, R.randrange(most + 1)]) if null[0] < 0x20 or null[1:] else 0
            d += R.choice(kinds)(min(left, most))
            if len(d) % 2 == 0: d.append(byte())
            h = R.randrange(4) << 6 | (len(d) + 1) // 2 % 64
            s += [("p", [h] + d), ("t", [h] + d), ("t", [h] + d[:-1])]
        yield s

def a_run(room=None):
    n = R.choice([0, 1, 1, 2, 3, 5, 10, 15, 20, 29, 30, 31, 32, 33, 60, 100, 127, 128, 200, R.randrange(40)])
    return some(n)

def block_pushes(count):
    for _ in range(count):
        s = []
        for _ in range(12):
            r = R.random()
            if r < .25: s.append(("b", R.choice([0, 1, 6, 7, 8, 63, 64, 65, 255, R.randrange(64)])))
            elif r < .6: s.append(("c", a_run()))
            elif r < .7: s.append(("d", a_block()))
            elif r < .85: s.append(("e", R.choice([0, 1, 2, 3, 31, 32, 33, 34, 100, R.randrange(40)])))
            else: s.append(("m",))
        yield s + [("m",), ("e", 255)]

def packet_pushes(count):
    for _ in range(count):
        s, few = [], R.sample([0, 1, 2, 6, 7, 8, 62, 63, 64, 255], 3)
        for _ in range(R.choice([6, 12, 20, 30])):
            r = R.random()
            if r < .04: s.append(("k", R.choice([0, 1, 2, 3, 3, 4, 255])))
            elif r < .34: s.append(("a", R.choice(few), a_run()))
            elif r < .6: s.append(("i", R.choice(few), a_run()))
            elif r < .66: s.append(("b", R.choice(few)))
            elif r < .72: s.append(("c", a_run()))
            elif r < .8: s.append(("v",))
            elif r < .83: s.append(("p", packet_bytes()))
            elif r < .9: s.append(("o", R.choice([0, 1, 2, 127, 128, 129, 200, R.randrange(130)])))
            else: s.append(("l",))
        yield s + [("l",), ("o", 255), ("p", [])]
    # packets filled to the brim: rooms 0 to 5 with every push
    for left in range(0, 7):
        for n in (1, 7):
            base = [("k", 2)]
            fill = 127 - left
            while fill > 0:
                k = min(fill, 32 if fill != 33 else 30)
                base += [("b", 2), ("c", [9] * (k - 1)), ("v",)]; fill -= k
            for m in range(0, 8):
                pushes = [("a", n, [5] * m), ("l",), ("i", n, [6] * m), ("a", 2, [7] * m), ("i", 2, [8] * m), ("l",)]
                yield base + [("l",)] + pushes + [("b", n), ("c", [4] * m), ("v",), ("b", 0), ("v",), ("l",), ("o", 128)]

def triples_of(d):
    d = d + [0] * (len(d) % 2)
    return [[0xFF if i == 0 else 0xFE, d[i], d[i + 1]] for i in range(0, len(d), 2)]

def a_triple():
    marks = R.choice([0xF8, 0, 0xF8, R.randrange(32) << 3]) | R.choice([0, 1, 2, 3, 4, 5, 6, 6, 7, 7, 7])
    first = R.choice([1, 2, 3, 4, 0x41, 0x82, 0, byte()])
    return [marks, first, R.choice([0x20, 0x21, 0x22, 0, byte()])]

def a_frame(stream):
    r = R.random()
    ts = []
    if r < .35:  # a good frame: 608 part, then packets' triples
        for _ in range(R.randrange(4)): ts.append([R.choice([0xFC, 0xFD, 0xF8, 0xF9]), byte(), byte()])
        for _ in range(R.randrange(1, 14)):
            while not stream: stream.extend(triples_of(packet_bytes(R.choice([4, 6, 12, 40, 128]))))
            ts.append(stream.pop(0))
            if R.random() < .1: ts.append([R.choice([0xFA, 0xFB, 0xF8, 0xF9]), byte(), byte()])
    elif r < .6: ts = [a_triple() for _ in range(R.randrange(0, 8))]
    elif r < .8:  # in order, but of every type
        ts = sorted((a_triple() for _ in range(R.randrange(1, 9))), key=lambda t: t[0] & 2)
    elif r < .9: ts = [[0xFF, R.choice([1, 2, 4, 0x41, 0]), R.choice([0x21, 0x01, 0x00, 0x41])] for _ in range(R.choice([3, 10, 31]))]
    else: ts = [a_triple() for _ in range(31)]
    ts = ts[:31]
    f = [0xC0 | len(ts), 0xFF] + [b for t in ts for b in t]
    r = R.random()
    if r < .06: f[0] = f[0] & 0xBF
    elif r < .1: f[0] = R.randrange(256)
    elif r < .15: f = f[:R.randrange(len(f) + 1)]
    elif r < .2: f = f + some(R.randrange(1, 4))
    elif r < .25: f[0] = f[0] & 0xE0 | R.randrange(32)
    elif r < .3: f[0] = f[0] & 0x5F | R.choice([0, 0x20, 0x80])
    return f

def frames(count):
    for _ in range(count):
        s, stream = [], []
        if R.random() < .7: s.append(("H",))
        draining = R.random() < .5
        for _ in range(R.choice([1, 2, 4, 8, 12])):
            r = R.random()
            if r < .04: s.append(("H",))
            elif r < .06: s.append(("F",))
            elif r < .08: s.append(("R",))
            s.append(("f", a_frame(stream)))
            if R.random() < .08: s += [R.choice([("H",), ("F",)]), ("n",)]
            for _ in range(R.choice([0, 1, 3, 40]) if draining else R.choice([0, 0, 0, 1, 2])): s.append(("n",))
        yield s + [("n",)] * (45 if not draining else 5)

def frames_small(full):
    """Every frame of up to `full` triples over all eight kinds of triple, after none or some pending bytes, then one more frame."""
    kinds = [0xF8 | k for k in range(8)]
    groups = []
    for n in range(1, full + 1):
        for hs in itertools.product(kinds, repeat=n):
            if n == 4 and R.random() > .25: continue
            f = [0xC0 | n, 0xFF]
            for h in hs: f += [h, R.choice([0x01, 0x02, 0x02, 0x03, 0x04]), R.choice([0x00, 0x21, 0x22, 0x41])]
            pend = R.choice([[], [], [("f", [0xC1, 0xFF, 0xFF, 0x02, 0x21])], [("f", [0xC2, 0xFF, 0xFF, 0x83, 0x22, 0xFE, 0x41, 0x42])]])
            last = R.choice([[], [("f", [0xC1, 0xFF, 0xFE, 0x41, 0x00])], [("f", [0xC1, 0xFF, 0xFF, 0x01, 0x00])]])
            on = R.choice([[("H",)], [("H",)], []])
            groups.append([("R",)] + on + pend + [("f", f)] + last + [("n",)] * 4)
    return batch(groups, 10)

def frame_full():
    """Around 32 waiting packets."""
    for start in range(26, 34):
        for more in range(0, 8):
            s = [("H",)] if R.random() < .7 else []
            k = start
            while k:
                m = min(k, 15); k -= m
                s.append(("f", [0xC0 | m, 0xFF] + [0xFF, 0x01, 0x00] * m))
            s.append(("f", [0xC0 | 3, 0xFF, 0xFC, 1, 2, 0xFD, 3, 4, 0xFF, 0x02, 0x21]))
            body = [0xFC, 7, 8] + ([0xFE, 0x41, 0] if R.random() < .5 else []) + [0xFF, 0x41, 0x00] * more
            body += [0xFF, 0x03, 0x22] if R.random() < .5 else []
            s.append(("f", [0xC0 | len(body) // 3, 0xFF] + body))
            s += [("n",)] * R.choice([0, 1, 3, 5])
            s.append(("f", [0xC0 | len(body) // 3, 0xFF] + body))
            yield s + [("n",)] * 46

RATES = [
    (24, 1), (25, 1), (30000, 1001), (50, 1), (60000, 1001), (30, 1), (60, 1), (24000, 1001), (120, 1), (121, 1), (401, 21), (400, 21),
    (20, 1), (19, 1), (40, 1), (100, 1), (119, 1), (61, 2), (1, 1), (0, 1), (1, 0), (0, 0), (48, 1), (15, 1),
]
def a_rate(good=True):
    if good: return R.choice(RATES[:9] + [(20, 1), (40, 1), (100, 1), (48, 1)])
    return R.choice(RATES)

def queue_packet(s):
    r = R.random()
    if r < .1: s.append(("k", R.randrange(4)))
    elif r < .5:
        s.append(("k", R.randrange(4)))
        for _ in range(R.choice([1, 1, 2, 3])): s.append(("a", R.choice([1, 2, 6, 7, 8, 63]), some(R.choice([1, 1, 2, 3, 4, 5, 10, 31]))))
    elif r < .65: s.append(("p", packet_bytes()))
    elif r < .75:
        s.append(("k", R.randrange(4)))
        for i in range(5): s.append(("a", i + 1, some(R.choice([24, 25, 26, 31, 20]))))
    s.append(("q",))

def mux(count):
    for _ in range(count):
        s = []
        if R.random() < .75: s.append(("S", R.randrange(2), R.randrange(2)))
        rate = a_rate()
        p1, p2, pq, pw = R.choice([(.3, .2, .2, .25), (.6, .05, .1, .2), (.05, .6, .1, .2), (.1, .1, .5, .25), (.0, .3, .0, .6), (.3, .0, .1, .5)])
        for _ in range(R.choice([5, 12, 25, 40])):
            r = R.random()
            if r < p1: s.append(("1", *R.choice([(0x94, 0x2C), (0x80, 0x80), (0x80, 0), (0, 0x80), (byte(), byte())])))
            elif r < p1 + p2: s.append(("2", *R.choice([(0x15, 0x2C), (0x80, 0x80), (byte(), byte()), (byte(), byte())])))
            elif r < p1 + p2 + pq: queue_packet(s)
            elif r < p1 + p2 + pq + pw:
                if R.random() < .1: rate = a_rate(R.random() < .7)
                s.append(("w", *rate, R.choice([95, 95, 95, 95, 100, 2, 1, 0, 5, 8, 11, 20, 30, 60, 94])))
                if R.random() < .3: s.append(("u",))
            else: s.append(R.choice([("S", R.randrange(2), R.randrange(2)), ("u",), ("x",), ("u",), ("W",)] ))
        yield s + [("u",)] + [("w", *rate, 95)] * 4 + [("u",)]

def mux_full():
    """Around 64 pairs and 16 packets, then written until drained."""
    for pads in range(4):
        for n in (63, 64, 65):
            s = [("S", pads & 1, pads >> 1)]
            s += [("1", i & 255, 1) for i in range(n)] + [("1", 0x80, 0x80)] + [("2", i & 255, 2) for i in range(n)] + [("2", 0x80, 0x80), ("u",)]
            s += [("w", *R.choice(RATES[:9]), 95), ("1", 7, 7), ("2", 7, 7), ("u",)] * 3
            yield s + [("w", *R.choice(RATES[:9]), 95)] * 12 + [("u",)]
        for n in (15, 16, 17, 18):
            s = [("S", pads & 1, pads >> 1)]
            for i in range(n): s += [("k", i & 3), ("a", 1 + i, some(R.choice([1, 2, 3, 9, 30]))), ("q",)]
            s += [("k", 0), ("q",), ("u",), ("w", 60, 1, 95), ("u",), ("a", 1, [1, 2]), ("q",), ("q",), ("u",)]
            yield s + [("w", *R.choice(RATES[:9]), 95), ("u",)] * 10

def grid():
    """Every number of pairs and packets near the budgets, in all four settings, at five rates, twice written."""
    for rate in [(24, 1), (30000, 1001), (60, 1), (120, 1), (20, 1)]:
        for pads in range(4):
            for q1 in (0, 1, 2, 3, 4):
                for q2 in (0, 1, 2, 3):
                    s = [("S", pads & 1, pads >> 1)] + [("1", 1, i) for i in range(q1)] + [("2", 2, i) for i in range(q2)]
                    for m in range(R.choice([0, 0, 1, 2])): s += [("k", m), ("a", R.choice([1, 7]), some(R.choice([1, 2, 3, 4, 31]))), ("q",)]
                    yield s + [("w", *rate, 95), ("u",), ("w", *rate, 95), ("1", 9, 9), ("w", *rate, 95), ("x",), ("1", 8, 8), ("w", *rate, 95)]

def steps(halves):
    """Rates at which so many halves of a triple or of a pair are due, exactly or nearly, and their neighbours."""
    for h in halves:
        for d in (1, 21, 1001, h, h * R.randrange(1, 2**20), R.randrange(1, 2**28), R.randrange(2**31, 2**32)):
            for base in (1200 * d // h, 120 * d // h):
                yield from ((base + e, d) for e in (-1, 0, 1) if 0 <= base + e < 2**32)

def rates(count):
    groups = []
    def ask(n, d): groups.append([("W",), ("S", 1, 1), ("w", n, d, 95)])
    for n, d in RATES: ask(n, d)
    for n in range(0, 130): ask(n, 1)
    for d in range(0, 12): ask(121, d); ask(400, d); ask(0, d)
    for d in (1, 2, 3, 7, 20, 21, 22, 1001, 1000000, 35791394, 2**32 - 1):
        for base in (120 * d, 400 * d // 21, 600 * d // 31, 1200 * d // 63, 24 * d, 40 * d):
            for e in (-1, 0, 1):
                if 0 <= base + e < 2**32: ask(base + e, d)
    top = 2**32 - 1
    for n, d in [(top, top), (top, 1), (1, top), (top, 107374182), (top, 35791394), (top, 35791395), (top, 225485783), (top, 225485782)]: ask(n, d)
    for n, d in steps(2 * q + 1 for q in range(33)): ask(n, d)
    for _ in range(count):
        d = R.choice([R.randrange(1, 100), R.randrange(1, 2000), R.randrange(1, 2**25)])
        n = int(d * R.uniform(18, 125))
        ask(n, d)
    return batch(groups, 15)

def durations():
    s = [("1", 1, 1), ("u",)] * 65
    yield s
    yield [("2", 1, 1), ("u",)] * 65
    for _ in range(40):
        s = []
        for _ in range(R.randrange(1, 17)): queue_packet(s); s.append(("u",))
        for _ in range(6): s += [("w", *a_rate(), 95), ("u",)]
        yield s

def journeys(count, written, set_up=list):
    """What a multiplexer writes, set up in some way, read back by the demultiplexer, some frames damaged or lost. `written` gives scripts' frames."""
    fronts = []
    for _ in range(count):
        s = [("S", *R.choice([(0, 1), (1, 0), (1, 1), (0, 0)]))]
        rate = a_rate()
        for _ in range(R.choice([8, 16, 24])):
            r = R.random()
            if r < .25: s.append(("1", byte(), byte()))
            elif r < .45: s.append(("2", byte(), byte()))
            elif r < .65: queue_packet(s)
            else: s.append(("w", *rate, 95))
        fronts.append(s + [("w", *rate, 95)] * R.choice([1, 4, 12]))
    fronts = list(set_up(fronts))
    for s, frames in zip(fronts, written(fronts)):
        back = [("H",)]
        for f in frames:
            f = list(f)
            r = R.random()
            if r < .04: continue
            if r < .1: f[R.randrange(len(f))] ^= 1 << R.randrange(8)
            back.append(("f", f))
            back += [("n",)] * R.choice([0, 1, 3, 12])
        yield s + back + [("n",)] * 12

def anything(count):
    """Operations of every kind in any order."""
    for _ in range(count):
        s, stream = [], []
        for _ in range(30):
            k = R.choice("bcmedyvaailoppztgGRHfffnnnFWSqqq1122wwwux" if R.random() < .9 else "RFWxk")
            if k == "b": s.append((k, R.choice([0, 1, 2, 7, 63, 64])))
            elif k == "k": s.append((k, R.choice([0, 1, 2, 3, 4])))
            elif k in "eo": s.append((k, R.choice([0, 1, 2, 32, 128, 255, R.randrange(256)])))
            elif k == "c": s.append((k, a_run()))
            elif k in "dy": s.append((k, (a_block() + some(2))[:R.choice([50, 50, 1, 3])]))
            elif k in "pt": s.append((k, packet_bytes(R.choice([4, 8, 40, 128]))))
            elif k == "g": s.append((k, a_payload(R.choice([0, 3, 31, 254]))))
            elif k == "f": s.append((k, a_frame(stream)))
            elif k in "ai": s.append((k, R.choice([0, 1, 2, 7, 64]), a_run()))
            elif k == "S": s.append((k, R.randrange(2), R.randrange(2)))
            elif k in "12": s.append((k, byte(), byte()))
            elif k == "w": s.append((k, *a_rate(R.random() < .8), R.choice([95, 95, 255, R.randrange(96)])))
            else: s.append((k,))
        yield s + [("m",), ("l",), ("u",), ("n",), ("n",)]

def raw_fields(count):
    """Fields set to what breaks a limit, or does not, and calls on them."""
    calls = [("m",), ("c", [1, 2]), ("c", []), ("e", 40), ("v",), ("l",), ("a", 1, [5]), ("a", 64, []), ("i", 2, [6, 7])]
    calls += [("o", 130), ("o", 0), ("q",), ("z",)]
    for _ in range(count):
        s = []
        for _ in range(20):
            r = R.random()
            if r < .12: s.append(("B", R.choice([0, 1, 7, 62, 63, 64, 255]), R.choice([0, 1, 2, 30, 31, 32, 255])))
            elif r < .24: s.append(("K", R.choice([0, 3, 3, 4, 255]), R.choice([0, 1, 2, 3, 4, 5, 62, 63, 64, 255])))
            elif r < .3: s.append(("b", R.choice([0, 1, 7, 63, 64])))
            elif r < .34: s.append(("Z", R.choice([0, 1, 2, 4, 6, 0x80, 2**63, R.getrandbits(64)])))
            elif r < .36: s.append(("k", R.choice([0, 3, 4])))
            elif r < .45: s.append(("d", a_block()))
            elif r < .55: s.append(("p", packet_bytes(R.choice([8, 40, 128]))))
            else: s.append(R.choice(calls))
        yield s + [("m",), ("l",), ("e", 40), ("o", 130)]
    breaking = [(32, 0, 0), (255, 0, 0), (0, 1, 0), (0, 127, 0), (0, 128, 0), (0, 255, 0), (0, 0, 33), (0, 0, 255), (255, 255, 255)]
    for fields in breaking:
        frame = ("f", [0xC3, 0xFF, 0xFC, 0x94, 0x2C, 0xFF, 0x82, 0x21, 0xFE, 0x41, 0x00])
        yield [("H",), frame, ("D", *fields), ("n",), frame, ("f", []), ("H",), ("F",), ("n",), ("R",), ("n",), ("H",), frame, ("n",), ("n",), ("n",)]
    breaking = [(17, 0, 0, 0), (255, 0, 0, 0), (0, 1, 0, 0), (0, 129, 0, 0), (0, 130, 0, 0), (0, 255, 0, 0)]
    breaking += [(0, 0, 65, 0), (0, 0, 255, 0), (0, 0, 0, 65), (0, 0, 0, 255), (255, 255, 255, 255)]
    for fields in breaking:
        s = [("1", 0x94, 0x2C), ("2", 0x15, 0x2C), ("k", 2), ("a", 1, [0x41]), ("q",), ("Q", *fields), ("u",)]
        s += [("S", 1, 1), ("1", 1, 1), ("2", 0x80, 0x80)]
        yield s + [("q",), ("w", 30, 1, 95), ("w", 0, 0, 0), ("x",), ("k", 0), ("q",), ("W",), ("u",), ("1", 1, 1), ("w", 30, 1, 95)]

def set_of(numbers): return sum(1 << n for n in set(numbers))

def sets_beside(numbers):
    """The set of these numbers, and others: a bit more or less, all moved by a place, none, all, any."""
    right, every = set_of(numbers), 2**64 - 1
    others = [0, every, right << 1 & every, right >> 1, right ^ 1, right ^ 1 << 63, right ^ 1 << R.randrange(64), every ^ right, len(numbers), R.getrandbits(64)]
    return [right, R.choice(others), R.choice(others), right ^ 1 << R.choice(numbers or [2])]

def written_packet(sequence, blocks):
    """The bytes of a packet of these numbers and payloads."""
    d = [b for n, run in blocks for b in ([n * 32 + len(run)] if n < 7 else [0xE0 + len(run), n]) + run]
    return [sequence * 64 + (len(d) + 2) // 2 % 64] + d + [0] * ((len(d) + 1) % 2)

def a_short_run(): return some(R.choice([1, 1, 1, 2, 5, 31]))

def some_blocks(make_run=a_short_run):
    """Blocks of one service or of several, and of a service several times, as many as fit."""
    pool = R.choice([[R.randrange(1, 64)], R.sample(range(1, 64), 3), R.sample(range(1, 64), 20), list(range(1, 64)), [1, 2, 6, 7, 63]])
    blocks, room = [], 127
    for _ in range(R.choice([0, 1, 2, 3, 8, 63])):
        n, run = R.choice(pool), make_run()
        room -= len(run) + (1 if n < 7 else 2)
        if room < 0: break
        blocks.append((n, run))
    return blocks

def services(count):
    """Packets made in every way, with their services told; then other sets, and every call on what there is."""
    for n in range(1, 64):
        d = written_packet(1, [(n, [0x41])])
        yield [("z",), ("a", n, [0x41]), ("z",), ("a", n, [0x42]), ("z",), ("a", n, [0x43] * 30), ("z",), ("k", 2), ("z",), ("i", n, [1]), ("z",), ("i", n, [2]), ("z",)]
        yield [("p", d), ("z",), ("k", 0), ("z",), ("t", d), ("z",), ("b", n), ("c", [7]), ("v",), ("z",), ("v",), ("z",), ("p", d[:2]), ("z",)]
    calls = [("l",), ("z",), ("o", 130), ("o", 0), ("a", 1, [5]), ("a", 64, []), ("i", 2, [6, 7]), ("v",), ("q",)]
    for _ in range(count):
        blocks = some_blocks()
        numbers = [n for n, _ in blocks]
        way = R.randrange(3)
        if way == 0: s = [("k", 3)] + [op for n, run in blocks for op in [("b", n), ("c", run), ("v",)]]
        elif way == 1: s = [("k", 3)] + [op for n, run in blocks for op in [("a", n, run), ("z",)]]
        else: s = [(R.choice("pt"), written_packet(3, blocks))]
        s += [("z",), ("l",)]
        for services in sets_beside(numbers): s += [("Z", services)] + R.sample(calls, 4) + [("z",)]
        if blocks:
            few = R.randrange(len(blocks))
            s += [("p", written_packet(3, blocks)), ("K", 3, few), ("z",), ("Z", set_of(numbers[:few])), ("z",), ("l",), ("K", 3, len(blocks)), ("z",)]
        yield s + [("Z", set_of(numbers)), ("z",), ("o", 255)]

# Ranges of the first byte of a code and of the byte behind 0x10, and how many bytes the code has behind that byte.
FIRST = [(0, 0x0F, 0), (0x11, 0x17, 1), (0x18, 0x1F, 2), (0x20, 0x87, 0), (0x88, 0x8D, 1), (0x8E, 0x8F, 0), (0x90, 0x90, 2), (0x91, 0x91, 3)]
FIRST += [(0x92, 0x92, 2), (0x93, 0x96, 0), (0x97, 0x97, 4), (0x98, 0x9F, 6), (0xA0, 0xFF, 0)]
SECOND = [(0, 7, 0), (8, 0x0F, 1), (0x10, 0x17, 2), (0x18, 0x1F, 3), (0x20, 0x7F, 0), (0x80, 0x87, 4), (0x88, 0x8F, 5), (0xA0, 0xFF, 0)]

def code_byte():
    """Any byte, often one that cuts otherwise if a code is taken to begin there."""
    return R.choice([0x10, 0x10, 0x90, 0x98, byte(), R.randrange(0x88, 0xA0), R.randrange(256)])

def code_bytes(n): return [code_byte() for _ in range(n)]

def a_code():
    """A whole code, of any range and often at an end of it."""
    before, ranges = R.choice([([], FIRST), ([0x10], SECOND)])
    low, high, more = R.choice(ranges)
    return before + [R.choice([low, high, R.randrange(low, high + 1)])] + code_bytes(more)

def whole_codes(most, wrong=0):
    """Codes, up to so many bytes or filled up to so many; with this chance each is one of unknown length or a part of one."""
    d = []
    while True:
        code = a_code()
        if R.random() < wrong: code = R.choice([[0x10, R.randrange(0x90, 0xA0)], code[:-1]])
        if len(d + code) > most: return d + [0x41] * R.choice([0, most - len(d)])
        d += code

def a_payload(most):
    """Codes up to so many bytes, most of them whole, and now and then one that the end cuts."""
    d = whole_codes(most, R.choice([0, 0, 0, .02, .1]))
    return d if bit(.7) else (d + a_code())[:most]

def every_code():
    """Every code once, all behind one another in a few payloads; each of unknown length; and each that is longer without its last byte."""
    fronts = [(before + [b], more) for before, ranges in (([], FIRST), ([0x10], SECOND)) for low, high, more in ranges for b in range(low, high + 1)]
    whole, rows = [front + code_bytes(more) for front, more in fronts], [[]]
    for code in whole:
        if len(rows[-1] + code) > 254: rows.append([])
        rows[-1] += code
    cut = [code[:-1] for code in whole if code[:-1] not in ([], [0x10])]
    yield [("g", d) for d in rows + [[0x10, b] for b in range(0x90, 0xA0)] + cut]

def codes_cut():
    """Each first byte and each byte behind 0x10 with bytes behind it, cut at every length up to 9: alone, behind a whole code or two, and with a
    byte more."""
    for front in [[a] for a in range(256)] + [[0x10, b] for b in range(256)]:
        s = []
        for n in range(1, 10):
            plain, d = (front + [0x41] * 8)[:n], (front + code_bytes(8))[:n]
            s += [("g", plain), ("g", a_code() + plain), ("g", a_code() + a_code() + d), ("g", plain + [code_byte()])]
        yield s

def codes(count):
    """Payloads of every size, and with each some of their cuts and some with one byte changed."""
    for _ in range(count):
        d = a_payload(R.choice([1, 3, 8, 20, 31, 100, 254, R.randrange(255)])) or [code_byte()]
        s = [("g", d), ("g", d[:-1])]
        for at in R.choices(range(len(d)), k=8): s += [("g", d[:at]), ("g", d[:at] + [code_byte()] + d[at + 1:])]
        yield s

def codes_of_packets(count, raw=False):
    """Packets of such payloads, pushed in two runs each and read, with their codes counted; then with one byte changed. With raw fields also
    other counts and sets."""
    for _ in range(count):
        payload, pushed, s = R.choice([whole_codes, a_payload]), bit(), [("k", R.randrange(4)), ("G",)]
        blocks = some_blocks(lambda: payload(R.choice([1, 2, 3, 7, 12, 31])) or [0x41])
        for n, run in blocks:
            at = R.randrange(len(run))
            s += [("a", n, run[:at]), ("G",), ("a", n, run[at:])] if pushed else [("b", n), ("c", run[:at]), ("c", run[at:]), ("v",)]
            s.append(("G",))
        numbers, d = [n for n, _ in blocks], written_packet(3, blocks)
        s += [(R.choice("pt"), d), ("G",)]
        for at in R.choices(range(len(d)), k=4): s += [(R.choice("pt"), d[:at] + [code_byte()] + d[at + 1:]), ("G",)]
        if raw:
            few = R.randrange(len(blocks) + 1)
            s += [("p", d), ("K", R.choice([0, 3, 4, 255]), len(blocks) + bit()), ("G",), ("K", 3, few), ("G",)]
            for services in sets_beside(numbers[:few]): s += [("Z", services), ("G",), ("l",)]
        yield s

TOP = 2**32 - 1
# Rates that the carrying mode takes, the last ones at its limits; and others.
CARRIED = [
    (24, 1), (48, 2), (24000, 1001), (25, 1), (30000, 1001), (30, 1), (50, 1), (60000, 1001), (60, 1), (119, 1), (100, 1), (100, 4),
    (2400000000, 100000000), (2400000000, 100100000), (3000000007, 51234567), (TOP, 214748364),
    (120, 1), (600, 31), (601, 31), (TOP, 35791395), (TOP, 221906643),
]
NOT_CARRIED = [
    (599, 31), (401, 21), (400, 21), (121, 1), (TOP, 221906644), (TOP, 35791394), (TOP, TOP), (TOP, 1), (1, TOP), (1, 1), (0, 1), (24, 0), (0, 0),
]
def bit(chance=.5): return int(R.random() < chance)

def queue_blocks(s):
    """A packet made of blocks and runs, or the last one once more, pushed into the multiplexer."""
    if R.random() < .8:
        s.append(("k", R.randrange(4)))
        for _ in range(R.choice([0, 1, 1, 2, 3, 5])):
            number, run = R.choice([1, 2, 6, 7, 8, 63]), some(R.choice([1, 2, 3, 4, 10, 24, 31]))
            s += [("a", number, run)] if R.random() < .7 else [("b", number), ("c", run), ("v",)]
    s.append(("q",))

def carrying_rates(count):
    """Rates of every kind and around every limit, four times written, with the mode on and off."""
    asked = CARRIED + NOT_CARRIED + RATES + [(n, 1) for n in range(15, 125)]
    for d in (1, 2, 3, 7, 20, 21, 22, 31, 1001, 1000000, 35791394, 214748364, TOP):
        for base in (120 * d, 600 * d // 31, 400 * d // 21, 24 * d, 40 * d):
            asked += [(base + e, d) for e in (-1, 0, 1) if 0 <= base + e <= TOP]
    asked += steps(range(2, 64, 2))
    for _ in range(count):
        d = R.choice([R.randrange(1, 100), R.randrange(1, 2000), R.randrange(1, 2**25)])
        asked.append((int(d * R.uniform(18, 125)), d))
    return batch([[("W",), ("S", 1, 1, mode)] + [("w", *rate, 95)] * 4 for rate in asked for mode in (1, 0)], 15)

def carrying_runs(writes):
    """So many writes at one rate, in every setting of the paddings, with pushes and refused writes between them."""
    for rate in CARRIED:
        for pads in range(4):
            s, busy = [("S", pads & 1, pads >> 1, 1)], R.choice([.1, .5, .9])
            for _ in range(writes):
                if R.random() < busy: s.append(("1", byte(), byte()))
                if R.random() < busy / 2: s.append(("2", byte(), byte()))
                if R.random() < busy / 3: queue_blocks(s)
                if R.random() < .03: s.append(R.choice([("w", *R.choice(NOT_CARRIED), 95), ("w", *rate, R.randrange(5)), ("u",)]))
                s.append(("w", *rate, 95))
            yield s + [("u",)]

def beside(n, d):
    """A rate that shares something with this one: numer, denom or their ratio."""
    n, d = R.choice([(2 * n, 2 * d), (n, 2 * d), (n, d + 1), (n, max(d - 1, 1)), (2 * n, d), (n + 1, d)])
    return min(n, TOP), d

def carried_parts(n, d):
    """Parts carried at a rate, within the limits and at them."""
    return n, d, *(R.choice([0, 1, n // 2, n - 1, R.randrange(n)]) % n for _ in range(2))

def carrying_step(s, rate):
    """What may come between two writes at a rate."""
    r = R.random()
    if r < .3: s.append((R.choice("12"), byte(), byte()))
    elif r < .45: queue_blocks(s)
    elif r < .6: s.append(("S", bit(), bit(), bit(.7)))
    elif r < .68: s.append(("w", *R.choice(NOT_CARRIED), R.choice([95, 2])))
    elif r < .76: s.append(("w", *R.choice([rate, R.choice(CARRIED)]), R.choice([0, 1, 2, 5, 14, 60])))
    elif r < .84: s.append(("w", *R.choice([R.choice(CARRIED), beside(*rate)]), 95))
    elif r < .9: s.append(("C", *carried_parts(*R.choice([rate, rate, R.choice(CARRIED)]))))
    else: s.append(R.choice([("u",), ("u",), ("x",), ("C", 0, 0, 0, 0), ("W",)]))

def carrying(count):
    """Writes with the mode on and off, and anything between them."""
    for _ in range(count):
        s, rate, often = [("S", bit(), bit(), bit(.8))], R.choice(CARRIED), R.choice([.2, .5, .8])
        for _ in range(R.choice([10, 30, 60])):
            if R.random() < .05: rate = R.choice(CARRIED)
            if R.random() < often: carrying_step(s, rate)
            else: s.append(("w", *rate, 95))
        yield s + [("u",)] + [("w", *rate, 95)] * 4 + [("u",)]

def carrying_raw():
    """Parts set to what breaks a limit, or does not, and each call on them, with the mode on and off."""
    several = [(0, 0, 0, 0), (0, 1, 0, 0), (0, 0, 1, 0), (0, 0, 0, 1), (0, 1, 1, 1), (24, 0, 0, 0), (24, 0, 23, 23), (24, 0, 24, 0), (0, TOP, TOP, TOP)]
    for n, d in [(24, 1), (24000, 1001), (120, 1), (600, 31), (TOP, 214748364), (TOP, 221906643), (401, 21), (121, 1), (1, 1), (TOP, TOP)]:
        rests = [(0, 0), (n - 1, n - 1), (n - 1, 0), (0, n - 1), (n // 2, n // 3), (n, 0), (0, n), (n, n - 1), (min(n + 1, TOP), TOP)]
        several += [(n, d, *both) for both in rests]
    for parts in several:
        write = ("w", *parts[:2], 95)
        calls = [write, ("w", 24, 1, 95), ("w", *parts[:2], 2), ("w", 0, 0, 2), ("S", 1, 1, 1), ("S", 1, 1, 0), ("S", 0, 0, 1), ("x",), ("u",)]
        calls += [("1", 0x94, 0x2C), ("1", 0x80, 0x80), ("2", 0x15, 0x2C), ("q",), ("W",)]
        for mode in (1, 0):
            s = [("k", 2), ("a", 1, [0x41])]
            for call in calls: s += [("C", 0, 0, 0, 0), ("S", bit(.8), bit(.8), mode), ("C", *parts), call, ("u",), write, write]
            yield s

def carrying_records():
    """The operations of the mode with other numbers of argument bytes, between two writes."""
    for letter in b"CS":
        for n in [*range(21), 253, 254]:
            yield [("S", 1, 1, 1), ("w", 24, 1, 95), ("raw", [letter] + [R.choice([0, 7])] * n), ("u",), ("w", 24, 1, 95)]

def counting(several):
    """Scripts with the true count on from the start and from each fresh multiplexer on, and mostly on where the switches are set; both paddings
    are off in half of these places."""
    def pads(a, b): return (0, 0) if bit() else (a, b)
    def on(): return ("S", *pads(bit(), bit()), 0, 1)
    def set_again(a, b, mode=0): return ("S", *pads(a, b), mode, bit(.8))
    for script in several:
        s = [on()]
        for op in script:
            s.append(set_again(*op[1:]) if op[0] == "S" else op)
            if op[0] == "W": s.append(on())
        yield s

def exact(count):
    """Pushes and writes in any order, each write with a padding or the true count on, in every such setting of the four switches."""
    settings = [bits for bits in itertools.product((0, 1), repeat=4) if bits[0] or bits[1] or bits[3]]
    for i in range(count):
        s, rate = [("S", *settings[i % len(settings)])], R.choice(CARRIED)
        for _ in range(R.choice([10, 30, 60])):
            r = R.random()
            if r < .2: s.append(("1", byte(), byte()))
            elif r < .35: s.append(("2", byte(), byte()))
            elif r < .5: queue_blocks(s)
            elif r < .55: s.append(("S", *R.choice(settings)))
            elif r < .6: rate = R.choice(CARRIED)
            else: s.append(("w", *rate, 95))
        yield s + [("w", *rate, 95)]

def read_whole(frames):
    """Frames given to a demultiplexer, which is emptied after each."""
    return [("H",)] + [op for f in frames for op in [("f", list(f))] + [("n",)] * (len(f) // 3 + 1)]

# Caption distribution packets

def two(counter): return [counter >> 8 & 255, counter & 255]

def distribution(counter, triples, code=4, flags=0x43, before=(), behind=(), again=None):
    """A distribution packet; with other flags, bytes before and behind its section of triples, or another counter behind that."""
    body = [*before, 0x72, 0xE0 + len(triples) // 3, *triples, *behind]
    d = [0x96, 0x69, 11 + len(body) & 255, code << 4 | 15, flags, *two(counter), *body, 0x74, *two(counter if again is None else again)]
    return mended(d + [0])

def mended(d):
    """The bytes with a last one that makes the sum right."""
    return d[:-1] + [-sum(d[:-1]) % 256]

def changed(d, at, value): return d[:at] + [value] + d[at + 1:]

def some_triples(n):
    """Triples of pairs, of packets, or of any bytes."""
    kind = R.randrange(3)
    if kind == 0: return R.choices(range(256), k=3 * n)
    if kind == 1: return [b for _ in range(n) for b in (R.choice([0xFC, 0xFD, 0xFE, 0xFF, 0xFA, 0xF8, 0x72, 0x74]), byte(), byte())]
    return [b for i in range(n) for b in (0xFE if i else 0xFF, byte(), byte())]

def a_counter(): return R.choice([0, 1, 255, 256, 32767, 32768, 65534, 65535, R.randrange(65536), R.randrange(65536)])
def a_rate_code(): return R.randrange(1, 9)
def a_count(): return R.choice([0, 1, 2, 10, 20, 30, 31, R.randrange(32)])
def good_packet(counter, n=None): return distribution(counter & 65535, some_triples(a_count() if n is None else n), a_rate_code())

def distribution_bytes(mend):
    """Each byte of a packet changed to every other value, of packets with 0, 2 and 31 triples. Not mended none is accepted, so that the reader is
    still fresh before each, and behind them takes the packet; where the sum is mended, the reader is made fresh before each."""
    for n in (0, 2, 31):
        good = good_packet(a_counter(), n)
        for at in range(len(good) - mend):
            others = [changed(good, at, value) for value in range(256) if value != good[at]]
            if mend: yield [op for d in others for op in (("X",), ("<", mended(d)))]
            else: yield [("<", d) for d in others] + [("<", good)]

def distribution_lengths():
    """Every length from 0 to 120 bytes: of a packet that is cut or has bytes behind it, with the length's byte right too, and with all but the
    length right; with counts around what fits. And lengths up to a whole record."""
    for k in [*range(121), 127, 128, 139, 253, 254]:
        s, long = [], good_packet(7, 31) + R.choices(range(256), k=150)
        forms = [long[:k], changed(long, 2, k)[:k], mended(changed(long, 2, k)[:k]) if k else []]
        for count in sorted({0, 1, 30, 31, R.randrange(32), *((k - 13) // 3 + e for e in (-1, 0, 1))} & {*range(32)}):
            front = [0x96, 0x69, k, a_rate_code() << 4 | 15, 0x43, 0, 8, 0x72, 0xE0 + count] + some(max(0, k - 13))
            d = (front + [0x74, 0, 8, 0])[:k]
            forms += [mended(d) if k else d, mended((front[:max(0, k - 4)] + [0x74, 0, 8, 0])[:k]) if k else d]
            if k > 2: forms += [mended(changed(forms[-1], 2, size & 255)) for size in (k - 1, k + 1)]
        for d in forms: s += [("X",), ("<", d)]
        yield s

def distribution_values():
    """Every value of the flags, of the rate's byte and of the count's byte, with all else right; and every count's byte with as many triples as it
    says."""
    for n in (0, 1, 2, 31):
        good = good_packet(a_counter(), n)
        for at in (3, 4, 8): yield [op for value in range(256) for op in (("X",), ("<", mended(changed(good, at, value))))]
    yield [op for value in range(256) for op in (("X",), ("<", mended(changed(good_packet(a_counter(), value & 31), 8, value))))]

WAYS = [0, 1, 2, 32766, 32767, 32768, 32769, 65534, 65535]
def distribution_counters(count):
    """Counters at every edge and others, and from each every way to a next one; behind that the same once more, and the one behind the first."""
    for last in [0, 1, *range(32766, 32770), 65534, 65535] + [R.randrange(65536) for _ in range(count)]:
        s = []
        for way in WAYS + [R.randrange(65536) for _ in range(count)]:
            again = good_packet(last + way)
            s += [("X",), ("<", good_packet(last)), ("<", again), ("<", again), ("<", good_packet(last + 1))]
        yield s

def distribution_walks(count):
    """Many packets read one after the other, most of them newer."""
    for _ in range(count):
        s, counter = [], a_counter()
        for _ in range(R.choice([10, 40])):
            way = R.choice([1, 1, 1, 2, 100, R.randrange(32768), R.choice(WAYS), R.randrange(65536)])
            s.append(("<", good_packet(counter + way, R.randrange(4))))
            if way < 32768 or R.random() < .1: counter += way
        yield s

def distribution_footers(count):
    """Another counter behind the triples: each bit of it, its bytes the other way round, and any; with the sum right and wrong; newer by one of the
    two, by both and by none."""
    for _ in range(count):
        counter, s = a_counter(), []
        others = [counter ^ 1 << place for place in range(16)] + [(counter & 255) << 8 | counter >> 8, counter + 1, counter - 1, R.randrange(65536)]
        for again in others:
            d = distribution(counter, some_triples(R.randrange(4)), a_rate_code(), again=again & 65535)
            s += [("X",), ("<", good_packet(R.choice([counter, again, counter - 1, again - 1, counter + 1])))]
            s += [("<", d), ("<", changed(d, len(d) - 1, R.randrange(256))), ("X",), ("<", d)]
        yield s

def wrong_section(d):
    """A packet with one thing wrong in it that is a matter of lengths and sections; its sum is not looked at."""
    ways = [lambda: changed(d, 2, R.choice([len(d) - 1, len(d) + 1, 0, 255, R.randrange(256)]))]
    ways += [lambda: changed(d, 3, R.choice([0, 9, 15]) << 4 | R.randrange(16)), lambda: changed(d, 4, d[4] | R.choice([0x80, 0x20, 0xA0]))]
    ways += [lambda: changed(d, 7, R.choice([0x71, 0x73, 0x74, 0x62])), lambda: changed(d, len(d) - 4, R.choice([0x72, 0x73, 0x75, 0x64]))]
    ways += [lambda: changed(d, 8, d[8] ^ R.randrange(1, 32)), lambda: d[:R.randrange(2, len(d))], lambda: d + some(R.randrange(1, 4))]
    return R.choice(ways)()

def distribution_broken(count):
    """Packets for which every set of the five refusals is true at once, behind one that is accepted, and then one that is newer."""
    for reasons in itertools.product((0, 1), repeat=5):
        mark, section, total, footer, old = reasons
        s = []
        for _ in range(count):
            last = a_counter()
            counter = last + (R.choice([0, 32768, 40000, 65535]) if old else R.choice([1, 2, 32767])) & 65535
            again = counter ^ 1 << R.randrange(16) if footer else counter
            d = distribution(counter, some_triples(a_count()), a_rate_code(), again=again)
            if section: d = wrong_section(d)
            if mark:
                at = R.randrange(2)
                d = changed(d, at, R.choice([value for value in (0x96, 0x69, 0, 255, d[at] ^ 1) if value != d[at]]))
            if len(d) > 2: d = mended(d)
            if total: d = changed(d, len(d) - 1, d[-1] ^ R.randrange(1, 256))
            s += [("X",), ("<", good_packet(last)), ("<", d), ("<", good_packet(last + 3))]
        yield s

def distribution_sections(count):
    """Sections of time code and of service information, and others, before and behind the triples, with lengths and sums right, with and without
    their flags; and counts that take what is behind in."""
    for _ in range(count):
        times = [[0x71, 0xC0 | R.randrange(64), 0x80 | R.randrange(128), byte(), byte()] for _ in range(2)]
        infos = [[0x73, 0x80 | m] + some(7 * m) for m in (0, 1, R.randrange(2, 8))]
        s = []
        for section in times + infos + [[R.randrange(0x75, 0xF0), 1, byte()], [0x74, 0, 0], [0x72, 0xE0], [0x72, 0xE1, 0xFC, 0x94, 0x2C]]:
            for flags in (0x43, 0xC3, 0x63, 0xE3, 0x03):
                triples, counter = some_triples(R.choice([0, 1, 2, 20, 28, 31])), a_counter()
                for d in (distribution(counter, triples, 4, flags, before=section), distribution(counter, triples, 4, flags, behind=section)):
                    s += [("X",), ("<", d)]
                taken_in = (len(triples) + len(section)) // 3
                s += [("X",), ("<", mended(changed(d, 8, 0xE0 | taken_in & 31)))]
        yield s

def a_whole_frame(n): return [R.choice([0xC0, 0xC0, 0, 0x20, 0x40, 0xE0]) | n, R.choice([0xFF, 0xFF, byte()])] + some_triples(n)

def distribution_rates_written():
    """Every rate code with frames of 0, 2 and 31 triples and with one that has a wrong length."""
    for n in (0, 2, 31):
        yield [op for code in range(256) for op in [(">", code, 106, a_whole_frame(n))] + [(">", code, R.choice([0, 20]), a_whole_frame(n)[:-1])] * (n == 2)]

def distribution_frames_written():
    """Every count with frames of every length near it and others, and every length with some counts; every first and every second byte."""
    for n in range(32):
        lengths = sorted({0, 1, 2, 3, 4, 5, *range(max(0, 3 * n - 1), 3 * n + 7), 92, 94, 95, 96, 98, 251, 252})
        yield [(">", a_rate_code(), R.choice([106, 255, 255, 0]), (a_whole_frame(n) + some(252))[:k]) for k in lengths]
    lengths = [(k, n) for k in range(121) for n in {0, 1, 31, (k - 2) // 3 % 32, R.randrange(32)}]
    yield from batch([[(">", a_rate_code(), 255, ([0xC0 | n, 0xFF] + some(252))[:k])] for k, n in lengths], 60)
    yield [(">", a_rate_code(), 106, changed(a_whole_frame(first & 31), 0, first)) for first in range(256)]
    yield [(">", a_rate_code(), 20, changed(a_whole_frame(1), 1, second)) for second in range(256)]

def distribution_outputs():
    """Outputs around what a packet needs, with every count; and every output with one of two triples. Then one that fits."""
    for n in range(32):
        size = 13 + 3 * n
        lengths = sorted({0, 1, 12, *range(size - 3, size + 4), 255})
        yield [op for length in lengths for op in ((">", a_rate_code(), length, a_whole_frame(n)), (">", 4, 106, a_whole_frame(n)))]
    yield [(">", a_rate_code(), length, a_whole_frame(2)) for length in range(256)]

def refused_write():
    """A write that is refused for one reason or several."""
    n, r = R.randrange(32), R.randrange(1, 8)
    f = a_whole_frame(n)
    if r & 2: f = R.choice([f[:-1], f + [0], []])
    return (">", R.choice([0, 9, 16, 255]) if r & 1 else a_rate_code(), R.randrange(13 + 3 * n) if r & 4 else 255, f)

def distribution_counters_written():
    """The writer's counter at the edges and anywhere, with writes that are refused between those that are not."""
    for first in [0, 1, 254, 255, 256, 32767, 32768, 65533, 65534, 65535] + [R.randrange(65536) for _ in range(20)]:
        s = [("Y", *two(first))]
        for _ in range(6): s += [refused_write() for _ in range(R.randrange(3))] + [(">", a_rate_code(), R.choice([106, 200]), a_whole_frame(R.randrange(32)))]
        yield s
    yield from batch([[("Y", *two(first))] + [(">", 4, 13, [0xC0, 0xFF])] * 3 for first in range(0, 65536, 257)], 16)

def distribution_journeys(count):
    """Frames written and what is written read, in order, with refused writes and with packets lost, read twice, late or damaged."""
    for _ in range(count):
        counter, s, packets = a_counter(), [], []
        s.append(("Y", *two(counter)))
        for _ in range(R.choice([4, 12, 30])):
            if R.random() < .2: s.append(refused_write())
            code, f = a_rate_code(), a_whole_frame(a_count())
            s.append((">", code, R.choice([106, 106, 255]), f))
            packets.append(distribution(counter, f[2:], code))
            counter = counter + 1 & 65535
            r = R.random()
            if r < .8: s.append(("<", packets[-1]))
            if r < .1: s.append(("<", packets[-1]))
            elif r < .2: s.append(("<", R.choice(packets)))
            elif r < .3: s.append(("<", changed(packets[-1], R.randrange(len(packets[-1])), R.randrange(256))))
        yield s

def distribution_anything(count):
    """Reads and writes of distribution packets in any order, and other operations between them."""
    for _ in range(count):
        s, counter = [], a_counter()
        for _ in range(30):
            r = R.random()
            if r < .3:
                way = R.choice([1, 1, 1, 2, R.choice(WAYS)])
                s.append(("<", good_packet(counter + way)))
                counter += way
            elif r < .36: s.append(("<", wrong_section(good_packet(counter + 1))))
            elif r < .4: s.append(("<", R.choices(range(256), k=R.randrange(255))))
            elif r < .65: s.append((">", a_rate_code(), R.choice([106, 106, 255, R.randrange(107)]), a_whole_frame(a_count())))
            elif r < .72: s.append(refused_write())
            elif r < .76: s.append(("X",))
            elif r < .8: s.append(("Y", *two(a_counter())))
            elif r < .88: queue_blocks(s)
            else: s.append(R.choice([("1", byte(), byte()), ("w", 30, 1, 95), ("w", 24, 1, 2), ("S", bit(), bit()), ("u",), ("R",), ("W",), ("b", 3), ("p", [1, 0]), ("x",)]))
        yield s + [(">", 1, 13, [0xC0, 0xFF]), ("<", good_packet(counter + 1))]

def distribution_records():
    """The operations of distribution packets with other numbers of argument bytes, and what follows from the counters being as they were."""
    for letter in b"X<Y>":
        for n in [*range(16), 253, 254]:
            s = [("Y", 1, 2), ("<", good_packet(9, 0)), ("raw", [letter] + [R.choice([0, 7])] * n)]
            yield s + [("<", good_packet(9, 0)), ("<", good_packet(10, 0)), (">", 4, 13, [0xC0, 0xFF])]

def not_there():
    """Every operation byte with every number of argument bytes up to 12, and a record of no bytes."""
    yield [("raw", [])]
    for op in range(256):
        yield [("raw", [op] + [0xFF] * n) for n in range(13)]

def endings():
    """Input whose last record is cut short or has a wrong mark, as bytes."""
    whole = b"".join(map(encode, [("m",), ("b", 7), ("o", 3)]))
    yield "input that ends within a record", [whole[:n] for n in range(len(whole) + 1)]
    marks = [b"\xCC", b"\xCD", b"\xCC\x5D", b"\xCC\xDA\x00", b"\xCC\xCD\x00", b"\x5C\xCC\x01m", b"\x00\x00\x00\x00", b"\xCC\x5C\xFFm"]
    yield "input with a wrong mark", [before + mark for before in (b"", whole) for mark in marks]

def encode(op):
    """The record of an operation."""
    k, args = op[0], op[1:]
    if k == "raw": return bytes([0xCC, 0x5C, len(args[0]), *args[0]])
    if k in "cdyptfg<": body = list(args[0])
    elif k in "ai": body = [args[0], *args[1]]
    elif k == ">": body = [args[0], args[1], *args[2]]
    elif k == "S": body = [sum(bit << place for place, bit in enumerate(args))]
    elif k == "C": body = [b for number in args for b in number.to_bytes(4, "big")]
    elif k == "Z": body = list(args[0].to_bytes(8, "big"))
    elif k == "w": body = [*args[0].to_bytes(4, "big"), *args[1].to_bytes(4, "big"), args[2]]
    else: body = list(args)
    return bytes([0xCC, 0x5C, len(body) + 1, ord(k), *body])

def generate(seed, written, scale=1.0):
    """All kinds; `written` runs scripts by the crate and gives the frames that each writes."""
    R.seed(seed)
    c = lambda n: max(1, int(n * scale))
    yield "blocks, every string of up to two bytes", short_strings("d")
    yield "payloads handed back, every string of up to two bytes", short_strings("y")
    yield "packets, every string of up to two bytes", short_strings("p")
    yield "packets read tidily, every string of up to two bytes", short_strings("t")
    yield "blocks, every first two bytes", block_headers()
    yield "packets, every first two bytes", packet_headers("p")
    yield "packets read tidily, every first two bytes", packet_headers("t")
    yield "blocks read", block_reading()
    yield "packets read", packet_reading(c(1500), "p")
    yield "packets read tidily", packet_reading(c(1500), "t")
    yield "blocks and packets cut at every byte", cut_everywhere(c(150))
    yield "null headers of both forms at every place", null_headers(c(60))
    yield "blocks pushed to and written", block_pushes(c(300))
    yield "packets pushed to and written", packet_pushes(c(600))
    yield "frames, whole and damaged", frames(c(1000))
    yield "frames of triples of every type in every order", frames_small(4)
    yield "frames around 32 waiting packets", frame_full()
    yield "multiplexer", mux(c(1000))
    yield "multiplexer, queues full", mux_full()
    yield "multiplexer, every queue near the budgets", grid()
    yield "rates", rates(c(1000))
    yield "durations", durations()
    yield "multiplexer into demultiplexer", journeys(c(600), written)
    yield "raw fields", raw_fields(c(300))
    yield "services of a packet, and other sets", services(c(1500))
    yield "anything", anything(c(1000))
    yield "operations that are not there", not_there()
    yield "codes, every one", every_code()
    yield "codes, every payload of up to two bytes", short_strings("g")
    yield "codes, every first byte at every cut", codes_cut()
    yield "codes, random payloads", codes(c(1000))
    yield "codes of packets", codes_of_packets(c(1000), raw=True)

def generate_reading(seed, scale=1.0):
    """Kinds of reading, of operations that the reckoning knows."""
    R.seed(seed + 2)
    c = lambda n: max(1, int(n * scale))
    for kind, op in (("blocks", "d"), ("packets", "p"), ("packets read tidily", "t")):
        yield f"{kind}, every string of up to two bytes, by the reckoning", short_strings(op)
    yield "blocks, every first two bytes, by the reckoning", block_headers()
    yield "packets read tidily, every first two bytes, by the reckoning", packet_headers("t")
    yield "packets read tidily, by the reckoning", packet_reading(c(1500), "t")
    yield "blocks and packets cut at every byte, by the reckoning", cut_everywhere(c(300))
    yield "null headers of both forms at every place, by the reckoning", null_headers(c(150))

def generate_codes(seed, scale=1.0):
    """Kinds of codes, of operations that the reckoning knows."""
    R.seed(seed + 3)
    c = lambda n: max(1, int(n * scale))
    yield "codes, every one, by the reckoning", every_code()
    yield "codes, every payload of up to two bytes, by the reckoning", short_strings("g")
    yield "codes, every first byte at every cut, by the reckoning", codes_cut()
    yield "codes, random payloads, by the reckoning", codes(c(2000))
    yield "codes of packets, by the reckoning", codes_of_packets(c(2000))

def generate_distribution(seed, scale=1.0):
    """Kinds of distribution packets, of operations that the reckoning knows."""
    R.seed(seed + 4)
    c = lambda n: max(1, int(n * scale))
    yield "distribution packets, every byte changed", distribution_bytes(False)
    yield "distribution packets, every byte changed and the sum mended", distribution_bytes(True)
    yield "distribution packets, every length", distribution_lengths()
    yield "distribution packets, every rate, flag and count", distribution_values()
    yield "distribution packets, counters at every edge", distribution_counters(c(10))
    yield "distribution packets, many in a row", distribution_walks(c(60))
    yield "distribution packets, another counter behind the triples", distribution_footers(c(15))
    yield "distribution packets, several refusals at once", distribution_broken(c(40))
    yield "distribution packets, other sections", distribution_sections(c(15))
    yield "distribution packets written, every rate code", distribution_rates_written()
    yield "distribution packets written, every length of a frame", distribution_frames_written()
    yield "distribution packets written, every output", distribution_outputs()
    yield "distribution packets written, counters", distribution_counters_written()
    yield "distribution packets written and read", distribution_journeys(c(100))
    yield "distribution packets, any order of calls", distribution_anything(c(150))
    yield "distribution packets, records of other lengths", distribution_records()

def generate_counting(seed, written, scale=1.0):
    """The kinds with writes, with the true count."""
    R.seed(seed)
    c = lambda n: max(1, int(n * scale))
    yield "true count, multiplexer", counting(mux(c(1000)))
    yield "true count, queues full", counting(mux_full())
    yield "true count, every queue near the budgets", counting(grid())
    yield "true count, rates", counting(rates(c(300)))
    yield "true count, durations", counting(durations())
    yield "true count, multiplexer into demultiplexer", journeys(c(400), written, counting)
    yield "true count, raw fields", counting(raw_fields(c(100)))
    yield "true count, anything", counting(anything(c(600)))

def generate_carrying(seed, scale=1.0):
    """The kinds for the carrying mode, of operations that the reckoning knows."""
    R.seed(seed)
    c = lambda n: max(1, int(n * scale))
    yield "carrying mode, rates", carrying_rates(c(300))
    yield "carrying mode, many writes at one rate", carrying_runs(c(300))
    yield "carrying mode, any order of calls", carrying(c(600))
    yield "carrying mode, raw parts", carrying_raw()
    yield "carrying mode, records of other lengths", carrying_records()

def generate_carrying_counting(seed, scale=1.0):
    """The same with the true count."""
    for kind, several in generate_carrying(seed + 1, scale / 3): yield kind.replace("carrying mode,", "carrying mode with the true count,"), counting(several)
