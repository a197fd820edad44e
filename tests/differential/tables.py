"""Table files from a seed: yards in order, boundary values of every field, bursts, rates that divide no second,
arrivals near the last one, damaged and cut files."""
import random

LAST_ARRIVAL = 4 * 10 ** 18


def group(i, traffic_class, residence):
    return b'GR' + bytes([i, traffic_class]) + residence.to_bytes(8, 'big')


def group_default(i, traffic_class):
    return b'GD' + bytes([i, traffic_class])


def stream(i, of, rate, burst):
    return b'ST' + bytes([i, of]) + rate.to_bytes(8, 'big') + burst.to_bytes(4, 'big')


def frame(i, octets, arrival):
    return b'FR' + bytes([i]) + octets.to_bytes(2, 'big') + arrival.to_bytes(8, 'big')


# each end of a range, and the numbers beside it
IDS = [0, 1, 14, 15, 16, 17, 62, 63, 64, 65, 255]
CLASSES = [0, 1, 6, 7, 8, 255]
RESIDENCES = [0, 1, 74_666, 74_667, 224_000, 10_000_000, 9_999_999_999, 10_000_000_000, 10_000_000_001, 2 ** 64 - 1]
RATES = [0, 999, 1_000, 1_001, 9_000_000, 999_999_937, 9_999_999_967, 10_000_000_000, 10_000_000_001, 2 ** 64 - 1]
BURSTS = [0, 1, 167, 168, 671, 672, 673, 1_344, 16_159, 16_160, 15_999_999, 16_000_000, 16_000_001, 2 ** 32 - 1]
OCTETS = [0, 1, 2, 63, 64, 65, 1_522, 1_999, 2_000, 2_001, 65_535]
ARRIVALS = [0, 1, 1_000, LAST_ARRIVAL - 1, LAST_ARRIVAL, LAST_ARRIVAL + 1, 2 ** 63, 2 ** 64 - 1]


def boundary(rng, n):
    """Any record with any boundary value."""
    out = [group(0, 6, 224_000), stream(0, 0, 9_000_000, 1_344)]
    for _ in range(n):
        kind = rng.random()
        if kind < 0.1:
            out.append(group(rng.choice(IDS), rng.choice(CLASSES), rng.choice(RESIDENCES)))
        elif kind < 0.15:
            out.append(group_default(rng.choice(IDS), rng.choice(CLASSES)))
        elif kind < 0.3:
            out.append(stream(rng.choice(IDS), rng.choice(IDS[:5]), rng.choice(RATES), rng.choice(BURSTS)))
        else:
            arrival = rng.choice(ARRIVALS) if rng.random() < 0.3 else rng.randrange(10_000_000)
            out.append(frame(rng.choice(IDS), rng.choice(OCTETS), arrival))
    return b''.join(out)


def a_rate(rng, whole):
    """A rate that divides a second's ticks, or a prime that doesn't, or any."""
    if whole:
        return rng.choice([1_000, 1_000_000, 8_000_000, 10_000_000, 100_000_000, 1_000_000_000])
    return rng.choice([rng.randrange(1_000, 10 ** 10 + 1), rng.randrange(1_000_000, 100_000_000), 999_983, 9_999_999_967, 7_000_003])


def yard(rng, n, start=0):
    """Groups, streams and frames in order, at about the streams' rates: bursts, pauses, now and then a step back."""
    whole = rng.random() < 0.3
    groups = rng.sample(range(16), rng.randint(1, 8))
    residence = rng.choice([0, 50_000, 1_000_000, 100_000_000, 10_000_000_000])
    out = [rng.choice([group(i, rng.randrange(8), residence), group_default(i, rng.randrange(8))]) for i in groups]
    streams = rng.sample(range(64), rng.randint(1, 24))
    rates = {i: a_rate(rng, whole) for i in streams}
    bursts = {i: rng.choice([672, 1_344, 16_160, rng.randrange(672, 200_000)]) for i in streams}
    out += [stream(i, rng.choice(groups), rates[i], bursts[i]) for i in streams]
    now = start
    step = rng.choice([0, 1, 1_000, 80_000, 2_000_000])
    while len(out) < n:
        i = rng.choice(streams)
        for _ in range(rng.choice([1, 1, 1, 2, 5, 40])):
            octets = rng.choice([64, 64, 300, 1_500, rng.randint(1, 2_000)])
            out.append(frame(i, octets, now))
        if rng.random() < 0.02:
            now = max(0, now - rng.randrange(step + 1))
        else:
            now += rng.randrange(step + 1)
        if rng.random() < 0.01:
            now += 10_000_000
    return b''.join(out[:n])


def damaged(rng, data):
    """A byte changed, lost or put in, a piece cut out, or an end cut off."""
    data = bytearray(data)
    for _ in range(rng.randint(1, 3)):
        if not data:
            break
        at = rng.randrange(len(data))
        kind = rng.randrange(5)
        if kind == 0:
            data[at] = rng.randrange(256)
        elif kind == 1:
            del data[at]
        elif kind == 2:
            data.insert(at, rng.randrange(256))
        elif kind == 3:
            del data[at:at + rng.randint(1, 20)]
        else:
            del data[at:]
    return bytes(data)


def table(seed):
    """The table of a seed, and the arguments of its replay."""
    rng = random.Random(seed)
    size = rng.choice([0, 1, 2, 5, 20, 60, 200, 200, 600, 600])
    if seed % 200 == 0:
        size = 100_000 if seed % 400 == 0 else 60_000
    elif seed % 25 == 0:
        size = 12_000
    kind = seed % 5
    if kind == 0:
        data = yard(rng, size)
    elif kind == 1:
        data = boundary(rng, size)
    elif kind == 2:
        data = yard(rng, size, LAST_ARRIVAL - rng.randrange(10_000_000))
    elif kind == 3:
        data = damaged(rng, yard(rng, size))
    else:
        data = yard(rng, size, rng.randrange(LAST_ARRIVAL))
    rate = rng.choice([10_000_000, 100_000_000, 1_000_000_000, 10_000_000_000, rng.randrange(10_000_000, 10 ** 10), 9_999_999])
    words = [str(rate)]
    if rng.random() < 0.4:
        words.append(str(rng.choice([0, 1, 1_000_000, LAST_ARRIVAL, LAST_ARRIVAL + 1, 5 * 10 ** 18, 5 * 10 ** 18 + 1])))
    return data, words
