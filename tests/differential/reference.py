"""What the listing and the replay print, worked out from document 01 with exact fractions.

Written from the documents alone, sentence by sentence: no number here is taken from the proved code.
"""
from fractions import Fraction
from math import ceil

BILLION = 10 ** 9

# 'Quantities'
LAST_STREAM, LAST_GROUP, LAST_CLASS = 63, 15, 7
OCTETS = range(1, 2_000 + 1)
RATES = range(1_000, 10_000_000_000 + 1)
BURSTS = range(1, 16_000_000 + 1)
RESIDENCES = range(0, 10_000_000_000 + 1)
LAST_ARRIVAL = 4 * 10 ** 18
LINE_RATES = range(10_000_000, 10_000_000_000 + 1)
LATEST_LINE_FREE = 5 * 10 ** 18
LATEST_PICK = 4 * 10 ** 18
PLACES = 32
MOST_ARRIVALS = 65_536
DEFAULT_RESIDENCE = 10_000_000


def charged_bits(octets):
    return 8 * (octets + 20)


# ---- 'One frame through a scheduler'


class Group:
    def __init__(self, traffic_class, residence):
        self.traffic_class = traffic_class
        self.residence = residence
        self.time = 0
        self.last = 0
        self.discards = 0


class Stream:
    def __init__(self, group, rate, burst):
        self.group = group
        self.rate = rate
        self.burst = burst
        self.empty = Fraction(-burst * BILLION, rate)


class Bridge:
    def __init__(self):
        self.groups = {}
        self.streams = {}

    def set_up_group(self, group, traffic_class, residence):
        """Group 15, 16, 21, 20."""
        if group > LAST_GROUP:
            return 15
        if group in self.groups:
            return 16
        if traffic_class > LAST_CLASS:
            return 21
        if residence not in RESIDENCES:
            return 20
        self.groups[group] = Group(traffic_class, residence)
        return 0

    def set_up_stream(self, stream, group, rate, burst):
        """Stream 15, 16, 17, 9, 18, 19; from a fresh start nothing is unsound."""
        if stream > LAST_STREAM:
            return 15
        if stream in self.streams:
            return 16
        if group not in self.groups:
            return 17
        if rate not in RATES:
            return 18
        if burst not in BURSTS:
            return 19
        self.streams[stream] = Stream(group, rate, burst)
        return 0

    def frame(self, stream, octets, arrival):
        """Frame 10, 9, 11, 12, 13, 14, then judging: the number, and T where there is one."""
        if stream not in self.streams:
            return 10, None
        s = self.streams[stream]
        g = self.groups[s.group]
        bits = charged_bits(octets)
        if octets not in OCTETS:
            return 11, None
        if bits > s.burst:
            return 12, None
        if arrival > LAST_ARRIVAL:
            return 13, None
        if arrival < g.last:
            return 14, None
        start = s.empty + Fraction(bits * BILLION, s.rate)
        full = s.empty + Fraction(s.burst * BILLION, s.rate)
        t = max(arrival, g.time, ceil(start))
        g.last = arrival
        if t > arrival + g.residence:
            g.discards = (g.discards + 1) % 2 ** 32
            return 1, t
        g.time = t
        s.empty = start if t < full else start + t - full
        return 0, t


# ---- 'The table file'

FIELDS = {b'GR': (1, 1, 8), b'GD': (1, 1), b'ST': (1, 1, 8, 4), b'FR': (1, 2, 8)}


def records(data):
    """The records as (mark, fields); then 5, 24 or 25."""
    at = 0
    while True:
        left = len(data) - at
        if left == 0:
            yield 5, None
            return
        if left == 1:
            yield 25, None
            return
        mark = data[at:at + 2]
        if mark not in FIELDS:
            yield 24, None
            return
        if left < 2 + sum(FIELDS[mark]):
            yield 25, None
            return
        at += 2
        fields = []
        for width in FIELDS[mark]:
            fields.append(int.from_bytes(data[at:at + width], 'big'))
            at += width
        yield mark, fields


def set_up(bridge, mark, fields):
    if mark == b'GR':
        return bridge.set_up_group(*fields)
    if mark == b'GD':
        return bridge.set_up_group(*fields, DEFAULT_RESIDENCE)
    return bridge.set_up_stream(*fields)


def listing(data):
    bridge = Bridge()
    lines = []
    for mark, fields in records(data):
        if mark == 5:
            break
        if mark in (24, 25):
            lines.append(f'{len(lines) + 1} -- {mark} -')
            break
        if mark == b'FR':
            number, t = bridge.frame(*fields)
        else:
            number, t = set_up(bridge, mark, fields), None
        lines.append(f"{len(lines) + 1} {mark.decode()} {number} {'-' if t is None else t}")
    lines.append(f'end {len(lines)}')
    return '\n'.join(lines) + '\n'


# ---- 'Waiting and picking' and 'A run against a line'


def run(bridge, arrivals, line_rate, line_free):
    """From empty places, with pick lists and a budget that suffice: (numbers, picks, stop, next, line-free, events)."""
    if line_rate not in LINE_RATES or line_free > LATEST_LINE_FREE:
        return None
    waiting = [[] for _ in range(LAST_CLASS + 1)]
    numbers, picks, place, events = [], [], 0, 0
    while True:
        times = [entry[0] for queue in waiting for entry in queue]
        candidate = max(line_free, min(times)) if times else None
        arrives = place < len(arrivals) and (candidate is None or arrivals[place][2] <= candidate)
        if not arrives and candidate is None:
            return numbers, picks, 0, place, line_free, events
        if not arrives and candidate > LATEST_PICK:
            return numbers, picks, 27, place, line_free, events
        events += 1
        if arrives:
            stream, octets, arrival = arrivals[place]
            number, t = bridge.frame(stream, octets, arrival)
            if number == 0:
                queue = waiting[bridge.groups[bridge.streams[stream].group].traffic_class]
                if len(queue) == PLACES:
                    number = 22
                else:
                    queue.append((t, place, charged_bits(octets)))
            numbers.append(number)
            place += 1
        else:
            queue = next(q for q in reversed(waiting) if any(entry[0] <= candidate for entry in q))
            # the smallest time; min gives the first of equals, which is the one entered first
            leaves = min(queue, key=lambda entry: entry[0])
            queue.remove(leaves)
            picks.append((leaves[1], candidate))
            line_free = candidate + ceil(Fraction(leaves[2] * BILLION, line_rate))


def replay(data, line_rate, line_free=0):
    """What stands on standard output; None where it must stay empty and standard error has a line."""
    bridge = Bridge()
    arrivals = []
    for mark, fields in records(data):
        if mark == 5:
            break
        if mark in (24, 25):
            return None
        if mark == b'FR':
            if len(arrivals) == MOST_ARRIVALS:
                return None
            arrivals.append(tuple(fields))
        else:
            set_up(bridge, mark, fields)
    ran = run(bridge, arrivals, line_rate, line_free)
    if ran is None:
        return 'refused 29\n'
    numbers, picks, stop, place, free, events = ran
    lines = [f'{k} {number}' for k, number in enumerate(numbers)]
    lines += [f'pick {handle} {moment}' for handle, moment in picks]
    lines.append(f'stop {stop} next {place} free {free} events {events} picks {len(picks)}')
    return '\n'.join(lines) + '\n'
