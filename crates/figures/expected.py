#!/usr/bin/env python3
"""Prints crates/figures/stdout by a way of its own: document 01's rules with exact fractions, and a ledger that is a dictionary.

It shares nothing with the Rattle code. `python3 crates/figures/expected.py | cmp - crates/figures/stdout` holds the stored output to it."""
from fractions import Fraction
from functools import cache


def line(*words):
    print(*words)


def nearest(q):
    size = (2 * abs(q) + 1) // 2
    return int(size) if q >= 0 else -int(size)


# ---- the power curve

CORNERS = [(59750, 100, 100), (59860, 52, 52), (59980, 9, -9), (60020, 9, -9), (60140, -52, -52), (60250, -100, -100)]


@cache
def moved(reference):
    """Every corner moves with the reference."""
    return [(f + reference - 60000, upper, lower) for f, upper, lower in CORNERS]


@cache
def bound(f, which, reference=60000):
    corners = moved(reference)
    if f <= corners[0][0]:
        return corners[0][which]
    for p, q in zip(corners, corners[1:]):
        if f <= q[0]:
            return nearest(p[which] + Fraction(f - p[0], q[0] - p[0]) * (q[which] - p[which]))
    return corners[-1][which]


def curve(f, reference=60000):
    if not 59500 <= reference <= 60500:
        return 19, 0, 0
    return (0, bound(f, 1, reference), bound(f, 2, reference)) if 55000 <= f <= 65000 else (4, 0, 0)


LEAST, MOST = -(2**63), 2**63 - 1

line("document 002, table 1: the step test")
STEPS = [60010, 59990, 60020, 59980, 60070, 59930, 60140, 59860, 60200, 59800, 60250, 59750, 60300, 59700, 60400, 59600, 60500, 59500]
for i, f in enumerate(STEPS, 1):
    line("F%02d" % i, f, *curve(f))
line("document 01: the curve")
for label, f in [("worked", 59900), ("tie", 59920), ("tie", 60080), ("worked", 59980), ("worked", 59750)]:
    line(label, f, *curve(f))
line("frequencies at and past the limits")
for label, f in [("least", 55000), ("most", 65000), ("below", 54999), ("above", 65001), ("zero", 0), ("i64", LEAST), ("i64", MOST)]:
    line(label, f, *curve(f))
line("document 02, #107: the curve by a moved reference")
for by, words in [(300, "and 0.3"), (-500, "less 0.5")]:
    for f, upper, lower in CORNERS:
        assert curve(f + by, 60000 + by) == (0, upper, lower)
        line("%.2f" % (f / 1000), words, f + by, 60000 + by, *curve(f + by, 60000 + by))
for label, f, reference in [
    ("most", 60400, 60500),
    ("least", 59400, 59500),
    ("below", 59400, 59499),
    ("above", 60400, 60501),
    ("above, and the frequency", 54999, 60501),
    ("the frequency", 54999, 60500),
    ("i64", LEAST, MOST),
]:
    line(label, f, reference, *curve(f, reference))
line("megawatts to kilowatts")
for mw in [5, -8, 0, 100, -100, 101, -101, LEAST, MOST]:
    line("MW", mw, *((0, mw * 1000) if -100 <= mw <= 100 else (10, 0)))


# ---- the month ledger


class Ledger:
    def __init__(self, days, forged=False):
        self.days, self.hours, self.basic, self.excess, self.closed, self.forged = days, {}, 0, 0, False, forged

    def copy(self):
        m = Ledger(self.days, self.forged)
        m.hours, m.basic, m.excess, m.closed = dict(self.hours), self.basic, self.excess, self.closed
        return m

    def inside(self, d, h):
        return 1 <= d <= self.days and 0 <= h <= 23

    def refused(self, d=None, h=None, bad=False, want=None):
        if self.forged:
            return 22
        if self.closed:
            return 9
        if d is not None and not self.inside(d, h):
            return 6
        if bad:
            return 3
        if want is not None and ((d, h) in self.hours) != want:
            return 8 if want else 7
        return 0

    def put(self, k, change):
        m = self.copy()
        if k == 0:
            change(m)
        return k, m

    def post(self, d, h, a):
        return self.put(self.refused(d, h, abs(a) > 10**9, False), lambda m: m.hours.__setitem__((d, h), a))

    def replace(self, d, h, a):
        return self.put(self.refused(d, h, abs(a) > 10**9, True), lambda m: m.hours.__setitem__((d, h), a))

    def withdraw(self, d, h):
        return self.put(self.refused(d, h, False, True), lambda m: m.hours.__delitem__((d, h)))

    def set_fee(self, which, a):
        return self.put(self.refused(bad=not 0 <= a <= 10**11), lambda m: setattr(m, which, a))

    def set_basic_fee(self, a):
        return self.set_fee("basic", a)

    def set_excess_fee(self, a):
        return self.set_fee("excess", a)

    def close(self):
        return self.put(self.refused(), lambda m: setattr(m, "closed", True))

    def hour(self, d, h):
        if self.forged:
            return 22, 0
        if not self.inside(d, h):
            return 6, 0
        return (0, self.hours[d, h]) if (d, h) in self.hours else (8, 0)

    def day(self, d):
        if self.forged:
            return 22, 0
        return (0, sum(a for (e, _), a in self.hours.items() if e == d)) if self.inside(d, 0) else (6, 0)

    def total(self):
        return (22, 0) if self.forged else (0, sum(self.hours.values()) - self.basic - self.excess)

    def fees(self):
        return (22, 0, 22, 0) if self.forged else (0, self.basic, 0, self.excess)

    def standing(self):
        return (22, 0) if self.forged else (0, len(self.hours))


def opened(days):
    return (0, Ledger(days)) if 28 <= days <= 31 else (6, Ledger(0, forged=True))


def book(label, answer):
    k, m = answer
    line(label, k, *m.total())
    return m


def read_out(m):
    line("read-outs", *m.hour(3, 10), *m.day(3), *m.total(), *m.standing())


def read_fees(m):
    line("fees", *m.fees())


line("a month by hand")
m = book("open 31", opened(31))
m = book("post", m.post(3, 10, 7800))
m = book("post again", m.post(3, 10, 6280))
m = book("basic fee", m.set_basic_fee(8658))
read_out(m)
m = book("replace", m.replace(3, 10, 6280))
m = book("withdraw", m.withdraw(3, 10))
m = book("withdraw empty", m.withdraw(3, 10))
m = book("replace empty", m.replace(3, 10, 1))
m = book("post withdrawn", m.post(3, 10, -5))
m = book("basic fee again", m.set_basic_fee(100))
read_out(m)
m = book("close", m.close())
m = book("close closed", m.close())
m = book("post closed", m.post(4, 0, 1))
m = book("replace closed", m.replace(3, 10, 1))
m = book("withdraw closed", m.withdraw(3, 10))
m = book("basic fee closed", m.set_basic_fee(1))
read_out(m)

line("the ledger at and past the limits")
for days in (27, 28, 32, 255):
    book("open %d" % days, opened(days))
m = book("open 30", opened(30))
for label, d, h, a in [
    ("day 0", 0, 0, 1),
    ("day 30", 30, 23, 1),
    ("day 31", 31, 0, 1),
    ("hour 24", 1, 24, 1),
    ("day 255 hour 255", 255, 255, 1),
    ("amount least", 1, 0, -(10**9)),
    ("amount below", 1, 0, -(10**9) - 1),
    ("amount most", 1, 0, 10**9),
    ("amount above", 1, 0, 10**9 + 1),
    ("amount i64", 1, 0, LEAST),
]:
    book(label, m.post(d, h, a))
for label, a in [("basic fee zero", 0), ("basic fee below", -1), ("basic fee most", 10**11), ("basic fee above", 10**11 + 1), ("basic fee i64", MOST)]:
    book(label, m.set_basic_fee(a))
for label, a in [("excess fee below", -1), ("excess fee most", 10**11), ("excess fee above", 10**11 + 1)]:
    book(label, m.set_excess_fee(a))

line("the two loss fees")
_, m = opened(31)
m = book("post", m.post(3, 10, 300000))
m = book("basic fee", m.set_basic_fee(1))
m = book("excess fee", m.set_excess_fee(100800))
read_fees(m)
m = book("basic fee again", m.set_basic_fee(151200))
assert m.total() == (0, 300000 - 151200 - 100800)
read_fees(m)
m = book("close", m.close())
m = book("basic fee closed", m.set_basic_fee(2))
m = book("excess fee closed", m.set_excess_fee(2))
read_fees(m)

line("the largest month")
for label, a in [("most", 10**9), ("least", -(10**9))]:
    _, m = opened(31)
    for d in range(1, 32):
        for h in range(24):
            _, m = m.post(d, h, a)
    book(label + " and the largest fees", m.set_basic_fee(10**11)[1].set_excess_fee(10**11))
    read_out(m)

for what in [
    "an amount in an empty place",
    "a filled place past the month's end",
    "27 days",
    "a basic fee below 0",
    "an excess fee past the limit",
    "an amount past the limit",
    "what a refused open hands back",
]:
    line("forged: " + what)
    m = Ledger(30, forged=True)
    book("post", m.post(3, 10, 1))
    book("replace", m.replace(3, 10, 1))
    book("withdraw", m.withdraw(3, 10))
    book("basic fee", m.set_basic_fee(1))
    book("excess fee", m.set_excess_fee(1))
    book("close", m.close())
    read_out(m)
    read_fees(m)

line("in place, past the month")
_, m = opened(28)
for label, place in [
    ("first", 0),
    ("last", 671),
    ("past the month", 672),
    ("last place", 743),
    ("past every place", 744),
    ("usize", 2**64 - 1),
]:
    d, h = place // 24 + 1, place % 24
    k, m = m.post(d, h, 5)
    line(label, k, *m.hour(d, h))
line("total", *m.total())


# ---- runs


def away(q):
    size = -(-abs(q) // 1)
    return int(size) if q >= 0 else -int(size)


def planned(last, target, n):
    return last + away(Fraction(n * (target - last), 300)) if n <= 300 else target


def mixed(numbers):
    s = 0
    for x in numbers:
        s = (s * 31 + x) % 2**32
    return s


def check_sum(run):
    return mixed(y for x in run for y in (int(x < 0), abs(x)))


def transfers(targets):
    return [planned(last, target, n) for last, target in zip(targets, targets[1:]) for n in range(1, 901)]


# ---- the transfer ramp

PRINTED = [*range(1, 11), 298, 299, 300]
TABLE_2 = {
    "case 1": (0, 5000, [17, 34, 50, 67, 84, 100, 117, 134, 150, 167, 4967, 4984, 5000]),
    "case 2": (0, -8000, [-27, -54, -80, -107, -134, -160, -187, -214, -240, -267, -7947, -7974, -8000]),
    "case 3": (20000, 10000, [20000 - d for d in (34, 67, 100, 134, 167, 200, 234, 267, 300, 334, 9934, 9967, 10000)]),
    "no change": (20000, 20000, [20000] * 13),
}


def ramp(label, last, target, run):
    k = 1 if len(run) != 900 else 10 if max(abs(last), abs(target)) > 100000 else 0
    if k == 0:
        run = [planned(last, target, n) for n in range(1, 901)]
    line(label, k, check_sum(run))
    return run


line("document 000, table 2: the ramp second by second")
for label, (last, target, printed) in TABLE_2.items():
    run = ramp(label, last, target, [0] * 900)
    assert [run[n - 1] for n in PRINTED] == printed
    for n in [*PRINTED, 301, 900]:
        line("second", n, run[n - 1])
line("ramps at and past the limits")
run = [7] * 900
for label, last, target in [
    ("limits", -100000, 100000),
    ("limits", 100000, -100000),
    ("last above", 100001, 0),
    ("last below", -100001, 0),
    ("target above", 0, 100001),
    ("target below", 0, -100001),
    ("i64", LEAST, MOST),
]:
    run = ramp(label, last, target, run)
ramp("899 places", 0, 5000, [7] * 899)
ramp("899 places and a target above", 0, 100001, [7] * 899)
ramp("901 places", 0, 5000, [7] * 901)


# ---- a second's score, an hour's rate


@cache
def score(power, transfer, capacity, f, reference=60000):
    output = nearest(Fraction(100 * (power - transfer), capacity))
    _, upper, lower = curve(f, reference)
    return 100 if lower <= output <= upper else max(0, 100 - min(abs(output - upper), abs(output - lower)))


def judged(power, transfer, capacity, f, reference):
    if not 1 <= capacity <= 100000:
        return 2, 0
    if not 59500 <= reference <= 60500:
        return 19, 0
    if abs(transfer) > 100000:
        return 10, 0
    if abs(power) > 200000 or not 55000 <= f <= 65000:
        return 4, 0
    return 0, score(power, transfer, capacity, f, reference)


def second(power, transfer, capacity, f):
    k, s = judged(power, transfer, capacity, f, 60000)
    line("second", power, transfer, capacity, f, k, s)
    return s


def rolling(scores, earlier=[]):
    """The rolling rates of an hour by its scores and, of the hour before, the last ones or none (#102)."""
    run = earlier + scores
    return [max(run[max(0, i - 3) : i + 1]) for i in range(len(earlier), len(run))]


def rate(label, scores, earlier=[]):
    k, r = 0, 0
    if len(scores) != 3600 or len(earlier) not in (0, 3):
        k = 1
    elif max(earlier + scores) > 100:
        k = 4
    else:
        r = min(rolling(scores, earlier))
    line(label, k, r)
    return k, r


def verdict(scores, earlier, threshold):
    """Refusal, whether the hour reached the threshold, the second named, the seconds judged, the scores read (#106): every window is cut out, and looked at from its newest score back."""
    k = 5 if threshold > 100 else 0
    k = 1 if len(scores) != 3600 or len(earlier) not in (0, 3) else 4 if max(earlier + scores) > 100 else k
    if k:
        return k, 0, 0, 0, 0
    run, read = earlier + scores, 0
    for second in range(1, 3601):
        newest = len(earlier) + second
        met = [score >= threshold for score in reversed(run[max(0, newest - 4) : newest])]
        if not any(met):
            return 0, 0, second, second, read + len(met)
        read += met.index(True) + 1
    return 0, 1, 0, 3600, read


line("document 001, example 2: a second's score")
assert second(4300, 0, 10000, 59900) == 95
assert second(3500, 0, 10000, 59900) == 100
for power, f in [(3849, 59900), (3850, 59900), (3150, 59900), (3149, 59900), (-3150, 60080), (-3149, 60080)]:
    second(power, 0, 10000, f)
assert second(7300, 3000, 10000, 59900) == 95
assert second(500, -3000, 10000, 59900) == 100
second(13800, 0, 10000, 59900)
second(13700, 0, 10000, 59900)
second(-200000, 100000, 1, 59750)
line("scores at and past the limits")
for reading in [
    (200000, 100000, 100000, 55000),
    (-200000, -100000, 1, 65000),
    (0, 0, 0, 60000),
    (0, 0, 100001, 60000),
    (0, 100001, 1, 60000),
    (0, -100001, 1, 60000),
    (200001, 0, 1, 60000),
    (-200001, 0, 1, 60000),
    (0, 0, 1, 54999),
    (0, 0, 1, 65001),
    (200001, 100001, 0, 54999),
    (200001, 100001, 1, 54999),
    (200001, 100000, 1, 54999),
    (LEAST, LEAST, LEAST, LEAST),
    (MOST, MOST, 1, MOST),
    (LEAST, 0, 1, 60000),
    (0, 0, 1, MOST),
]:
    second(*reading)

line("document 02, #107: example 2 by a moved reference")
for by in (300, -500):
    assert [judged(power, 0, 10000, 59900 + by, 60000 + by) for power in (4300, 3500)] == [(0, 95), (0, 100)]
for reading in [
    (4300, 0, 10000, 60200, 60300),
    (3500, 0, 10000, 60200, 60300),
    (4300, 0, 10000, 59400, 59500),
    (3500, 0, 10000, 59400, 59500),
    (4300, 0, 10000, 59900, 60300),
    (4300, 0, 10000, 60400, 60500),
    (4300, 0, 10000, 59900, 59499),
    (4300, 0, 10000, 59900, 60501),
    (4300, 0, 0, 59900, 60501),
    (4300, 100001, 10000, 59900, 60501),
    (200001, 0, 10000, 59900, 60501),
    (4300, 100001, 10000, 59900, 60500),
    (0, 0, 1, 60000, LEAST),
    (0, 0, 1, 60000, MOST),
]:
    line("around", *reading, *judged(*reading))

line("document 001, table 2: rolling rates and the hourly rate")
ELEVEN = [100, 90, 50, 90, 90, 70, 95, 100, 100, 60, 100]
assert rolling(ELEVEN) == [100, 100, 100, 100, 90, 90, 95, 100, 100, 100, 100]
assert rolling(ELEVEN[3:], ELEVEN[:3]) == rolling(ELEVEN)[3:]
rate("table 2 over and over", [ELEVEN[i % 11] for i in range(3600)])


def but(value, start, stop, other, places=3600):
    return [other if start <= i < stop else value for i in range(places)]


for label, start, stop, other in [
    ("steady", 0, 0, 0),
    ("three zeros", 1000, 1003, 0),
    ("four zeros", 1000, 1004, 0),
    ("four at 94", 2000, 2004, 94),
    ("a zero first", 0, 1, 0),
    ("three at 70 last", 3597, 3600, 70),
    ("four at 70 last", 3596, 3600, 70),
    ("a score of 101", 3599, 3600, 101),
    ("a score of 255", 0, 1, 255),
]:
    rate(label, but(100, start, stop, other))
rate("3,599 scores", [100] * 3599)
rate("3,601 scores of 101", [101] * 3601)
rate("no score", [])

line("document 02, #102: the three seconds before the hour")
for label, earlier, zeros, answer in [
    ("100 100 100, a zero", [100, 100, 100], 1, (0, 100)),
    ("90 0 0, a zero", [90, 0, 0], 1, (0, 90)),
    ("90 0 0, two zeros", [90, 0, 0], 2, (0, 0)),
    ("0 90 0, two zeros", [0, 90, 0], 2, (0, 90)),
    ("0 90 0, three zeros", [0, 90, 0], 3, (0, 0)),
    ("0 0 90, three zeros", [0, 0, 90], 3, (0, 90)),
    ("0 0 90, four zeros", [0, 0, 90], 4, (0, 0)),
    ("0 0 0, no zero", [0, 0, 0], 0, (0, 100)),
    ("one earlier score", [100], 1, (1, 0)),
    ("two earlier scores", [100, 100], 1, (1, 0)),
    ("four earlier scores", [100] * 4, 1, (1, 0)),
    ("101 first", [101, 0, 0], 1, (4, 0)),
    ("101 last", [100, 100, 101], 0, (4, 0)),
    ("two, one of them 101", [101, 100], 0, (1, 0)),
]:
    assert rate(label, but(100, 0, zeros, 0), earlier) == answer
rate("three, and 3,599 scores", [100] * 3599, [100] * 3)
rate("three, and a score of 101", [100] * 3599 + [101], [100] * 3)
rate("two, and a score of 101", [100] * 3599 + [101], [100] * 2)

line("document 02, #106: did the hour reach 95?")
for label, start, stop, other, threshold, answer in [
    ("steady", 0, 0, 0, 95, (0, 1, 0, 3600, 3600)),
    ("three zeros after a second", 1, 4, 0, 95, (0, 1, 0, 3600, 3606)),
    ("four zeros after a second", 1, 5, 0, 95, (0, 0, 5, 5, 14)),
    ("zeros, by 0", 0, 3600, 0, 0, (0, 1, 0, 3600, 3600)),
    ("zeros, by 1", 0, 3600, 0, 1, (0, 0, 1, 1, 1)),
    ("four at 94 last", 3596, 3600, 94, 95, (0, 0, 3600, 3600, 3609)),
    ("four at 95 last", 3596, 3600, 95, 95, (0, 1, 0, 3600, 3600)),
]:
    assert verdict(but(100, start, stop, other), [], threshold) == answer
    line(label, *answer)
for label, earlier, zeros in [
    ("95 0 0, a zero", [95, 0, 0], 1),
    ("95 0 0, two zeros", [95, 0, 0], 2),
    ("0 0 95, three zeros", [0, 0, 95], 3),
    ("0 0 95, four zeros", [0, 0, 95], 4),
    ("94 94 94, a zero", [94] * 3, 1),
    ("two earlier scores", [100, 100], 0),
    ("101 first", [101, 0, 0], 0),
]:
    line(label, *verdict(but(100, 0, zeros, 0), earlier, 95))
line("3,599 scores, by 101", *verdict([100] * 3599, [101], 101))
line("a score of 101, by 101", *verdict([100] * 3599 + [101], [], 101))
line("by 101", *verdict([100] * 3600, [], 101))
line("by 255", *verdict([100] * 3600, [], 255))


# ---- the quality bands

LIST_S = [(95, 10), (94, 8), (93, 6), (92, 4), (91, 2), (70, 0), (0, -10)]


def bands_fit(thresholds, factors):
    return (
        1 <= len(thresholds) <= 16
        and len(factors) == len(thresholds)
        and all(0 <= t <= 100 for t in thresholds)
        and all(-240 <= f <= 10 for f in factors)
        and sorted(set(thresholds), reverse=True) == thresholds
        and thresholds[-1] == 0
    )


def factor(thresholds, factors, rate):
    if not bands_fit(thresholds, factors):
        return 5, 0
    if rate > 100:
        return 4, 0
    return 0, next(f for t, f in zip(thresholds, factors) if t <= rate)


def list_s(rate):
    return factor([t for t, _ in LIST_S], [f for _, f in LIST_S], rate)


line("list S")
for r in (100, 96, 95, 94, 93, 92, 91, 90, 70, 69, 0, 101, 255):
    line("rate", r, *list_s(r))
line("lists at and past the limits")


def bands(label, thresholds, factors):
    line(label, 0 if bands_fit(thresholds, factors) else 5, *factor(thresholds, factors, 95), *factor(thresholds, factors, 101))


for label, t, f in [
    ("one record", 0, 10),
    ("least factor", 0, -240),
    ("factor 11", 0, 11),
    ("factor -241", 0, -241),
    ("last not 0", 1, 10),
    ("i64", LEAST, MOST),
]:
    bands(label, [t], [f])
for label, t, u, f in [
    ("two records", 100, 0, 10),
    ("threshold 101", 101, 0, 10),
    ("threshold -1", 95, -1, 10),
    ("equal thresholds", 0, 0, 10),
    ("rising thresholds", 0, 95, 10),
    ("factor 11 first", 95, 0, 11),
]:
    bands(label, [t, u], [f, -10])
falling = [97, 96, 95, 94, 93, 92, 91, 90, 80, 70, 60, 50, 40, 30, 20, 10, 0]
factors = list(range(10, -7, -1))
bands("seventeen", falling, factors)
bands("sixteen", falling[1:], factors[1:])
bands("none", [], [])
bands("a factor short", falling[1:], factors[1:-1])
bands("a threshold short", falling[2:], factors[1:])
line("records")


def records(label, pairs, rate):
    thresholds, factors = [t for t, _ in pairs], [f for _, f in pairs]
    line(label, rate, 0 if bands_fit(thresholds, factors) else 5, *factor(thresholds, factors, rate))


for r in (100, 95, 94, 70, 69, 0, 101):
    records("list S", LIST_S, r)
records("last not 0", LIST_S[:6], 95)
records("none", [], 95)
records("equal thresholds", [(95, 10), (95, 8)] + LIST_S[2:], 94)
records("seventeen", list(zip(falling, factors)), 95)
records("sixteen", list(zip(falling, factors))[:15] + [(0, -5)], 69)
