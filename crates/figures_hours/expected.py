#!/usr/bin/env python3
"""Prints crates/figures_hours/stdout by a way of its own: over the model of crates/figures/expected.py, whose own lines are left out.

It shares nothing with the Rattle code. `python3 crates/figures_hours/expected.py | cmp - crates/figures_hours/stdout` holds the stored output to it."""
import contextlib
import io
import os
import sys

sys.path.insert(0, os.path.join(os.path.dirname(os.path.abspath(__file__)), "..", "figures"))
with contextlib.redirect_stdout(io.StringIO()):
    from expected import *

# ---- the fees of an hour


def is_price(price):
    return 0 <= price <= 10**7


def fee(price, capacity):
    if not 1 <= capacity <= 100000:
        return 2, 0
    return (0, nearest(Fraction(price, 100) * Fraction(capacity, 1000))) if is_price(price) else (3, 0)


def quality(capacity, performance, tenths):
    if not (0 <= capacity <= 10**7 and 0 <= performance <= 10**7):
        return 3, 0
    return (0, nearest((capacity + performance) * Fraction(tenths, 10))) if -240 <= tenths <= 10 else (5, 0)


def energy(powers, targets, discharge, charge):
    if len(powers) != 3600:
        return 1, 0
    if not (is_price(discharge) and is_price(charge)):
        return 3, 0
    if max(map(abs, targets)) > 100000:
        return 10, 0
    if max(map(abs, powers)) > 200000:
        return 4, 0
    dollars = Fraction(0)
    for n, target in enumerate(targets):
        mean = Fraction(sum(powers[900 * n : 900 * n + 900]), 900) / 1000
        dollars += (target > 0) * Fraction(discharge, 100) * mean / 4
        dollars -= (target < 0) * Fraction(charge, 100) * mean / 4
    return 0, nearest(dollars)


line("document 001, example 1: capacity and performance fees")
assert [fee(100 * p, 10000) for p in (320, 350, 443)] == [(0, 3200), (0, 3500), (0, 4430)]
for price, capacity in [
    (32000, 10000),
    (35000, 10000),
    (44300, 10000),
    (49, 1000),
    (50, 1000),
    (0, 1),
    (10**7, 10**5),
    (10**7 + 1, 10**5),
    (-1, 10**5),
    (10**7, 10**5 + 1),
    (10**7, 0),
    (10**7 + 1, 0),
    (MOST, LEAST),
    (LEAST, 1),
]:
    line("fee", price, capacity, *fee(price, capacity))
line("quality parts")
assert quality(4350, 3500, 8) == (0, 6280) and quality(4400, 3500, -10) == (0, -7900)
for part in [
    (4350, 3500, 8),
    (4400, 3500, -10),
    (1, 0, 5),
    (1, 0, 4),
    (1, 0, -5),
    (1, 0, -4),
    (2, 1, 5),
    (2, 1, -5),
    (10**7, 10**7, 10),
    (10**7, 10**7, -240),
    (10**7 + 1, 0, 10),
    (0, 10**7 + 1, 10),
    (-1, 0, 10),
    (0, 0, 11),
    (0, 0, -241),
    (-1, 0, 11),
    (LEAST, MOST, LEAST),
]:
    line("quality part", *part, *quality(*part))


def means(*quarters):
    return [mean for mean in quarters for _ in range(900)]


line("document 001, table 5: the energy service fee")
table_5 = means(-3000, -2900, 100, -3200)
assert energy(table_5, [-3000] * 4, 200000, 50000) == (0, 1125)
full = means(*[200000] * 4)
high = but(200000, 3599, 3600, 200001)
for label, powers, target, discharge, charge in [
    ("table 5", table_5, -3000, 200000, 50000),
    ("no target", table_5, 0, 200000, 50000),
    ("discharging", table_5, 3000, 200000, 50000),
    ("a half", means(0, 0, 0, 2), 1, 100000, 0),
    ("a half charging", means(0, 0, 0, 2), -1, 0, 100000),
    ("less than a half", means(0, 0, 0, 2), 1, 99999, 0),
    ("most", full, 10**5, 10**7, 10**7),
    ("least", full, -(10**5), 10**7, 10**7),
    ("price above", full, 1, 10**7 + 1, 0),
    ("price below", full, 1, 0, -1),
    ("target above", full, 100001, 0, 0),
    ("price and target above", full, 100001, 10**7 + 1, 0),
    ("a power above", high, 1, 0, 0),
    ("a power and a target above", high, 100001, 0, 0),
    ("3,599 powers", [200001] * 3599, 100001, 10**7 + 1, 0),
]:
    line(label, *energy(powers, [target] * 4, discharge, charge))


# ---- the loss fee


def loss(charged, discharged, voltage, cost):
    if not (0 <= charged <= 10**8 and 0 <= discharged <= 10**8 and 1 <= voltage <= 10**6):
        return 15, 0, 0, 0
    if not 0 <= cost <= 10**6:
        return 3, 0, 0, 0
    by = Fraction("1.08") if voltage < 11400 else Fraction("1.05") if voltage < 69000 else Fraction("1.04")
    net = max(0, charged - discharged)
    above = max(Fraction(0), net - Fraction(charged, 5))
    basic = nearest(net * by * Fraction(cost, 10000))
    excess = nearest(above * by * Fraction(cost, 10000) * 2)
    return 0, basic, excess, basic + excess


line("document 001, example 5: the loss fee")
assert loss(120000, 84000, 22800, 40000) == (0, 151200, 100800, 252000)
assert loss(120000, 96000, 22800, 40000)[2] == 0
PAST = [
    (100000001, 0, 22800, 40000),
    (-1, 0, 22800, 40000),
    (0, 100000001, 22800, 40000),
    (0, -1, 22800, 40000),
    (0, 0, 0, 40000),
    (0, 0, 1000001, 40000),
    (0, 0, 22800, 1000001),
    (0, 0, 22800, -1),
    (-1, 0, 22800, -1),
    (MOST, LEAST, LEAST, MOST),
]
for case in [
    (120000, 84000, 22800, 40000),
    (120000, 96000, 22800, 40000),
    (120000, 84000, 11399, 40000),
    (120000, 84000, 11400, 40000),
    (120000, 84000, 68999, 40000),
    (120000, 84000, 69000, 40000),
    (84000, 120000, 22800, 40000),
    (20, 0, 22800, 5000),
    (20, 0, 22800, 4999),
    (100000000, 0, 1, 1000000),
    (100000000, 100000000, 1000000, 0),
]:
    line("loss fee", *case, *loss(*case))
line("loss fees past the limits")
for case in PAST:
    line("loss fee", *case, *loss(*case))


# ---- document 001's months


def settle(m, d, h, mw, clearing, performance, r, service, printed):
    capacity = fee(100 * clearing, 1000 * mw)[1]
    performance = fee(100 * performance, 1000 * mw)[1]
    _, tenths = list_s(r)
    amount = quality(capacity, performance, tenths)[1] + service
    assert (capacity, performance, tenths, amount) == printed
    k, m = m.post(d, h, amount)
    line("hour", h, capacity, performance, r, tenths, service, amount, k)
    return m


def day(m, d, printed):
    assert m.day(d) == (0, printed)
    line("day", d, *m.day(d))


def total(m, loss_fee, printed):
    """The tables print one loss fee, which is booked as the basic one."""
    k, m = m.set_basic_fee(loss_fee)
    assert m.total() == (0, printed)
    line("total", k, *m.total())


line("document 001, table 4: a dReg month")
_, m = opened(31)
for d, h, mw, clearing, r, printed in [
    (3, 10, 10, 430, 96, (4300, 3500, 10, 7800)),
    (3, 11, 10, 435, 94, (4350, 3500, 8, 6280)),
    (3, 12, 10, 440, 69, (4400, 3500, -10, -7900)),
    (3, 13, 10, 442, 70, (4420, 3500, 0, 0)),
    (4, 8, 12, 420, 93, (5040, 4200, 6, 5544)),
    (4, 9, 12, 410, 94, (4920, 4200, 8, 7296)),
    (4, 10, 12, 415, 95, (4980, 4200, 10, 9180)),
]:
    m = settle(m, d, h, mw, clearing, 350, r, 0, printed)
day(m, 3, 6180)
day(m, 4, 22020)
total(m, 8658, 19542)

line("document 001, table 6: an E-dReg month")
_, m = opened(30)
rest = lambda first, last, clearing, printed: [(h, clearing, 95, 0, 0, 0, printed) for h in range(first, last + 1)]
APRIL = [
    (0, 420, 99, -3500, -3000, 1750, (4200, 4750, 10, 10700)),
    (1, 430, 94, -3000, -3000, 1500, (4300, 4750, 8, 8740)),
    (2, 425, 96, -4200, -4000, 2100, (4250, 4750, 10, 11100)),
    *rest(3, 16, 430, (4300, 4750, 10, 9050)),
    (17, 450, 92, 4200, 4000, 8400, (4500, 4750, 4, 12100)),
    (18, 455, 90, 2200, 3000, 4400, (4550, 4750, 0, 4400)),
    (19, 440, 91, 2500, 3000, 5000, (4400, 4750, 2, 6830)),
    *rest(20, 22, 420, (4200, 4750, 10, 8950)),
    (23, 420, 96, 0, 0, 0, (4200, 4750, 10, 8950)),
]
assert 14 * 9050 == 126700 and 3 * 8950 == 26850
for h, clearing, r, mean, target, service, printed in APRIL:
    assert energy([mean] * 3600, [target] * 4, 200000, 50000) == (0, service)
    m = settle(m, 12, h, 10, clearing, 475, r, service, printed)
day(m, 12, 216370)
total(m, 35488, 180882)

# The notice prints -8,560, from amounts that are not rounded.
line("document 001, table 11: hours are rounded, then added")
_, m = opened(31)
for h, a in zip(range(18, 24), (-31817, 10325, 8183, 1575, 1575, 1600)):
    _, m = m.post(4, h, a)
day(m, 4, -8559)
total(m, 0, -8559)


# ---- whole hours


def hour(powers, frequencies, scores, terms, thresholds, factors, earlier=[], reference=60000):
    capacity, clearing, performance, discharge, charge, targets = terms
    if not len(powers) == len(frequencies) == len(scores) == 3600 or len(earlier) not in (0, 3):
        return [1] + [0] * 7, scores
    if not 1 <= capacity <= 100000:
        return [2] + [0] * 7, scores
    if not 59500 <= reference <= 60500:
        return [19] + [0] * 7, scores
    if not all(map(is_price, (clearing, performance, discharge, charge))):
        return [3] + [0] * 7, scores
    if not bands_fit(thresholds, factors):
        return [5] + [0] * 7, scores
    if max(map(abs, targets)) > 100000:
        return [10] + [0] * 7, scores
    if max(map(abs, powers)) > 200000 or min(frequencies) < 55000 or max(frequencies) > 65000 or max(earlier, default=0) > 100:
        return [4] + [0] * 7, scores
    plan = transfers(targets)
    scores = [score(p, t, capacity, f, reference) for p, t, f in zip(powers, plan, frequencies)]
    r = min(rolling(scores, earlier))
    tenths = factor(thresholds, factors, r)[1]
    first, second = fee(clearing, capacity)[1], fee(performance, capacity)[1]
    part = quality(first, second, tenths)[1]
    service = energy(powers, targets[1:], discharge, charge)[1]
    return [0, r, tenths, first, second, part, service, part + service], scores


THRESHOLDS, FACTORS = [t for t, _ in LIST_S], [f for _, f in LIST_S]


def terms_of(targets):
    return 10000, 43000, 35000, 200000, 50000, targets


def work(label, powers, frequencies, terms, thresholds=THRESHOLDS, factors=FACTORS, places=3600, earlier=[], reference=60000):
    s, scores = hour(powers, frequencies, [7] * places, terms, thresholds, factors, earlier, reference)
    line(label, *s, mixed(scores))
    return s


def dreg(label, powers, frequencies, capacity=10000, earlier=[]):
    return work(label, powers, frequencies, (capacity, 43000, 35000, 0, 0, [0] * 5), earlier=earlier)


def level(label, power, f):
    return dreg(label, [power] * 3600, [f] * 3600)


line("dReg hours")
assert level("steady", 3500, 59900)[1] == 100
for label, start, stop, r in [
    ("a stumble of three seconds", 1000, 1003, 100),
    ("a stumble of four", 1000, 1004, 93),
    ("four first", 0, 4, 93),
    ("four last", 3596, 3600, 93),
]:
    assert dreg(label, but(3500, start, stop, 4500), [59900] * 3600)[1] == r
for label, start in [("in its place", 1000), ("a second late", 1001)]:
    dreg(label, but(0, 1000, 1004, 10000), but(60000, start, 1004, 59750))
turns = [59750, 60250] * 1800
assert dreg("alternating", [10000, -10000] * 1800, turns)[1] == 100
assert dreg("alternating, a second late", [-10000, 10000] * 1800, turns)[1] == 0
level("tie 59,920 above", 3100, 59920)
level("tie 59,920 past", 3200, 59920)
level("tie 59,920 below", 2100, 59920)
level("tie 60,080 above", -2200, 60080)
level("tie 60,080 past", -2100, 60080)
level("tie 60,080 below", -3200, 60080)
level("most power", 200000, 55000)
level("least power", -200000, 65000)
level("a power above", 200001, 60000)
level("a power below", -200001, 60000)
level("a frequency below", 0, 54999)

line("E-dReg hours")
charging = [0, -3000, -4000, -2001, -5000]
discharging = [-3000, 3000, 4000, 2001, 5000]
both = [100, 4000, -4000, 0, 7]
still = [60000] * 3600
wavering = [59700 + i * 37 % 601 for i in range(3600)]
for label, frequencies, followed, plan in [
    ("charging", still, charging, charging),
    ("discharging", still, discharging, discharging),
    ("both", still, both, both),
    ("another plan", still, charging, both),
    ("no plan", still, both, [0] * 5),
    ("wavering", wavering, discharging, discharging),
    ("wavering, another plan", wavering, both, discharging),
]:
    work(label, transfers(followed), frequencies, terms_of(plan))

for label, power, f, target in [
    ("most", 200000, 55000, 10**5),
    ("most, the other way", 200000, 55000, -(10**5)),
    ("least", -200000, 65000, -(10**5)),
    ("least, the other way", -200000, 65000, 10**5),
]:
    work(label, [power] * 3600, [f] * 3600, (10**5, 10**7, 10**7, 10**7, 10**7, [target] * 5))

line("refused hours by 60,000: 1, 2, 3, 5, 10, 4 in this order")


def attempt(label, k, powers, frequencies, capacity, charge, tenths, target, places=3600):
    terms = capacity, 43000, 35000, 200000, charge, [0, 0, 0, 0, target]
    assert work(label, powers, frequencies, terms, [95, 0], [tenths, -10], places)[0] == k


zeros, short = [0] * 3600, [200001] * 3599
high = but(0, 3599, 3600, 200001)
attempt("none", 0, zeros, still, 10000, 50000, 10, 0)
attempt("at the limits", 0, zeros, still, 100000, 10**7, -240, -100000)
attempt("least factor", 0, zeros, still, 10000, 50000, -240, 0)
attempt("least capacity", 0, zeros, still, 1, 0, 10, 100000)
attempt("capacity 0", 2, zeros, still, 0, 50000, 10, 0)
attempt("capacity above", 2, zeros, still, 100001, 50000, 10, 0)
attempt("price above", 3, zeros, still, 10000, 10**7 + 1, 10, 0)
attempt("price below", 3, zeros, still, 10000, -1, 10, 0)
attempt("factor 11", 5, zeros, still, 10000, 50000, 11, 0)
attempt("target above", 10, zeros, still, 10000, 50000, 10, 100001)
attempt("target below", 10, zeros, still, 10000, 50000, 10, -100001)
attempt("3,599 scores", 1, zeros, still, 10000, 50000, 10, 0, places=3599)
attempt("a power above", 4, high, still, 10000, 50000, 10, 0)
attempt("and a target", 10, high, still, 10000, 50000, 10, 100001)
attempt("and a factor", 5, high, still, 10000, 50000, 11, 100001)
attempt("and a price", 3, high, still, 10000, -1, 11, 100001)
attempt("and the capacity", 2, high, still, 0, -1, 11, 100001)
attempt("i64", 2, high, still, LEAST, MOST, LEAST, MOST)
attempt("3,599 powers", 1, short, still, 0, -1, 11, 100001)
attempt("3,599 frequencies", 1, high, short, 0, -1, 11, 100001)
attempt("neither", 1, short, short, 10000, 50000, 10, 0)


# ---- the joint call

line("joint calls")


def join(label, k, powers, target, m, d, h, earlier=[], frequencies=still, reference=60000):
    s, _ = hour(powers, frequencies, zeros, terms_of([0, 0, 0, 0, target]), THRESHOLDS, FACTORS, earlier, reference)
    if s[0] == 0:
        s[0], m = m.post(d, h, s[7])
        s = s if s[0] == 0 else [s[0]] + [0] * 7
    assert s[0] == k
    line(label, *s, *m.hour(d, h), *m.total(), *m.standing())
    return m


_, m = opened(30)
m = join("posted", 0, zeros, 0, m, 3, 10)
m = join("place filled", 7, zeros, 0, m, 3, 10)
m = join("day 31", 6, zeros, 0, m, 31, 10)
m = join("hour 24", 6, zeros, 0, m, 3, 24)
m = join("a target above, place filled", 10, zeros, 100001, m, 3, 10)
some = but(0, 2700, 3600, 900)
m = join("another hour", 0, some, 5, m, 3, 11)
_, m = m.withdraw(3, 10)
m = join("posted again", 0, some, -5, m, 3, 10)
_, m = m.close()
join("closed", 9, some, 0, m, 3, 12)
join("closed, day 0", 9, some, 0, m, 0, 12)
join("no month", 22, some, 0, opened(27)[1], 3, 12)
join("a ledger that no run of calls hands back", 22, some, 0, Ledger(30, forged=True), 3, 12)
join("closed, a power below", 4, [-200001] + some[1:], 0, m, 3, 12)


# ---- the three seconds before the hour

line("document 02, #102: hours after an hour")
AFTER = [
    ("none, a zero", [], 1, 0),
    ("100 100 100, a zero", [100, 100, 100], 1, 100),
    ("90 0 0, a zero", [90, 0, 0], 1, 90),
    ("90 0 0, two zeros", [90, 0, 0], 2, 0),
    ("0 0 90, four zeros", [0, 0, 90], 4, 0),
]
for label, earlier, count, r in AFTER:
    assert dreg(label, but(0, 0, count, 100000), still, earlier=earlier)[1] == r
line("E-dReg hours after an hour")
for label, earlier, count, r in AFTER:
    powers = [100000] * count + transfers(discharging)[count:]
    assert work(label, powers, still, terms_of(discharging), earlier=earlier)[1] == r

line("refused earlier scores: 1 first, 4 last")
for label, k, capacity, last, earlier in [
    ("two", 1, 10000, 0, [100, 100]),
    ("four", 1, 10000, 0, [100] * 4),
    ("two, one of them 101, and capacity 0", 1, 0, 0, [100, 101]),
    ("101, and capacity 0", 2, 0, 0, [101, 100, 100]),
    ("101", 4, 10000, 0, [100, 100, 101]),
    ("101, and a power above", 4, 10000, 200001, [100, 101, 100]),
]:
    powers = zeros[1:] + [last]
    assert dreg(label, powers, still, capacity, earlier)[0] == k
    assert work(label, powers, still, (capacity, 43000, 35000, 200000, 50000, [0] * 5), earlier=earlier)[0] == k

line("two hours, one after the other")
first = zeros[3:] + [100000, 1900, 100000]
_, scores = hour(first, still, zeros, terms_of([0] * 5), THRESHOLDS, FACTORS)
assert scores[3596:] == [100, 0, 90, 0]
dreg("the first", first, still)
second = but(0, 0, 2, 100000)
assert dreg("the second", second, still, earlier=scores[3597:])[1] == 90
assert min(rolling(scores + [0, 0] + [100] * 3598)[3600:]) == 90
assert dreg("the second, by itself", second, still)[1] == 0

line("joint calls after an hour")
_, m = opened(30)
some = but(0, 0, 1, 100000)
m = join("none, a zero", 0, some, 0, m, 3, 10)
m = join("100 100 100, a zero", 0, some, 0, m, 3, 11, [100] * 3)
m = join("two", 1, some, 0, m, 3, 12, [100] * 2)
join("101, place filled", 4, some, 0, m, 3, 10, [100, 101, 100])


# ---- a moved reference

line("document 02, #107: hours by a moved reference")
for name, swing, terms, up in [
    ("dReg", [2000, -2500] * 1800, (10000, 43000, 35000, 0, 0, [0] * 5), 300),
    ("E-dReg", transfers(discharging), terms_of(discharging), 500),
]:
    answers = []
    for label, by, reference in [("as it is", 0, 60000), ("moved by -500", -500, 59500), ("moved by %d" % up, up, 60000 + up)]:
        frequencies = [f + by for f in wavering]
        answers.append(hour(swing, frequencies, zeros, terms, THRESHOLDS, FACTORS, [], reference))
        work(name + ", " + label, swing, frequencies, terms, reference=reference)
    assert answers[0] == answers[1] == answers[2]
    alone = 59500 if name == "dReg" else 60500
    assert hour(swing, wavering, zeros, terms, THRESHOLDS, FACTORS, [], alone)[1] != answers[0][1]
    work(name + ", the reference alone", swing, wavering, terms, reference=alone)

line("refused references: 19 after 2 and before 3")
for label, k, capacity, reference, clearing, last in [
    ("least", 0, 10000, 59500, 43000, 0),
    ("most", 0, 10000, 60500, 43000, 0),
    ("below", 19, 10000, 59499, 43000, 0),
    ("above", 19, 10000, 60501, 43000, 0),
    ("and capacity 0", 2, 0, 60501, 43000, 0),
    ("and a price", 19, 10000, 60501, -1, 0),
    ("and a power", 19, 10000, 60501, 43000, 200001),
    ("i64", 19, 10000, LEAST, 43000, 0),
]:
    powers = zeros[1:] + [last]
    for shift in [(0, 0, [0] * 5), (200000, 50000, discharging)]:
        assert work(label, powers, still, (capacity, clearing, 35000, *shift), reference=reference)[0] == k

line("joint calls by a moved reference")
_, m = opened(30)
some = [3500] * 3600
m = join("as it is", 0, some, 0, m, 3, 10, [], [59900] * 3600)
m = join("moved by -500", 0, some, 0, m, 3, 11, [], [59400] * 3600, 59500)
m = join("the reference alone", 0, some, 0, m, 3, 12, [], [59900] * 3600, 59500)
m = join("above", 19, some, 0, m, 3, 13, [], [59900] * 3600, 60501)
join("above, place filled", 19, some, 0, m, 3, 10, [], [59900] * 3600, 60501)


# ---- static regulation (document 02, #103): by the list of seconds, without a state


def percent(power, capacity):
    return max(0, min(100, nearest(Fraction(100 * power, capacity))))


def events(frequencies):
    """Each event's first second and its last, None where it goes on; the seconds after one are outside or start the next."""
    spans, i = [], 0
    while i < len(frequencies):
        if frequencies[i] <= 59880:
            end = next((j for j in range(i + 1, len(frequencies)) if frequencies[j] >= 59980), None)
            spans.append((i, end))
            i = len(frequencies) if end is None else end
        i += 1
    return spans


def sreg_scores(powers, frequencies, capacity):
    scores = [percent(p, capacity) for p in powers]
    for a, b in events(frequencies):
        last = len(powers) - 1 if b is None else b
        scores[a + 10 : last + 1] = [percent(powers[a] - p, capacity) for p in powers[a + 10 : last + 1]]
        for i in [*range(a, min(a + 10, last + 1)), *range(last + 1, min(last + 11, len(powers)))]:
            scores[i] = 100
    return scores


def state_after(powers, frequencies):
    """As the desk prints it: kind, power, count."""
    n, spans = len(powers), events(frequencies)
    if not spans:
        return 0, 0, 0
    a, b = spans[-1]
    if b is None:
        return (1, powers[a], n - a) if n - a < 10 else (2, powers[a], 0)
    return (3, 0, b + 11 - n) if n <= b + 10 else (0, 0, 0)


def seconds_before(state):
    """Some seconds that end in the state; None where there are none: the test is that they do."""
    kind, power, count = state
    n = [0, count, 10, max(2, 12 - count)][kind]
    powers = [power] * n
    frequencies = [59880, *[59979] * (n - 1)] if kind in (1, 2) else [59880, 59980, *[59881] * (n - 2)] if kind == 3 else []
    fit = abs(power) <= 200000 and state_after(powers, frequencies[:n]) == state
    return (powers, frequencies[:n]) if fit else None


def sreg_hour(powers, frequencies, scores, terms, factors, earlier=[], state=(0, 0, 0)):
    capacity, clearing, performance = terms
    # 1, 2, 3, 5 and the earlier scores' 4 are dReg's
    s, _ = hour([0] * len(powers), [60000] * len(frequencies), scores, (*terms, 0, 0, [0] * 5), THRESHOLDS, factors, earlier)
    before = seconds_before(state)
    if s[0] == 0 and (before is None or max(map(abs, powers)) > 200000 or min(frequencies) < 55000 or max(frequencies) > 65000):
        s = [4]
    if s[0] != 0:
        return [s[0]] + [0] * 7, scores, (0, 0, 0)
    powers, frequencies = before[0] + powers, before[1] + frequencies
    scores = sreg_scores(powers, frequencies, capacity)[-3600:]
    r = min(rolling(scores, earlier))
    tenths = factor(THRESHOLDS, factors, r)[1]
    first, second = fee(clearing, capacity)[1], fee(performance, capacity)[1]
    part = quality(first, second, tenths)[1]
    return [0, r, tenths, first, second, part, 0, part], scores, state_after(powers, frequencies)


TERMS = 10000, 43000, 35000


def sreg(label, powers, frequencies, terms=TERMS, first=10, earlier=[], state=(0, 0, 0), places=3600):
    s, scores, ended = sreg_hour(powers, frequencies, [7] * places, terms, [first] + FACTORS[1:], earlier, state)
    line(label, *s, mixed(scores), *ended)
    return s, scores, ended


def at(*spans):
    """59,881 but for events, each from a second at 59,880 to one at 59,980."""
    frequencies = [59881] * 3600
    for a, b in spans:
        frequencies[a : b + 1] = [59880, *[59979] * (b - a - 1), 59980]
    return frequencies[:3600]


line("document 001, table 2: an sReg event")
MEGAWATTS = [10, 11, 15, 11, 11, 13, 10.5, 10, 9, 14, 10]
powers = [20000] * 731 + [30000] * 9 + [int(1000 * mw) for mw in MEGAWATTS] + [0] * 10 + [20000] * 2839
_, scores, _ = sreg("the hour", powers, at((730, 750)))
assert scores[740:751] == ELEVEN and min(scores[:740] + scores[751:]) == 100
line("scores", *scores[740:751])
line("rolling", *rolling(scores)[740:751])

line("document 02, #103: where an event ends")


def last_seconds(label, powers, *spans):
    _, scores, ended = sreg(label, powers, at(*spans))
    line("scores", *scores[3584:])
    return scores[3584:], ended


six = [6000] * 3600
for a, b, printed in [
    (3585, 3586, ([60] + [100] * 12 + [60] * 3, (0, 0, 0))),
    (3585, 3594, ([60] + [100] * 15, (3, 0, 5))),
    (3585, 3595, ([60] + [100] * 10 + [0] + [100] * 4, (3, 0, 6))),
    (3599, 3600, ([60] * 15 + [100], (1, 6000, 1))),
]:
    assert last_seconds("event %d %d" % (a, b), six, (a, b)) == printed
powers = [10000] * 3581 + [0] * 10 + [4000] * 9
assert last_seconds("an end second of 60", powers, (3580, 3594)) == ([100] * 7 + [60] * 4 + [100] * 5, (3, 0, 5))
powers = but(6000, 3587, 3588, 13000)
assert last_seconds("a fall in the tenth second after", powers, (3575, 3577), (3587, 3600)) == ([100] * 13 + [70] * 3, (2, 13000, 0))

line("two sReg hours, one after the other")
first = [20000] * 3590 + [10000] * 7 + [11000] + [20000] * 2
second = [20000] + [10000] * 3 + [15000] * 11 + [10000] * 3585
frequencies = [59979] * 4 + [59980] * 3596
_, scores, ended = sreg("the first", first, at((3580, 3600)))
assert ended == (2, 20000, 0) and scores[3597:] == [90, 0, 0]
for label, earlier, state in [("the second", scores[3597:], ended), ("the second, by itself", [], (0, 0, 0))]:
    s, got, _ = sreg(label, second, frequencies, earlier=earlier, state=state)
    line("scores", *got[:16])
    # one run of 7,200 seconds
    run = sreg_scores(first + second, at((3580, 3600)) + frequencies, 10000)
    assert (got == run[3600:]) == (s[1] == min(rolling(run)[3600:])) == (state == ended)

line("refused sReg hours: 1, 2, 3, 5, 4 in this order")
run, short = [60000] * 3600, [60000] * 3599
for powers, frequencies, earlier, places in [(short, run, [], 3600), (run, short, [], 3600), (run, run, [100] * 2, 3600), (run, run, [], 3599)]:
    lengths = len(powers), len(frequencies), len(earlier), places
    assert sreg("lengths %d %d %d %d" % lengths, powers, frequencies, earlier=earlier, places=places)[0][0] == 1


def tried(k, capacity, clearing, first, power, f, score, *state, label=None, earlier=None):
    label = label or "hour " + " ".join(map(str, (capacity, clearing, first, power, f, score, *state)))
    s, _, ended = sreg(label, [power] * 3600, [f] * 3600, (capacity, clearing, 35000), first, earlier or [score] * 3, state)
    assert s[0] == k and ended == (0, 0, 0)


tried(0, 10000, 43000, 10, 6000, 60000, 100, 0, 0, 0)
tried(2, 0, 43000, 10, 6000, 60000, 100, 0, 0, 0)
tried(3, 10000, -1, 10, 6000, 60000, 100, 0, 0, 0)
tried(5, 10000, 43000, 11, 6000, 60000, 100, 0, 0, 0)
tried(4, 10000, 43000, 10, 200001, 60000, 100, 0, 0, 0)
tried(4, 10000, 43000, 10, 6000, 65001, 100, 0, 0, 0)
tried(4, 10000, 43000, 10, 6000, 60000, 101, 0, 0, 0)
tried(4, 10000, 43000, 10, 200001, 65001, 101, 3, 0, 11)
tried(5, 10000, 43000, 11, 200001, 65001, 101, 3, 0, 11)
tried(3, 10000, -1, 11, 200001, 65001, 101, 3, 0, 11)
tried(2, 0, -1, 11, 200001, 65001, 101, 3, 0, 11)
tried(1, 0, -1, 11, 200001, 65001, 101, 3, 0, 11, label="two earlier scores too", earlier=[101] * 2)
line("states that an hour can end in, and others")
for k, state in [
    (4, (1, 10000, 0)),
    (0, (1, 10000, 9)),
    (4, (1, 10000, 10)),
    (0, (1, 200000, 1)),
    (4, (1, 200001, 1)),
    (0, (2, -200000, 0)),
    (4, (2, -200001, 0)),
    (4, (3, 0, 0)),
    (0, (3, 0, 10)),
    (4, (3, 0, 11)),
]:
    tried(k, 10000, 43000, 10, 6000, 60000, 100, *state)

line("sReg joint calls")
_, m = opened(30)
for k, left, d, h in [(0, 10, 3, 10), (7, 10, 3, 10), (6, 10, 0, 10), (4, 11, 3, 10), (0, 1, 3, 11)]:
    s, _, ended = sreg_hour([10000] * 3600, at((3599, 3600)), zeros, TERMS, FACTORS, [], (3, 0, left))
    if s[0] == 0:
        s[0], m = m.post(d, h, s[7])
        s, ended = (s, ended) if s[0] == 0 else ([s[0]] + [0] * 7, (0, 0, 0))
    assert s[0] == k and ended == ((0, 0, 0) if k else (1, 10000, 1))
    line("joint", left, d, h, *s, *ended, *m.hour(d, h), *m.total(), *m.standing())
