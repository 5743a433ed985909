#!/usr/bin/env python3
"""Makes this crate's stdin and stdout, the sample hour with its answer (samples/hour, samples/hour.answers), and the same hour as a logger sends it (samples/logger), which is also what the
program `import` runs on (crates/import/stdin and stdout).

What is answered comes from the model beside the papers' figures (crates/figures_hours/expected.py) and from that of the program `import` (crates/import_cases/make_cases.py), which work in
exact fractions and share nothing with the Rattle code; the lines of the form's faults are written out by hand."""
import contextlib
import importlib.util
import io
import os
import random

HERE = os.path.dirname(os.path.abspath(__file__))
ROOT = os.path.dirname(os.path.dirname(HERE))


def loaded(path):
    spec = importlib.util.spec_from_file_location(path.replace("/", "_")[:-3], os.path.join(ROOT, path))
    module = importlib.util.module_from_spec(spec)
    with contextlib.redirect_stdout(io.StringIO()):
        spec.loader.exec_module(module)
    return module


model = loaded("crates/figures_hours/expected.py")
logger = loaded("crates/import_cases/make_cases.py")
single, pair_frame = logger.single, logger.pair_frame


def words(*numbers):
    return " ".join(str(n) for n in numbers)


def frame(kind, day, hour, amount):
    body = bytes([kind, day, hour]) + (amount % 2**64).to_bytes(8, "big")
    return (body + bytes([sum(body) % 256])).hex().upper()


# ---- a logger's pair (document 02, #105), by the model of the program `import`


def pair(frequency, power):
    """The refusal, millihertz and kilowatts of two patterns of bits."""
    whole = logger.rounded(frequency, power) if all(0 <= bits < 2**32 for bits in (frequency, power)) else 17
    if whole == 17:
        return 17, 0, 0
    return (0, *whole) if logger.fits(*whole) else (4, 0, 0)


def asked_pair(frequency, power):
    """The question for a pair's bits, and its answer."""
    return f"pair {frequency} {power}", words(*pair(frequency, power))


# ---- the sample hour: a frequency that wanders, a power that follows the curve and stumbles for three seconds

CAPACITY, REFERENCE, CLEARING, PERFORMANCE = 10000, 60000, 44000, 35000
draw = random.Random(2210)
powers, frequencies, f = [], [], 60000
for second in range(3600):
    f = min(60240, max(59760, f + draw.randint(-6, 6)))
    _, upper, lower = model.curve(f)
    middle = (upper + lower) * CAPACITY // 200
    frequencies.append(f)
    powers.append(0 if 1800 <= second < 1803 else middle + draw.randint(-400, 400))
bands = [n for pair in model.LIST_S for n in pair]
terms = (CAPACITY, CLEARING, PERFORMANCE, 0, 0, [0] * 5)
settled, scores = model.hour(powers, frequencies, [0] * 3600, terms, model.THRESHOLDS, model.FACTORS)
columns = "".join(f"{p} {f}\n" for p, f in zip(powers, frequencies))
award = words(CAPACITY, REFERENCE, CLEARING, PERFORMANCE)
list_s = words(len(model.LIST_S), *bands)
hour = f"{award}\n{list_s}\n0\n{columns}"

# ---- the same hour moved by a transfer plan, so that its scores are the same

DISCHARGE, CHARGE, TARGETS = 210000, 60000, [1000, 3000, -2000, 0, 4000]
moved = [p + t for p, t in zip(powers, model.transfers(TARGETS))]
moved_terms = (CAPACITY, CLEARING, PERFORMANCE, DISCHARGE, CHARGE, TARGETS)
moved_settled, moved_scores = model.hour(moved, frequencies, [0] * 3600, moved_terms, model.THRESHOLDS, model.FACTORS)
assert moved_scores == scores
moved_columns = "".join(f"{p} {f}\n" for p, f in zip(moved, frequencies))
moved_hour = f"{award} {words(DISCHARGE, CHARGE, *TARGETS)}\n{list_s}\n0\n{moved_columns}"

# ---- both hours by a moved reference (document 02, #107): every frequency moves with it, so that the scores are the same


def by_reference(by, powers, rest=""):
    """An hour's numbers, with the reference and every frequency moved."""
    columns = "".join(f"{p} {f + by}\n" for p, f in zip(powers, frequencies))
    return f"{words(CAPACITY, REFERENCE + by, CLEARING, PERFORMANCE)}{rest}\n{list_s}\n0\n{columns}"


def scores_by_reference(by):
    return model.hour(powers, [f + by for f in frequencies], [0] * 3600, terms, model.THRESHOLDS, model.FACTORS, [], REFERENCE + by)[1]


assert scores_by_reference(-500) == scores_by_reference(500) == scores
shifting = " " + words(DISCHARGE, CHARGE, *TARGETS)

# ---- an hour at 60 Hz whose first second scores 0, by itself and after an hour


def stumbling(head, terms, earlier):
    """Its numbers, its settlement and its scores."""
    settled, scores = model.hour([100000] + [0] * 3599, [60000] * 3600, [0] * 3600, terms, model.THRESHOLDS, model.FACTORS, earlier)
    return f"{head} {list_s} {words(len(earlier), *earlier)} 100000 60000" + " 0 60000" * 3599, settled, scores


alone, alone_settled, _ = stumbling(award, terms, [])
after, after_settled, after_scores = stumbling(award, terms, [94, 0, 0])
small_terms = (CAPACITY, CLEARING, PERFORMANCE, DISCHARGE, CHARGE, [9] * 5)
small_after, small_settled, _ = stumbling(f"{award} {words(DISCHARGE, CHARGE, *[9] * 5)}", small_terms, [94, 0, 0])
assert (alone_settled[1], after_settled[1], small_settled[1]) == (0, 94, 94)


# ---- sReg hours (document 02, #103): document 001's table 2, and an event over the hour's end


def static(powers, frequencies, earlier=(), state=(0, 0, 0)):
    """An sReg hour's numbers after its terms, its answer, and its scores."""
    settled, scores, ended = model.sreg_hour(powers, frequencies, [0] * 3600, (CAPACITY, CLEARING, PERFORMANCE), model.FACTORS, list(earlier), state)
    columns = "".join(f"{p} {f}\n" for p, f in zip(powers, frequencies))
    return f"{words(CAPACITY, CLEARING, PERFORMANCE)} {list_s} {words(len(earlier), *earlier)} {words(*state)}\n{columns}", (*settled, *ended), scores


table = [20000] * 11 + [30000] * 9 + [10000, 11000, 15000, 11000, 11000, 13000, 10500, 10000, 9000, 14000, 10000]
event, event_settled, event_scores = static(table + [4000] * 10 + [10000] * 3559, model.at((10, 30)))
assert event_scores[20:31] == [100, 90, 50, 90, 90, 70, 95, 100, 100, 60, 100]
first, first_settled, first_scores = static([20000] * 3590 + [10500] * 8 + [20000] * 2, model.at((3580, 3600)))
next_hour, next_settled, next_scores = static([20000] + [10000] * 3599, [59979] * 4 + [59980] + [60000] * 3595, first_scores[3597:], first_settled[8:])
assert first_settled[8:] == (2, 20000, 0) and first_scores[3597:] == [95, 0, 0] and next_settled[1] == 95
seconds = "0 60000 " * 3600


def state(numbers, capacity=1):
    """A question that is handed these three numbers for a state, and the refusal that it gets."""
    return f"sreg {capacity} 0 0 1 0 0 0 {numbers} {seconds}", words(4 if capacity else 2, *[0] * 10)


def rate(earlier, zeros):
    """The question for an hour of 100 with so many zeros first, and its answer."""
    scores = [0] * zeros + [100] * (3600 - zeros)
    return "rate " + words(len(earlier), *earlier, *scores), words(0, min(model.rolling(scores, earlier)))


# ---- whether an hour reached a threshold (document 02, #106)


def reached(threshold, earlier, scores):
    """The question for an hour's scores, and its answer."""
    return f"reached {threshold} " + words(len(earlier), *earlier, *scores), words(*model.verdict(scores, earlier, threshold))


def no_verdict(refusal, numbers):
    """A question whose numbers are refused, and its answer."""
    return "reached " + numbers, words(refusal, 0, 0, 0, 0)


with open(os.path.join(ROOT, "samples/hour"), "w") as out:
    out.write("# A dReg hour of 10,000 kW by a reference of 60,000 mHz, at 440 and 350 dollars a MW, with list S; a 0, for no scores of the hour before (or 3\n")
    out.write("# and its last three); then a line a second: the power of second t in kW and the frequency of second t-1 in mHz.\n")
    out.write("dreg " + hour)
with open(os.path.join(ROOT, "samples/hour.answers"), "w") as out:
    out.write(words(*settled) + "\n")

# ---- the same hour as a logger sends it: each number a little beside the whole one; power 0 and frequency 3,600 are dropped

sent = [(single((f + draw.uniform(-0.4, 0.4)) / 1000), single(p + draw.uniform(-0.4, 0.4))) for f, p in zip(frequencies + [60000], [0] + powers)]
assert [pair(*bits) for bits in sent] == [(0, f, p) for f, p in zip(frequencies + [60000], [0] + powers)]
logged = "".join(pair_frame(second, *bits) + "\n" for second, bits in enumerate(sent))
os.makedirs(os.path.join(ROOT, "crates/import"), exist_ok=True)
for path, content in (("samples/logger", logged), ("crates/import/stdin", logged), ("crates/import/stdout", columns)):
    with open(os.path.join(ROOT, path), "w") as out:
        out.write(content)

# ---- this crate's run: each question once, the papers' figures where they have one, and each fault

asked = [
    ("kilowatts 5", words(0, 5000)),
    ("curve 59920 60000", words(*model.curve(59920))),
    ("curve 54999 60000", words(4, 0, 0)),
    # the lowest corner, moved; 19 for a reference outside its range, and before 4
    ("curve 60050 60300", words(0, 100, 100)),
    ("curve 59250 59500", words(0, 100, 100)),
    ("curve 59900 59499", words(19, 0, 0)),
    ("curve 54999 60501", words(19, 0, 0)),
    ("score 5100 5000 10000 60000 60000", words(0, model.score(5100, 5000, 10000, 60000))),
    # document 001, example 2, moved by 300 and by -500; 2, then 19, then 10
    ("score 4300 0 10000 60200 60300", words(0, 95)),
    ("score 4300 0 10000 59400 59500", words(0, 95)),
    ("score 0 100001 0 60000 60501", words(2, 0)),
    ("score 0 100001 1 60000 60501", words(19, 0)),
    ("score 0 100001 1 60000 60500", words(10, 0)),
    ("ramp 0 5000", words(0, *(model.planned(0, 5000, n) for n in range(1, 901)))),
    ("ramp 0 100001", "10"),
    ("rate 0 " + "100 " * 3596 + "94,94,94,94", words(0, 94)),
    rate([], 1),
    rate([100, 100, 100], 1),
    rate([90, 0, 0], 1),
    rate([90, 0, 0], 2),
    # other than 0 and 3 earlier scores are 1, also where they are not counted; what is no score is 4
    ("rate 2 100 100 " + "0 " * 3600, words(1, 0)),
    ("rate 101 " + "0 " * 3600, words(1, 0)),
    ("rate -1 " + "0 " * 3600, words(1, 0)),
    ("rate 3 100 256 100 " + "0 " * 3600, words(4, 0)),
    # hours of 100, without zeros, with three and with four; an hour of zeros by 0
    reached(95, [], [100] * 3600),
    reached(95, [], [100, 0, 0, 0] + [100] * 3596),
    reached(95, [], [100, 0, 0, 0, 0] + [100] * 3595),
    reached(0, [], [0] * 3600),
    # short windows and earlier scores; at the threshold and one below; the last second; the sample hour about its rate of 97
    reached(1, [], [0] * 3600),
    reached(95, [95, 0, 0], [0, 100] + [100] * 3598),
    reached(95, [94, 94, 94], [94] + [100] * 3599),
    reached(95, [95, 0, 0], [0, 0] + [100] * 3598),
    reached(95, [], [95, 94, 94, 94] * 900),
    reached(100, [0, 0, 100], [99, 99, 99, 100] * 899 + [99] * 4),
    *(reached(threshold, [], scores) for threshold in (settled[1], settled[1] + 1)),
    # 1, then 4, then 5; a threshold outside 0 to 255 is taken as 255
    no_verdict(1, "101 2 101 0 " + "0 " * 3600),
    no_verdict(1, "95 101 " + "0 " * 3600),
    no_verdict(1, "95 -1 " + "0 " * 3600),
    no_verdict(4, "101 0 " + "0 " * 3599 + "101"),
    no_verdict(4, "101 3 0 256 0 " + "0 " * 3600),
    *(no_verdict(5, f"{threshold} 0 " + "100 " * 3600) for threshold in (101, 256, -1)),
    ("bands 95 10 0 -10", "0"),
    ("bands", "5"),
    ("factor 94 " + words(*bands), words(0, 8)),
    ("fee 44300 10000", words(0, 4430)),
    ("quality 4400 3500 8", words(*model.quality(4400, 3500, 8))),
    ("energy 200000 50000 5000 -5000 0 5000 " + "5000 " * 3600, words(*model.energy([5000] * 3600, [5000, -5000, 0, 5000], 200000, 50000))),
    ("loss 120000 84000 22800 40000", words(0, 151200, 100800, 252000)),
    ("dreg " + hour, words(*settled)),
    ("edreg " + moved_hour, words(*moved_settled)),
    ("dreg_scores " + hour, words(0, *scores)),
    ("edreg_scores " + moved_hour, words(0, *scores)),
    ("dreg " + by_reference(-500, powers), words(*settled)),
    ("edreg " + by_reference(500, moved, shifting), words(*moved_settled)),
    ("dreg_scores " + by_reference(-500, powers), words(0, *scores)),
    ("dreg_frame 12 17 " + by_reference(-500, powers), frame(1, 12, 17, settled[7])),
    ("edreg_frame 12 18 " + by_reference(500, moved, shifting), frame(1, 12, 18, moved_settled[7])),
    # 2, then 19, then 3
    ("dreg 0 60501 -1 0 1 0 0 0 " + "0 60000 " * 3600, words(2, *[0] * 7)),
    ("dreg 1 60501 -1 0 1 0 0 0 " + "0 60000 " * 3600, words(19, *[0] * 7)),
    ("dreg 1 60500 -1 0 1 0 0 0 " + "0 60000 " * 3600, words(3, *[0] * 7)),
    ("edreg_scores 1 59499 -1 " + "0 " * 8 + "1 0 0 0 " + "0 60000 " * 3600, "19"),
    ("dreg_frame 300 0 1 60501 0 0 1 0 0 0 " + "0 60000 " * 3600, "19"),
    ("dreg " + alone, words(*alone_settled)),
    ("dreg " + after, words(*after_settled)),
    ("dreg_scores " + after, words(0, *after_scores)),
    ("edreg " + small_after, words(*small_settled)),
    # a wrong number of earlier scores is refused first, an earlier score above 100 last
    ("dreg 0 0 0 0 1 0 0 101 " + "0 0 " * 3600, words(1, *[0] * 7)),
    ("dreg 0 0 0 0 1 0 0 3 101 0 0 " + "0 0 " * 3600, words(2, *[0] * 7)),
    ("dreg 1 60000 0 0 1 0 0 3 101 0 0 " + "0 60000 " * 3600, words(4, *[0] * 7)),
    ("edreg_scores " + "0 " * 11 + "0 2 101 0 " + "0 0 " * 3600, "1"),
    ("sreg " + event, words(*event_settled)),
    ("sreg_scores " + event, words(0, *event_scores)),
    ("sreg " + first, words(*first_settled)),
    ("sreg " + next_hour, words(*next_settled)),
    ("sreg_scores " + next_hour, words(0, *next_scores)),
    # no such kind, numbers that a kind does not use, counts and powers that fit no state; in 4's place
    *map(state, ["4 0 0", "0 0 1", "1 0 10", "1 0 257", "2 200001 0", "2 0 1", "3 1 10"]),
    state("4 0 0", 0),
    ("sreg_scores 1 0 0 1 0 0 2 0 0 4 0 0 " + seconds, "1"),
    ("frame 0 31 0 0", frame(0, 31, 0, 0)),
    ("sreg_frame 12 13 " + first, frame(1, 12, 13, first_settled[7])),
    ("dreg_frame 12 14 " + hour, frame(1, 12, 14, settled[7])),
    ("edreg_frame 12 15 " + moved_hour, frame(1, 12, 15, moved_settled[7])),
    ("edreg_frame 12 16 " + small_after, frame(1, 12, 16, small_settled[7])),
    # a capacity of 0 is refused before the day is looked at
    ("edreg_frame 300 0 " + "0 " * 11 + "0 0 " + "0 " * 7200, "2"),
    ("frame 6 0 0 100800", frame(6, 0, 0, 100800)),
    ("loss_frames 120000 84000 22800 40000", frame(4, 0, 0, 151200) + "\n" + frame(6, 0, 0, 100800)),
    ("loss_frames 120000 96000 22800 40000", frame(4, 0, 0, 100800) + "\n" + frame(6, 0, 0, 0)),
    ("loss_frames 120000 84000 0 40000", "15"),
    ("loss_frames 120000 84000 22800 1000001", "3"),
    # each of the sixteen digits, in order
    ("frame " + words(0x01, 0x23, 0x45, 0x6789ABCDEF000000), frame(0x01, 0x23, 0x45, 0x6789ABCDEF000000)),
    # a half goes away from zero, in either member, and what lies beside one does not; both zeros, subnormals, the ends of both ranges
    *(asked_pair(single(60), single(p)) for p in (100.5, -0.5, 2.5, 0.49999997, 0.5, -123.4, 200000, 200000.5, -200000.5)),
    *(asked_pair(single(60.0625) + n, 0) for n in (-1, 0, 1)),
    *(asked_pair(single(60), bits) for bits in (0, 2**31, 1, 2**23 - 1, 2**31 + 2**23)),
    *(asked_pair(bits, 0) for bits in (single(55), single(54.9994), single(65), single(65.0006), single(-60), 0)),
    # 17 before 4: infinities, a NaN, and a number that is no pattern of 32 bits; the largest single is 4
    *(asked_pair(*bits) for bits in ((0x7F800000, 0), (0, 0xFF800000), (0x7FC00001, 0), (0x7F7FFFFF, 0), (single(60), 2**32), (-1, 0))),
    *((f"pair_frame {words(*numbers)}", pair_frame(*numbers)) for numbers in ((0, 0, 0), (3600, *sent[3600]), (0x89AB, 0xCDEF0123, 0x456789AB), (65535, 2**32 - 1, 2**32 - 1))),
    ("pair_frame 65536 0 0", "13"),
    ("pair_frame 0 0 4294967296", "13"),
    ("pair_frame 0 -1 0", "13"),
    ("frame 16 0 0 0", "13"),
    ("frame 6 0 1 100800", "13"),
    ("frame 7 0 0 0", "13"),
    ("frame 1 256 0 0", "6"),
]
faults = [
    ("curve", "103 too few numbers"),
    ("rate 3 100 100", "103 too few numbers"),
    ("reached 95 3 100", "103 too few numbers"),
    # a curve, a score and an hour without the reference
    ("curve 59920", "103 too few numbers"),
    ("score 5100 5000 10000 60000", "103 too few numbers"),
    ("dreg 1 0 0 2 95 10 0 -10 0 " + seconds, "103 too few numbers"),
    ("curve 1 2 3", "104 too many numbers"),
    ("pair 1", "103 too few numbers"),
    ("pair_frame 1 2 3 4", "104 too many numbers"),
    # an sReg hour without its state
    ("sreg 1 0 0 0 0 " + seconds, "103 too few numbers"),
    ("curves 59920", "101 not a question"),
    ("fee 9223372036854775808 1", "102 a number too large for 64 bits"),
    ("curve 59.92", "105 not a number"),
]
text, answers = "# each question once\n", []
for question, answer in asked:
    text += question.rstrip("\n") + "\n"
    answers.append(answer)
text += "# and each fault\r\n"
for question, answer in faults:
    answers.append(f"line {text.count(chr(10)) + 1}: {answer}")
    text += question + "\n"
with open(os.path.join(HERE, "stdin"), "w", newline="") as out:
    out.write(text)
with open(os.path.join(HERE, "stdout"), "w") as out:
    out.write("".join(answer + "\n" for answer in answers))
