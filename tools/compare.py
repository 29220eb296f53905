#!/usr/bin/env python3
"""compare.py OLD NEW [--n 1000000] [--turns 31] [--filter WORDS]: two builds of libmoments.a, each in its folder, over plans and fixed windows.

Both are loaded into one process and called in turn, now the one first and now the other, with the same lists, so that whatever slows the
machine for a while slows both. A line has the medians in ns a row, and the median of the turns' ratios, new divided by old: a machine
whose speed changes from turn to turn moves the first two more than the last. Exit 1 where an answer or a byte that is left
in a list of outputs differs. An entry that either build lacks is left out, and said so. Variance has six lists of outputs since document
02's request 4 and two before: a build of two is given six all the same, which a call of C's may do, and then the lowest and the highest,
which only the other build works out, are in its time and not compared; that is said too.
"""
import argparse, array, ctypes, math, os, random, statistics, subprocess, sys, tempfile, time

parser = argparse.ArgumentParser(usage=__doc__)
parser.add_argument("builds", nargs=2)
parser.add_argument("--n", type=int, default=1_000_000)
parser.add_argument("--turns", type=int, default=31)
parser.add_argument("--filter", default="")
asked = parser.parse_args()
n, rng = asked.n, random.Random(42)


def load(folder, room):
    """The archive as a shared library under a name of its own: two static ones with the same entries can't be linked together."""
    made = tempfile.mktemp(".so", dir=room)
    archive = os.path.join(folder, "libmoments.a")
    subprocess.run(["gcc", "-shared", "-Wl,-Bsymbolic", "-o", made, "-Wl,--whole-archive", archive, "-Wl,--no-whole-archive"], check=True)
    return ctypes.CDLL(made)


def uneven():
    """Ends step by 0 to 2, widths wander between 0 and 256, and now and then a window is empty."""
    start = end = 0
    wide = 100
    for _ in range(n):
        end = min(end + rng.randrange(3), n)
        wide = rng.randrange(257) if rng.random() < 0.02 else wide
        start = end if rng.random() < 0.0005 else max(start, end - wide)
        yield start, end


def lent(of, values):
    """A list as an entry takes it: a pointer and a length."""
    whole = (of * len(values)).from_buffer(array.array({8: "d", 4: "I", 1: "B"}[ctypes.sizeof(of)], values))
    return [whole, ctypes.c_size_t(len(values))]


double, word, byte, size_t, flag = ctypes.c_double, ctypes.c_uint32, ctypes.c_uint8, ctypes.c_size_t, ctypes.c_bool
trace = lent(double, [18 + 4 * math.sin(i % 1440 / 229) + rng.random() for i in range(n)])
second = lent(double, [18 + 3 * math.sin(i % 1440 / 229) + rng.random() for i in range(n)])


def nine_in_ten():
    return [flag(True), *lent(byte, [sum((rng.random() < 0.9) << k for k in range(8)) for _ in range(-(-n // 8))])]


none, first_map, second_map = [flag(False), *lent(byte, [0])], nine_in_ten(), nine_in_ten()
maps = {"no map": none, "map": first_map}
pair_maps = {"no map": (none, none), "one map": (first_map, none), "both maps": (first_map, second_map)}
readings, second_readings = lent(double, [0] * n), lent(double, [0] * n)
figures, present, work = lent(double, [0] * n), lent(byte, [0] * n), lent(double, [0] * (8 * min(n, 4096)))
lists, outputs = [work, figures, present], (readings, second_readings, figures, present)
extremes = [lent(of, [0] * n) for of in (double, byte, double, byte)]
settings = {"var": [byte(1)], "skew": [flag(False)], "kurtosis": [flag(True), flag(False)]}
pair_settings = {"cov": [byte(1)], "pearson_corr": []}
plans = {str(size): [(max(0, i + 1 - size), i + 1) for i in range(n)] for size in (8, 128, 4096)} | {"uneven": list(uneven())}


def answers(figure):
    return sum(lists + extremes if figure == "var" else lists, [])


def has_extremes(library):
    """Whether variance takes six lists of outputs: the last four, of no places, are then too short, and a call on one reading is 12."""
    one, place = lent(double, [0]), lent(byte, [0])
    given = [*one, *none, size_t(1), size_t(1), flag(False), byte(1), *work, *lent(double, [0]), *place]
    return library.moments_rolling_var(*given, *4 * [place[0], size_t(0)]) == 12


cases = []
for name, rows in plans.items():
    starts, ends = (lent(word, column) for column in zip(*rows))
    for figure, setting in settings.items():
        for tag, mapped in maps.items():
            cases.append((f"plan {name}, {figure}, {tag}", f"moments_plan_{figure}",
                          [trace[0], size_t(8 * n), *readings, *mapped, *starts, *ends, size_t(1), *setting, *answers(figure)]))
    for figure, setting in pair_settings.items():
        for tag, (mapped, other) in pair_maps.items():
            traces = [trace[0], size_t(8 * n), *readings, *mapped, second[0], size_t(8 * n), *second_readings, *other]
            cases.append((f"plan {name}, {figure}, {tag}", f"moments_plan_{figure}",
                          [*traces, *starts, *ends, size_t(1), *setting, *sum(lists, [])]))
for size, center in ((size, center) for size in (8, 128, 4096) for center in (False, True)):
    window, where = [size_t(size), size_t(1), flag(center)], f"{'centred' if center else 'trailing'} {size}"
    for figure, setting in settings.items():
        for tag, mapped in maps.items():
            cases.append((f"{where}, {figure}, {tag}", f"moments_rolling_{figure}", [*trace, *mapped, *window, *setting, *answers(figure)]))
    for figure, setting in pair_settings.items():
        for tag, (mapped, other) in pair_maps.items():
            cases.append((f"{where}, {figure}, {tag}", f"moments_rolling_{figure}",
                          [*trace, *mapped, *second, *other, *window, *setting, *sum(lists, [])]))
    if size < 4096:
        weights = lent(double, [1] * size)
        cases.append((f"{where}, weights", "moments_rolling_var_weights", [*trace, *none, *window, *weights, *figures, *present]))

bad, ratios = 0, []
with tempfile.TemporaryDirectory() as room:
    libraries = [load(folder, room) for folder in asked.builds]
six = [has_extremes(library) for library in libraries]
if six[0] != six[1]:
    print(f"variance: only the {'new' if six[1] else 'old'} build gives the lowest and the highest: in its time, not compared")
print(f"{n} readings, medians of {asked.turns} turns, ns a row\n{'':36}      old      new    ratio")
for name, entry, given in cases:
    if asked.filter not in name:
        continue
    if not all(hasattr(library, entry) for library in libraries):
        print(f"{name:36} left out: a build has no {entry}")
        continue
    held = (*outputs, *extremes) if all(six) else outputs
    times, left = ([], []), [None, None]
    for turn in range(-1, asked.turns):
        for side in ((0, 1), (1, 0))[turn % 2]:
            function = libraries[side][entry]
            if turn < 0:  # not timed: what each leaves in lists that held something else
                for whole, _ in held:
                    ctypes.memset(whole, 0xAA, ctypes.sizeof(whole))
                left[side] = function(*given), *(bytes(whole) for whole, _ in held)
                continue
            began = time.perf_counter_ns()
            function(*given)
            times[side].append((time.perf_counter_ns() - began) / n)
    old, new = [statistics.median(side) for side in times]
    ratios.append(statistics.median(b / a for a, b in zip(*times)))
    print(f"{name:36} {old:8.2f} {new:8.2f} {ratios[-1]:8.3f}", flush=True)
    if left[0] != left[1] or left[0][0] != 0:
        print(f"{name}: the answers differ, or the call is refused ({left[0][0]}, {left[1][0]})"); bad += 1
if not ratios:
    sys.exit("compare.py: no such case")
print(f"{len(ratios)} cases: ratios {min(ratios):.3f} to {max(ratios):.3f}, median {statistics.median(ratios):.3f}; {bad} with other answers")
sys.exit(bad > 0)
