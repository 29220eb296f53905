#!/usr/bin/env python3
"""Writes the example of the program collector: a year of a chamber, hour by hour, and two plans over it.

    python3 make_year.py [FOLDER]

year.csv              time,temperature; gaps (empty or NA), a failed defrost, a dead probe (nan, inf)
weeks.csv             label,start,end; week 1 to week 53
quarters_refused.csv  the quarters and then the year, which starts before them: refused

All of it is whole numbers, hundredths of a degree, and the noise has its own generator: every machine writes the same bytes.
"""
import datetime
import os
import sys

HOURS = 365 * 24
START = datetime.datetime(2025, 1, 1)


def hour(month, day, of_day):
    """The place of an hour of the year."""
    return int((datetime.datetime(2025, month, day, of_day) - START).total_seconds()) // 3600


def noise(state):
    """Numbers from 0 to 65,535, for ever."""
    while True:
        state = (state * 6364136223846793005 + 1442695040888963407) % 2**64
        yield state >> 48


def wave(phase, period, height):
    """A wave made of two parabolas, from -height to height, 0 at phase 0."""
    phase %= period
    half = period // 2
    size = 4 * height * (phase % half) * (half - phase % half) // (half * half)
    return size if phase < half else -size


def swing(place, start, rise, stay, fall, height):
    """Up, on a level and down again; 0 elsewhere."""
    since = place - start
    if since < 0 or since >= rise + stay + fall:
        return 0
    if since < rise:
        return height * (since + 1) // rise
    if since < rise + stay:
        return height
    left = rise + stay + fall - since
    return height * left * left // (fall * fall)


def temperature(place, draw):
    """Hundredths of a degree: the cold, the season, the day, the noise, each morning's defrost, and the one that failed."""
    scatter = sum(next(draw) for _ in range(4)) // 2048 - 64
    season = wave(place - 24 * 100, HOURS, 35)
    day = wave(place % 24 - 9, 24, 20 + wave(place - 24 * 100, HOURS, 10))
    warmed = 45 if place % 24 == 5 else 0
    failed = swing(place, hour(7, 19, 4), 16, 5, 30, 1290)
    return -1800 + season + day + scatter * 2 // 5 + warmed + failed


GAPS = [
    (hour(2, 11, 9), 5, ""),
    (hour(3, 11, 21), 180, "NA"),
    (hour(5, 2, 13), 9, ""),
    (hour(6, 21, 22), 3, "NA"),
    (hour(9, 8, 0), 30, ""),
    (hour(12, 24, 17), 40, "NA"),
]
DEAD = {hour(11, 4, 10) + since: {3: "inf", 17: "-inf", 18: "inf"}.get(since, "nan") for since in range(50)}


def field(place, hundredths, lost, gaps, dead):
    """A temperature as it is written, or why there is none."""
    for start, length, text in gaps:
        if start <= place < start + length:
            return text
    if place in dead:
        return dead[place]
    # Now and then a logger loses an hour.
    lost = next(lost)
    if lost < 150:
        return "" if lost % 2 else "NA"
    sign, size = ("-" if hundredths < 0 else ""), abs(hundredths)
    return f"{sign}{size // 100}.{size % 100:02d}"


def trace(start, temperatures, lost, gaps, dead):
    """The lines of a trace, hour by hour."""
    yield "time,temperature"
    for place, hundredths in enumerate(temperatures):
        time = start + datetime.timedelta(hours=place)
        yield f"{time:%Y-%m-%dT%H:%M},{field(place, hundredths, lost, gaps, dead)}"


def year():
    draw = noise(2025)
    return trace(START, (temperature(place, draw) for place in range(HOURS)), noise(7), GAPS, DEAD)


def weeks(hours):
    yield "label,start,end"
    for number, start in enumerate(range(0, hours, 168), 1):
        yield f"week {number},{start},{min(start + 168, hours)}"


def quarters():
    yield "label,start,end"
    starts = [hour(month, 1, 0) for month in (1, 4, 7, 10)]
    for number, (start, end) in enumerate(zip(starts, starts[1:] + [HOURS]), 1):
        yield f"quarter {number},{start},{end}"
    yield f"the whole year,0,{HOURS}"


def write(files):
    """Each file's lines, to the folder that is named or that of this script."""
    folder = sys.argv[1] if len(sys.argv) > 1 else os.path.dirname(os.path.abspath(__file__))
    for name, lines in files.items():
        with open(os.path.join(folder, name), "w", encoding="ascii", newline="\n") as file:
            file.writelines(line + "\n" for line in lines)


if __name__ == "__main__":
    write({"year.csv": year(), "weeks.csv": weeks(HOURS), "quarters_refused.csv": quarters()})
