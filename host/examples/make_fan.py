#!/usr/bin/env python3
"""Writes the collector's example of two traces: the floor and the top shelf of a chamber, hour by hour, and a plan over them.

    python3 make_fan.py [FOLDER]

floor.csv      time,temperature; gaps (empty or NA), some hours of a loose cable (nan, inf)
top_shelf.csv  the same hours; a week without its logger
fan_weeks.csv  label,start,end; week 1 to week 20

A fan mixes the air, so that both move together. It fails in week 12 and is mended in week 15: until then the floor is cold and quiet, and
the top shelf gets warm and goes its own way. All of it is whole numbers, as in make_year.py.
"""
import datetime
import sys

# What is taken from the script beside this one leaves no compiled copy in the folder.
sys.dont_write_bytecode = True
from make_year import noise, trace, wave, weeks, write

HOURS = 20 * 168
START = datetime.datetime(2025, 3, 3)


def hour(week, day, of_day):
    """The place of an hour; weeks and days count from 1."""
    return (week - 1) * 168 + (day - 1) * 24 + of_day


FAILED, MENDED = hour(12, 4, 14), hour(15, 2, 10)


def scatter(draw, most):
    """A number about 0, seldom near the most."""
    return (sum(next(draw) for _ in range(4)) - 2 * 65535) * most // (2 * 65535)


def layer(place):
    """How far the air has parted into layers, from 0 to 48: it takes two days, and one day to mix again."""
    if place < FAILED:
        return 0
    parted = min(place, MENDED) - FAILED
    return max(0, min(parted, 48) - 2 * max(0, place - MENDED))


def pairs():
    """Hundredths of a degree on the floor and on the top shelf, hour by hour."""
    draw, shared = noise(2), 0
    for place in range(HOURS):
        # What the compressor, the door and the weather do to all of the air wanders, and comes back.
        shared += scatter(draw, 36) - shared // 10
        mixed = shared + wave(place % 24 - 8, 24, 18)
        floor, shelf, apart = scatter(draw, 14), scatter(draw, 14), layer(place)
        alone = wave(place % 24 - 14, 24, 45) + scatter(draw, 60)
        yield (
            -1860 - apart + mixed * (48 - apart) // 48 + floor,
            -1780 + 3 * apart + mixed * (48 - apart) // 48 + alone * apart // 48 + shelf,
        )


FLOOR_GAPS = [(hour(3, 2, 9), 7, ""), (hour(9, 5, 20), 30, "NA"), (hour(18, 1, 0), 12, "")]
SHELF_GAPS = [(hour(5, 7, 18), 190, "NA"), (hour(13, 3, 11), 5, "")]
LOOSE = {hour(18, 6, 15) + since: "nan" if since % 3 else "inf" for since in range(9)}


if __name__ == "__main__":
    floor, shelf = zip(*pairs())
    write({
        "floor.csv": trace(START, floor, noise(31), FLOOR_GAPS, LOOSE),
        "top_shelf.csv": trace(START, shelf, noise(32), SHELF_GAPS, {}),
        "fan_weeks.csv": weeks(HOURS),
    })
