#!/usr/bin/env python3
"""Prints examples/film.txt: a training ship's tree and a made-up film of 240 frames, ten seconds at 24 frames a second, one frame a slot.

The sizes follow an encoder's groups of 12 frames, I B B P B B P B B P B B, over four scenes of their own detail. The seed is fixed."""
import random

TREE = """\
# A training ship: one box takes the film from the store, one box on each of two decks, three screens.
# Delays are in slots of 1/24 second, memories in bytes, rates in bytes a slot.
node 1  parent 0  delay  0  memory 200000  rate 13000  # the ship's box
node 2  parent 1  delay  0  memory  96000  rate 12500  # upper deck
node 3  parent 1  delay  0  memory  96000  rate 12500  # lower deck
node 4  parent 2  delay 12  memory  48000  rate 12000  # screen in the lecture room
node 5  parent 2  delay 15  memory  32000  rate 12000  # screen in the mess
node 6  parent 3  delay 18  memory  64000  rate 11500  # screen on the lower deck

# The film: 240 frames, a size to a line. The sizes are made up.
frames"""

GROUP = "IBBPBBPBBPBB"
BYTES = {"I": 36_000, "P": 15_000, "B": 6_500}
# Scenes: the frame after the last, and how much larger its frames are than those of BYTES.
SCENES = [(60, 0.8), (108, 1.25), (180, 0.7), (240, 1.1)]


def sizes(rng):
    for m in range(240):
        detail = next(factor for end, factor in SCENES if m < end)
        # A cut to a new scene shows as one larger frame.
        cut = 1.3 if any(m == end for end, _ in SCENES) else 1.0
        yield round(BYTES[GROUP[m % 12]] * detail * cut * (0.75 + 0.5 * rng.random()))


print(TREE)
for size in sizes(random.Random(1998)):
    print(size)
