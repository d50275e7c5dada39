#!/usr/bin/env python3
"""Writes the ground records of examples/tiles: the sample tiles A to G, the valley, the meadow, the marsh, two lakes, a lake that is too
deep to be listed, and one record for each refusal of a ground.

The records are kept beside this script; run it to see how a ground record is made, or to make one of your own.
"""
import os
import struct

FOLDER = os.path.join(os.path.dirname(os.path.abspath(__file__)), "tiles")


def ground_record(width, height, heights, marks, water):
    """Heights (4 bytes each, signed), marks (1), water (2), then the trailer: width, height and three distances back."""
    n = width * height
    sections = struct.pack(f"<{n}i", *heights) + bytes(marks) + struct.pack(f"<{n}H", *water)
    return sections + struct.pack("<HHIII", width, height, 7 * n, 3 * n, 2 * n)


def row(heights, outlets, water=None):
    """A tile one cell high."""
    n = len(heights)
    return ground_record(n, 1, heights, [int(c in outlets) for c in range(n)], water or [1] * n)


def samples():
    yield "sample_a", row([5], {0})
    yield "sample_b", row([0, 3, 1, 4, 2], {0})
    yield "sample_c", row([2, 5, 1, 0], {0})
    yield "sample_d", ground_record(3, 3, [0] * 9, [1, 0, 0, 0, 0, 0, 0, 0, 1], [1] * 9)
    yield "sample_e", row([0, 5, 0], {0, 2})
    yield "sample_f", row([-3, 4], {1}, [2, 3])
    yield "sample_g", row([7, 1, 3, 2, 5, 0], {0, 5})


def valley():
    """A valley that falls to the south. A ridge with two equal sills holds back a lake; a cave in the east is an inner outlet."""
    width, height = 32, 20
    heights = []
    for y in range(height):
        for x in range(width):
            bends = 3 if (y // 3) % 2 else -3
            across = (x - 16 - bends * (y % 3)) ** 2 * 6
            rough = (x * 37 + y * 61 + x * y * 13) % 29
            level = 60 * (height - 1 - y) + across + rough
            if y == 12:
                level += 1500
            if y == 12 and x in (10, 22):
                level = 1400  # the two sills: the lesser cell number decides, and it always does
            if 8 <= y <= 11 and abs(x - 16) <= 7:
                level -= 500  # the bed of the lake
            heights.append(level)
    cave = 4 * width + 27
    heights[cave] = -200
    marks = [int(y == height - 1 and 10 <= x <= 22) for y in range(height) for x in range(width)]
    marks[cave] = 1
    water = [3 if y < 6 else 1 for y in range(height) for x in range(width)]
    return ground_record(width, height, heights, marks, water)


def meadow():
    """A level meadow below a slope, with a pond in it, that drains to a ditch in the east. Only the pond is wet."""
    width, height = 12, 7
    pond = {(6, 2), (7, 2), (5, 3), (6, 3), (7, 3), (8, 3), (6, 4), (7, 4)}
    heights = []
    for y in range(height):
        for x in range(width):
            slope = 30 * max(0, 3 - x)
            heights.append(100 + slope - (40 if (x, y) in pond else 0))
    ditch = 3 * width + 11
    heights[ditch] = 90
    marks = [int(cell == ditch) for cell in range(width * height)]
    return ground_record(width, height, heights, marks, [1] * (width * height))


def marsh():
    """A level marsh below a slope in the west, and a lake in the east whose only way out is a sill. Carved, the marsh drains through one
    trench; as a sheet it drains side by side, over the whole shore of the lake."""
    width, height = 14, 8
    heights = []
    for y in range(height):
        for x in range(width):
            in_lake = 9 <= x <= 11 and 1 <= y <= 6
            heights.append(60 if in_lake else 130 if x >= 12 else 100 + 30 * max(0, 2 - x))
    sill, outlet = 4 * width + 12, 4 * width + 13
    heights[sill], heights[outlet] = 90, 80
    marks = [int(cell == outlet) for cell in range(width * height)]
    return ground_record(width, height, heights, marks, [1] * (width * height))


def two_lakes():
    """A lake in the west that becomes two when its water sinks to 120, a level meadow, and a pond in the east that never splits."""
    rows = [
        [150, 150, 150, 150, 150, 130, 130, 110, 110, 110],
        [150, 80, 120, 90, 150, 130, 130, 110, 70, 110],
        [150, 80, 120, 90, 150, 130, 130, 110, 70, 110],
        [150, 80, 120, 90, 140, 130, 130, 110, 60, 110],
        [150, 150, 150, 150, 150, 130, 130, 110, 110, 100],
        [150, 150, 150, 150, 150, 130, 130, 110, 110, 90],
    ]
    heights = sum(rows, [])
    outlet = len(heights) - 1
    return ground_record(10, 6, heights, [int(cell == outlet) for cell in range(60)], [1] * 60)


def deep():
    """A corridor winds down between walls, from an outlet past 65 pits with a sill between each two. The sills rise towards the outlet, so
    that sinking water leaves one pit after the other: a lake 65 deep, and 64 is the most that a list of lakes takes."""
    width, height, pits = 12, 21, 65
    path = []
    for y in range(height):
        turn = [width - 1] if y % 4 == 1 else [0]
        across = turn if y % 2 else range(width) if y % 4 == 0 else reversed(range(width))
        path += [y * width + x for x in across]
    heights = [1000] * (width * height)
    for place, cell in enumerate(path[: 2 * pits]):
        heights[cell] = 0 if place % 2 else 10 * (pits - place // 2)
    marks = [int(cell == path[0]) for cell in range(width * height)]
    return ground_record(width, height, heights, marks, [1] * (width * height))


def refusals():
    good = row([0, 3, 1], {0})
    yield "refused_1_size", good[:-16] + struct.pack("<HH", 0, 1) + good[-12:]
    yield "refused_2_length", b"\0" + good
    yield "refused_4_height", row([0, 8_000_001, 1], {0})
    yield "refused_5_mark", ground_record(3, 1, [0, 3, 1], [1, 0, 2], [1, 1, 1])
    yield "refused_6_outlet", row([0, 3, 1], set())
    yield "refused_7_distance", good[:-4] + struct.pack("<I", 7)


if __name__ == "__main__":
    os.makedirs(FOLDER, exist_ok=True)
    scenes = [("valley", valley()), ("meadow", meadow()), ("marsh", marsh()), ("two_lakes", two_lakes()), ("deep", deep())]
    for name, record in [*samples(), *scenes, *refusals()]:
        with open(os.path.join(FOLDER, name + ".ground"), "wb") as file:
            file.write(record)
