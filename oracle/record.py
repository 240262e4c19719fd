#!/usr/bin/env python3
"""Makes the recorded answers: record.py MARKED_ORACLE FOLDER

MARKED_ORACLE is the program of a build with --branches. FOLDER receives edges.txt, small.txt and rooms.txt. The rules
by which cases are chosen are those of the functions below; the seed is 7.
"""

import collections
import pathlib
import subprocess
import sys

SEED = "7"
SMALL_CASES = 8_000
SMALL_LENGTH = 480
SMALL_TIMES = 3
SMALL_BYTES = 85_000
ROOM_TABLES = 200
ROOM_LENGTH = 600
ROOM_KEPT = 4


def made(*words):
    maker = pathlib.Path(__file__).resolve().parent / "cases.py"
    finished = subprocess.run([sys.executable, str(maker), *map(str, words)], stdout=subprocess.PIPE, check=True)
    return finished.stdout.decode().splitlines()


def answered(oracle, cases):
    """Each case with its five answer lines and the branches it reaches."""
    text = "\n".join(cases) + "\n"
    finished = subprocess.run([oracle, "--branches"], input=text.encode(), stdout=subprocess.PIPE, check=True)
    lines = finished.stdout.decode().splitlines()
    for place, case in enumerate(cases):
        answer = lines[6 * place:6 * place + 6]
        yield case, answer[:5], frozenset(answer[5].split(" ")[1].split(",")) - {""}


def block(case, answer):
    return "\n".join([case, *answer]) + "\n"


def edges(oracle):
    """All of them."""
    return [block(case, answer) for case, answer, _ in answered(oracle, made("edges"))]


def small(oracle):
    """Of the first cases of the seed those with short lines: first each case that reaches a branch which fewer than
    three chosen ones reach, then, up to the size, one for each combination of branches not yet chosen."""
    cases = [one for one in answered(oracle, made("small", SEED, SMALL_CASES)) if len(one[0]) <= SMALL_LENGTH]
    times = collections.Counter()
    chosen, combinations = set(), set()
    size = 0

    def choose(place):
        nonlocal size
        case, answer, branches = cases[place]
        chosen.add(place)
        combinations.add(branches)
        times.update(branches)
        size += len(block(case, answer))

    for place, (_, _, branches) in enumerate(cases):
        if any(times[branch] < SMALL_TIMES for branch in branches) or not branches and not chosen:
            choose(place)
    for place, (case, answer, branches) in enumerate(cases):
        if branches not in combinations and size + len(block(case, answer)) <= SMALL_BYTES:
            choose(place)
    return [block(*cases[place][:2]) for place in sorted(chosen)]


def rooms(oracle):
    """Of the first tables of the seed with short lines those of which all three lists are written at the largest work
    length: the cases on both sides of each work length at which an answer changes, the counts left out."""
    cases = list(answered(oracle, made("rooms", SEED, ROOM_TABLES)))
    per_table = len(cases) // ROOM_TABLES
    blocks, kept = [], 0
    for start in range(0, len(cases), per_table):
        group = cases[start:start + per_table]
        written = [line for line in group[-1][1] if line.startswith("list") and line.split(" ")[2] == "ok"]
        changes = [place for place in range(1, per_table) if group[place][1][:4] != group[place - 1][1][:4]]
        if len(group[-1][0]) > ROOM_LENGTH or len(written) < 3 or kept == ROOM_KEPT:
            continue
        kept += 1
        for place in sorted({near for change in changes for near in (change - 1, change)}):
            blocks.append(block(*group[place][:2]))
    return blocks


def main():
    if len(sys.argv) != 3:
        sys.exit(__doc__)
    oracle, folder = sys.argv[1], pathlib.Path(sys.argv[2])
    folder.mkdir(parents=True, exist_ok=True)
    for name, choose in (("edges", edges), ("small", small), ("rooms", rooms)):
        blocks = choose(oracle)
        text = f"# {len(blocks)} cases, each a case line and its five answer lines, made by record.py.\n"
        text += "".join(blocks)
        (folder / f"{name}.txt").write_text(text, encoding="ascii")
        print(f"{name}.txt: {len(blocks)} cases, {len(text)} bytes")


if __name__ == "__main__":
    main()
