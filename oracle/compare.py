#!/usr/bin/env python3
"""Compares the answers of two programs that read case lines and print answer lines.

    compare.py [--only WORDS] [--show N] FIRST SECOND small SEED COUNT
    compare.py [--only WORDS] [--show N] FIRST SECOND rooms SEED COUNT
    compare.py [--only WORDS] [--show N] FIRST SECOND edges
    compare.py [--only WORDS] [--show N] FIRST SECOND limits
    compare.py [--only WORDS] [--show N] FIRST SECOND fonts SEED COUNT FOLDER...
    compare.py [--only WORDS] [--show N] FIRST SECOND file CASES
    compare.py [--only WORDS] [--show N] recorded SECOND FILE...

FIRST and SECOND are commands, each one argument. The cases are those that cases.py makes, or the lines of a file. With
the word `recorded` instead of a first command, cases and first answers are those of files of recorded answers.
--only takes the kinds of answer lines to compare, with commas: number, list, counts (all three if it is not given;
`number` takes the first line of an answer, also where that is `open refused`). --show takes how many differences are
printed (20 if it is not given), the smallest input first. The exit status is 0 if there is no difference.
"""

import argparse
import collections
import pathlib
import shlex
import subprocess
import sys
import tempfile

KINDS = ("number", "list", "counts")


def kind_of(line):
    first = line.split(" ", 1)[0]
    return first if first in ("list", "counts") else "number"


def summary(line):
    """What an answer line says, without its values."""
    words = line.split(" ")
    if words[0] == "list":
        return " ".join(words[:4 if words[2] == "error" else 3])
    if words[0] == "counts":
        return None
    return " ".join(words[:2 if words[0] == "number" and words[1] == "ok" else 3])


def recorded(files, kinds):
    """The cases of files of recorded answers, and the answer lines of each."""
    lines = []
    for file in files:
        lines += pathlib.Path(file).read_text(encoding="ascii").splitlines()
    lines = [line for line in lines if not line.startswith("#")]
    blocks = [lines[place:place + 6] for place in range(0, len(lines), 6)]
    return [block[0] for block in blocks], [[line for line in block[1:] if kind_of(line) in kinds] for block in blocks]


def answers(command, case_file, kinds, count):
    """The answer lines of each case."""
    with open(case_file, "rb") as cases, tempfile.TemporaryFile() as out:
        finished = subprocess.run(shlex.split(command), stdin=cases, stdout=out, check=False)
        if finished.returncode != 0:
            sys.exit(f"compare.py: '{command}' ended with {finished.returncode}")
        out.seek(0)
        lines = [line.decode().rstrip("\n") for line in out]
    lines = [line for line in lines if kind_of(line) in kinds]
    if count == 0 or len(lines) % count != 0 or not lines:
        sys.exit(f"compare.py: '{command}' printed {len(lines)} such lines for {count} cases")
    each = len(lines) // count
    return [lines[place:place + each] for place in range(0, len(lines), each)]


def shortened(text, most=2_000):
    return text if len(text) <= most else f"{text[:most]}... ({len(text)} characters)"


def main():
    parser = argparse.ArgumentParser(usage=__doc__)
    parser.add_argument("--only", default=",".join(KINDS))
    parser.add_argument("--show", type=int, default=20)
    parser.add_argument("first")
    parser.add_argument("second")
    parser.add_argument("cases", nargs="+")
    options = parser.parse_args()
    kinds = options.only.split(",")
    if not set(kinds) <= set(KINDS):
        parser.error(f"--only takes {', '.join(KINDS)}")

    with tempfile.TemporaryDirectory() as folder:
        case_file = f"{folder}/cases"
        if options.first == "recorded":
            cases, first = recorded(options.cases, kinds)
            pathlib.Path(case_file).write_text("".join(f"{case}\n" for case in cases), encoding="ascii")
        elif options.cases[0] == "file":
            case_file = options.cases[1]
        else:
            maker = pathlib.Path(__file__).resolve().parent / "cases.py"
            with open(case_file, "wb") as out:
                subprocess.run([sys.executable, str(maker), *options.cases], stdout=out, check=True)
        with open(case_file, encoding="ascii") as lines:
            cases = lines.read().splitlines()
        if options.first != "recorded":
            first = answers(options.first, case_file, kinds, len(cases))
        second = answers(options.second, case_file, kinds, len(cases))

    said = collections.Counter(summary(line) for answer in first for line in answer)
    said.pop(None, None)
    differences = [place for place in range(len(cases)) if first[place] != second[place]]
    differences.sort(key=lambda place: (len(cases[place]), place))
    print(f"cases {len(cases)}, equal {len(cases) - len(differences)}, different {len(differences)}")
    for words, times in sorted(said.items()):
        print(f"  first says {words}: {times}")
    for place in differences[:options.show]:
        print(f"\ncase {place + 1}: {shortened(cases[place])}")
        if len(first[place]) != len(second[place]):
            print(f"  {len(first[place])} lines and {len(second[place])} lines")
        for one, other in zip(first[place], second[place]):
            if one != other:
                print(f"  first:  {shortened(one)}")
                print(f"  second: {shortened(other)}")
    if len(differences) > options.show:
        print(f"\n{len(differences) - options.show} more differences")
    sys.exit(1 if differences else 0)


if __name__ == "__main__":
    main()
