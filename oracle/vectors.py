#!/usr/bin/env python3
"""Takes the case lines and the first answer lines out of the recorded answers: vectors.py RECORDED_FOLDER FILE

FILE receives two lines for each case: the case, and the recorded numbering.
"""

import pathlib
import sys


def main():
    if len(sys.argv) != 3:
        sys.exit(__doc__)
    folder, out = pathlib.Path(sys.argv[1]), pathlib.Path(sys.argv[2])
    text = ""
    count = 0
    for name in ("edges", "small", "rooms"):
        lines = (folder / f"{name}.txt").read_text(encoding="ascii").splitlines()
        lines = [line for line in lines if not line.startswith("#")]
        for place in range(0, len(lines), 6):
            text += f"{lines[place]}\n{lines[place + 1]}\n"
            count += 1
    out.write_text(text, encoding="ascii")
    print(f"{out}: {count} cases, {len(text)} bytes")


if __name__ == "__main__":
    main()
