#!/usr/bin/env python3
"""Marks the branches of extracted text, so that the oracle can tell which of them a case reaches.

    branches.py BUILD_FOLDER

Rewrites layout.rs, closure.rs, offset.rs, offset_array.rs and serialize.rs in the folder: each block of a function,
loop, condition or `else`, and each arm of a match, begins by recording its number. Lists the branches, number, file
and line of the unmarked text, on standard output. Nothing else is changed, and no answer depends on it.
"""

import pathlib
import re
import sys

FILES = ["layout.rs", "closure.rs", "offset.rs", "offset_array.rs", "serialize.rs"]
BLOCK = re.compile(
    r"^(fn |pub fn |pub\(crate\) fn |\) -> .*\{$|if |\} else |else \{|for |while |\{$|.* if .*\{$|.* else \{$|.*=> \{$)"
)
ARM = re.compile(r"^(\s*)([^=]*?(?:\([^=]*\))?) => (?!\{)(.*),$")


def marked(text, file_name, first):
    """The text with marks from number `first` on, and where they stand."""
    lines, places = [], []
    for at, line in enumerate(text.splitlines(), 1):
        bare = line.strip()
        number = first + len(places)
        arm = ARM.match(line)
        if bare.startswith("//"):
            lines.append(line)
        elif bare.endswith("{") and BLOCK.match(bare) and line != "{":
            places.append((number, file_name, at, bare))
            lines.append(f"{line} crate::reached::branch({number});")
        elif arm:
            places.append((number, file_name, at, bare))
            lines.append(f"{arm[1]}{arm[2]} => {{ crate::reached::branch({number}); {arm[3]} }}")
        else:
            lines.append(line)
    return "\n".join(lines) + "\n", places


def main():
    if len(sys.argv) != 2:
        sys.exit(__doc__)
    folder = pathlib.Path(sys.argv[1])
    first = 0
    for name in FILES:
        path = folder / name
        text, places = marked(path.read_text(encoding="utf-8"), name, first)
        path.write_text(text, encoding="utf-8")
        first += len(places)
        for number, file_name, at, line in places:
            print(f"{number} {file_name}:{at} {line}")


if __name__ == "__main__":
    main()
