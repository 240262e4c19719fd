#!/usr/bin/env python3
"""A model of the numbering, by its rules: reads case lines and prints one line for each.

    model.py < CASES > ANSWERS

The line is the first of the oracle's five: `open refused 1`, `open refused 2` or `number ok ...`.
"""

import sys

ABSENT, UNREADABLE = "absent", "unreadable"
LARGEST_TABLE = 65_535
MOST_SCRIPTS = 500
SUM_CEILING = 65_535
SUM_LIMIT = 5_000


class PastTheEnd(Exception):
    pass


# ---- The reading: a part is ABSENT, UNREADABLE or a value. Offsets are taken as places in the table.


class Table:
    def __init__(self, content):
        self.content = content

    def number(self, place, width):
        if place + width > len(self.content):
            raise PastTheEnd
        return int.from_bytes(self.content[place:place + width], "big")

    def need(self, place, length):
        if place + length > len(self.content):
            raise PastTheEnd

    def part(self, holder, offset, read):
        if offset == 0:
            return ABSENT
        try:
            return read(holder + offset)
        except PastTheEnd:
            return UNREADABLE

    def tagged(self, place, first, read):
        """A counted list of tags with offsets, whose count stands at `first` bytes from the part's start."""
        count = self.number(place + first, 2)
        self.need(place + first + 2, 6 * count)
        entries = []
        for at in range(place + first + 2, place + first + 2 + 6 * count, 6):
            tag = self.content[at:at + 4]
            entries.append((tag, Part(self, place, self.number(at + 4, 2), read)))
        return entries

    def numbers(self, place):
        """A count and that many 16-bit numbers."""
        count = self.number(place, 2)
        self.need(place + 2, 2 * count)
        return [self.number(place + 2 + 2 * at, 2) for at in range(count)]

    def script_list(self, place):
        return self.tagged(place, 0, self.script)

    def feature_list(self, place):
        return self.tagged(place, 0, self.feature)

    def script(self, place):
        default = Part(self, place, self.number(place, 2), self.lang_sys)
        return default, [system for _, system in self.tagged(place, 2, self.lang_sys)]

    def lang_sys(self, place):
        self.need(place, 6)
        return self.number(place + 2, 2), self.numbers(place + 4)

    def feature(self, place):
        """Whether the parameters are absent, and the lookups."""
        return self.number(place, 2) == 0, self.numbers(place + 2)

    def variation_list(self, place):
        count = self.number(place + 4, 4)
        self.need(place + 8, 8 * count)
        starts = range(place + 8, place + 8 + 8 * count, 8)
        return [Part(self, place, self.number(at + 4, 4), self.substitution) for at in starts]

    def substitution(self, place):
        count = self.number(place + 4, 2)
        self.need(place + 6, 6 * count)
        starts = range(place + 6, place + 6 + 6 * count, 6)
        return [(self.number(at, 2), Part(self, place, self.number(at + 2, 4), self.feature)) for at in starts]


class Part:
    """A part that is read when its value is asked for, and once."""

    def __init__(self, table, holder, offset, read):
        self.how = (table, holder, offset, read)
        self.value = None

    def read(self):
        if self.value is None:
            table, holder, offset, read = self.how
            self.value = table.part(holder, offset, read)
        return self.value


def there(value):
    return value is not ABSENT and value is not UNREADABLE


# ---- The five stages


def alternates(variation_list, lookups):
    """Indices of which an alternate names a kept lookup; none at all if something is unreadable."""
    found = set()
    if not there(variation_list):
        return found
    for record in variation_list:
        substitution = record.read()
        if substitution is ABSENT:
            continue
        if substitution is UNREADABLE:
            return set()
        for index, part in substitution:
            alternate = part.read()
            if alternate is ABSENT:
                continue
            if alternate is UNREADABLE:
                return set()
            if any(lookup in lookups for lookup in alternate[1]):
                found.add(index)
    return found


def survivors(feature_list, features, lookups, with_alternate):
    out = []
    if not there(feature_list):
        return out
    for index in sorted(features):
        if index >= len(feature_list):
            continue
        tag, part = feature_list[index]
        if part.read() is ABSENT:
            continue
        if tag == b"pref":
            out.append(index)
            continue
        if part.read() is UNREADABLE:
            return out
        without_params, listed = part.read()
        if tag == b"size" and not without_params:
            out.append(index)
        elif index in with_alternate or any(lookup in lookups for lookup in listed):
            out.append(index)
    return out


def matches(feature_list, surviving, lookups):
    """The earliest match of each survivor before the first unreadable one."""
    earliest, first_with = {}, {}
    for index in surviving:
        tag, part = feature_list[index]
        if part.read() is UNREADABLE:
            break
        looks = (tag, tuple(lookup for lookup in part.read()[1] if lookup in lookups))
        earliest[index] = first_with.setdefault(looks, index)
    return earliest


class Retaining:
    """The stage that walks scripts and language systems."""

    def __init__(self, earliest):
        self.earliest = earliest
        self.scripts = 0
        self.sum = 0
        self.retained = set()
        self.pairs = []

    def visit(self, system):
        self.sum = min(self.sum + len(system[1]), SUM_CEILING)
        return self.sum < SUM_LIMIT

    def collect(self, system):
        required, indices = system
        self.retained.update(index for index in [required, *indices] if index in self.earliest)

    def looks(self, system):
        required, indices = system
        return required, [self.earliest[index] for index in indices if index in self.earliest]

    def walk(self, script_list, tags):
        if not there(script_list):
            return
        for place, (tag, part) in enumerate(script_list):
            if part.how[2] == 0 or tag not in tags:
                continue
            if part.read() is UNREADABLE:
                return
            self.walk_script(place, *part.read())

    def walk_script(self, place, default_part, records):
        default = default_part.read()
        if not records and default is ABSENT:
            return
        if self.scripts == MOST_SCRIPTS:
            return
        self.scripts += 1
        if there(default) and self.visit(default):
            self.collect(default)
        for at, part in enumerate(records):
            system = part.read()
            if system is ABSENT:
                continue
            if system is UNREADABLE:
                return
            if not self.visit(system):
                return
            if there(default) and self.looks(system) == self.looks(default):
                continue
            self.collect(system)
            self.pairs.append((place, at))


def numbers(retained, earliest):
    given, own = {}, 0
    for index in sorted(retained):
        first = earliest[index]
        if first < index and first in retained:
            given[index] = given[first]
        else:
            given[index] = own
            own += 1
    return given, own


# ---- Case lines


def listed(word, element):
    return [] if word == "-" else [element(one) for one in word.split(",")]


def spaced(words):
    return " ".join(words) or "-"


def answer(line):
    _, content, lookups, features, scripts, _ = line.split(" ")
    content = b"" if content == "-" else bytes.fromhex(content)
    lookups = set(listed(lookups, int))
    features = set(listed(features, int))
    scripts = set(listed(scripts, bytes.fromhex))
    if len(content) > LARGEST_TABLE:
        return "open refused 1"
    table = Table(content)
    try:
        minor = table.number(2, 2)
        table.need(0, 10 if minor == 0 else 14)
    except PastTheEnd:
        return "open refused 2"
    if table.number(0, 2) != 1:
        return "open refused 2"
    script_list = table.part(0, table.number(4, 2), table.script_list)
    feature_list = table.part(0, table.number(6, 2), table.feature_list)
    variation_list = ABSENT if minor == 0 else table.part(0, table.number(10, 4), table.variation_list)

    with_alternate = alternates(variation_list, lookups)
    surviving = survivors(feature_list, features, lookups, with_alternate)
    earliest = matches(feature_list, surviving, lookups)
    stage = Retaining(earliest)
    stage.walk(script_list, scripts)
    given, own = numbers(stage.retained, earliest)

    rows = spaced(f"{old}:{new}" for old, new in sorted(given.items()))
    pairs = spaced(f"{script}:{system}" for script, system in sorted(stage.pairs))
    return f"number ok {len(given)} {own} rows {rows} pairs {pairs}"


def main():
    for line in sys.stdin:
        print(answer(line.rstrip("\n")))


if __name__ == "__main__":
    main()
