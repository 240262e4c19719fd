#!/usr/bin/env python3
"""Makes case lines for the oracle and for what is compared with it.

    cases.py small SEED COUNT             small tables, dense in structure, some of them damaged
    cases.py rooms SEED COUNT             COUNT small tables, each with every work length from 0 to 160
    cases.py edges                        a fixed list of made cases: one rule each, and the limits in compact tables
    cases.py limits                       a fixed list of larger tables: long lists, many objects and links
    cases.py fonts SEED COUNT FOLDER...   tables of the font files below the folders, COUNT cases for each table

A line is `KIND TABLE LOOKUPS FEATURES SCRIPTS WORK`. Case I of a seed depends on the seed and on I alone.
"""

import pathlib
import random
import struct
import sys

LARGEST_TABLE = 65_535
LARGEST_KEPT = {"lookups": 1024, "features": 512, "scripts": 64}
NO_REQUIRED = 0xFFFF


# ---- Tables from parts


class Part:
    """A run of bytes that holds offsets of other parts."""

    def __init__(self):
        self.content = bytearray()
        self.offsets = []

    def number(self, value, width=2):
        self.content += value.to_bytes(width, "big")
        return self

    def numbers(self, values):
        self.content += struct.pack(f">{len(values)}H", *values)
        return self

    def tag(self, tag):
        assert len(tag) == 4
        self.content += tag
        return self

    def offset(self, target, width=2):
        """`target` is a part, a place in one, None (absent) or a stray."""
        if target is not None:
            self.offsets.append((len(self.content), width, target))
        return self.number(0, width)


class Shifted:
    """Leads into a part, `shift` bytes behind its start."""

    def __init__(self, part, shift):
        self.part = part
        self.shift = shift


class NearEnd:
    """A stray: leads to `back` bytes before the table's end, or past it if `back` is negative."""

    def __init__(self, back):
        self.back = back

    def place(self, length, _):
        return length - self.back


class Inside:
    """A stray: leads to some byte behind its holder, whatever stands there."""

    def __init__(self, share):
        self.share = share

    def place(self, length, holder_place):
        return holder_place + 1 + int(self.share * max(0, length - holder_place - 1))


def laid(root, rng=None):
    """The table's bytes: each part behind all its holders, otherwise in the order first met or a random one."""
    def held(part):
        for _, _, target in part.offsets:
            if isinstance(target, Shifted):
                yield target.part
            elif isinstance(target, Part):
                yield target

    holders = {}
    parts = [root]
    for part in parts:
        for target in held(part):
            if target not in holders:
                holders[target] = 0
                parts.append(target)
            holders[target] += 1
    ready, order = [root], []
    while ready:
        part = ready.pop(rng.randrange(len(ready)) if rng else 0)
        order.append(part)
        for target in held(part):
            holders[target] -= 1
            if holders[target] == 0:
                ready.append(target)
    places, length = {}, 0
    for part in order:
        places[part] = length
        length += len(part.content)
    table = bytearray()
    for part in order:
        content = bytearray(part.content)
        for position, width, target in part.offsets:
            if isinstance(target, Part):
                distance = places[target] - places[part]
            elif isinstance(target, Shifted):
                distance = places[target.part] + target.shift - places[part]
            else:
                distance = max(0, min(target.place(length, places[part]) - places[part], 256**width - 1))
            content[position:position + width] = distance.to_bytes(width, "big")
        table += content
    return bytes(table)


def header(scripts, features, variations=None, major=1, minor=0):
    part = Part().number(major).number(minor).offset(scripts).offset(features).number(0)
    return part.offset(variations, 4) if minor else part


def tagged_list(entries):
    part = Part().number(len(entries))
    for tag, target in entries:
        part.tag(tag).offset(target)
    return part


def script(default, records):
    part = Part().offset(default).number(len(records))
    for tag, target in records:
        part.tag(tag).offset(target)
    return part


def lang_sys(indices, required=NO_REQUIRED, reserved=0, count=None):
    return Part().number(reserved).number(required).number(len(indices) if count is None else count).numbers(indices)


def feature(lookups, params=None, count=None):
    return Part().offset(params).number(len(lookups) if count is None else count).numbers(lookups)


def params(*fields):
    return Part().numbers(fields)


def variations(records, version=0x10000):
    part = Part().number(version, 4).number(len(records), 4)
    for condition_set, substitution in records:
        part.offset(condition_set, 4).offset(substitution, 4)
    return part


def condition_set(conditions):
    part = Part().number(len(conditions))
    for condition in conditions:
        part.offset(condition, 4)
    return part


def condition(form, axis=0, minimum=0, maximum=0):
    return Part().numbers([form, axis, minimum, maximum])


def substitution(records, version=0x10000):
    part = Part().number(version, 4).number(len(records))
    for index, alternate in records:
        part.number(index).offset(alternate, 4)
    return part


# ---- Case lines


def listed(values, form=str):
    return ",".join(form(value) for value in values) or "-"


def case(kind, table, lookups, features, scripts, work):
    tags = listed(scripts, lambda tag: tag.hex())
    return f"{kind} {table.hex() or '-'} {listed(lookups)} {listed(features)} {tags} {work}"


# ---- Small tables


class SmallTable:
    """One random table of a few features, scripts and variations."""

    SCRIPT_TAGS = [b"latn", b"DFLT", b"cyrl", b"grek"]
    SYSTEM_TAGS = [b"ROM ", b"TRK ", b"AZE ", b"NLD "]
    FEATURE_TAGS = [b"liga", b"locl", b"kern", b"pref", b"size", b"ss01", b"ss20", b"cv01", b"cvzz", b"s\0\0\0"]

    def __init__(self, rng):
        self.rng = rng
        self.faults = rng.choice([0, 0, 0, 0.02, 0.02, 0.1])
        self.absences = rng.choice([0, 0.03, 0.03, 0.2])
        self.feature_count = rng.choice([0, 1, 2, 3, 3, 4, 4, 5, 6, 6, 8, 12])
        self.lookup_range = rng.choice([1, 2, 3, 4, 6])
        self.tags = rng.sample(self.FEATURE_TAGS, rng.choice([1, 2, 2, 3, 4, 6]))
        self.systems, self.scripts, self.features = [], [], []

    def chance(self, probability):
        return self.rng.random() < probability

    def standing(self, make, others=(), alias=0.1):
        """A part that is there (made now or one made before), an absent one or a stray."""
        if self.chance(self.absences):
            return None
        if self.chance(self.faults):
            back = self.rng.choice([-60_000, -1, 0, 0, 1, 2, 3, 4, 5, 6, 7, 9, 13])
            return self.rng.choice([NearEnd(back), NearEnd(back), Inside(self.rng.random())])
        if others and self.chance(alias):
            return self.rng.choice(others)
        part = make()
        if isinstance(others, list):
            others.append(part)
        return part

    def count_of(self, values):
        """The count to write: nearly always the right one."""
        if self.chance(self.faults / 4):
            return self.rng.choice([len(values) + 1, len(values) + 7, 40_000, 65_535])
        return len(values)

    def parameters(self, tag):
        likely = 0.6 if tag == b"size" else 0.4 if tag[:2] in (b"ss", b"cv") else self.faults / 2
        if not self.chance(likely):
            return None
        rng = self.rng

        def make():
            if tag == b"size":
                return params(*(rng.randrange(300) for _ in range(5)))
            if tag[:2] == b"cv":
                characters = rng.choice([0, 0, 1, 2])
                stated = rng.choice([characters, 200]) if self.chance(self.faults) else characters
                part = params(0, *(rng.randrange(300) for _ in range(5)), stated)
                for _ in range(characters):
                    part.number(rng.randrange(0x110000), 3)
                return part
            return params(0, rng.choice([0, 0, 256, 300]))

        return self.standing(make)

    def feature(self, tag):
        lookups = [self.rng.randrange(self.lookup_range) for _ in range(self.rng.choice([0, 1, 1, 1, 1, 2, 2, 3]))]
        return feature(lookups, self.parameters(tag), self.count_of(lookups))

    def feature_list(self):
        entries = []
        for _ in range(self.feature_count):
            tag = self.rng.choice(self.tags)
            entries.append((tag, self.standing(lambda: self.feature(tag), self.features, 0.15)))
        return tagged_list(entries)

    def feature_index(self):
        return self.rng.randrange(self.feature_count + 2 if self.chance(0.1) else max(1, self.feature_count))

    def lang_sys(self, like=None):
        rng = self.rng
        if like and self.chance(0.5):
            required, indices = like[0], list(like[1])
            if indices and self.chance(0.6):
                indices[rng.randrange(len(indices))] = self.feature_index()
            if self.chance(0.1):
                required = self.feature_index()
        else:
            required = self.feature_index() if self.chance(0.25) else NO_REQUIRED
            indices = [self.feature_index() for _ in range(rng.choice([0, 1, 2, 2, 3, 4, 6]))]
        reserved = rng.randrange(65_536) if self.chance(0.05) else 0
        return (required, indices), lang_sys(indices, required, reserved, self.count_of(indices))

    def script(self):
        rng = self.rng
        model = []

        def make():
            content, part = self.lang_sys(model[0] if model else None)
            if not model:
                model.append(content)
            return part

        default = None
        if not self.chance(0.2):
            default = self.standing(make, self.systems)
        records = []
        for _ in range(rng.choice([0, 0, 1, 1, 2, 3, 4])):
            records.append((rng.choice(self.SYSTEM_TAGS), self.standing(make, self.systems)))
        return script(default, records)

    def script_list(self):
        entries = []
        for _ in range(self.rng.choice([0] + [1, 1, 2, 2, 3, 4] * 2)):
            entries.append((self.rng.choice(self.SCRIPT_TAGS), self.standing(self.script, self.scripts, 0.15)))
        return tagged_list(entries)

    def condition(self):
        form = self.rng.choice([1, 1, 1, 1, 1, 2, 3, 4, 5])
        if self.chance(self.faults):
            form = self.rng.choice([0, 6, 7, 256, 65_535])
        part = condition(form, self.rng.randrange(3), self.rng.choice([0, 0xC000]), 0x4000)
        if form != 1:
            del part.content[self.rng.choice([2, 4, 8]):]
        return part

    def variation_list(self):
        rng = self.rng
        conditions, sets, substitutions, alternates = [], [], [], []

        def make_set():
            count = rng.choice([0, 1, 1, 2, 3])
            return condition_set([self.standing(self.condition, conditions, 0.2) for _ in range(count)])

        def make_alternate():
            return self.feature(b"size" if self.chance(self.faults) else b"none")

        def make_substitution():
            records = []
            for _ in range(rng.choice([0, 1, 2, 2, 3, 4])):
                records.append((self.feature_index(), self.standing(make_alternate, alternates)))
            return substitution(records, rng.choice([0x10000, 0x10000, 0x10007]))

        records = []
        for _ in range(rng.choice([0, 1, 1, 2, 2, 3, 4])):
            records.append((self.standing(make_set, sets), self.standing(make_substitution, substitutions)))
        return variations(records, rng.choice([0x10000, 0x10000, 0x20001]))

    def root(self):
        minor = self.rng.choice([0, 0, 0, 1, 1, 1, 1, 1, 1, 1, 2, 65_535])
        major = self.rng.choice([0, 2, 256]) if self.chance(0.005) else 1
        features = self.standing(self.feature_list) if self.chance(0.3) else self.feature_list()
        scripts = self.standing(self.script_list) if self.chance(0.3) else self.script_list()
        variation_list = None
        if minor and not self.chance(0.15):
            variation_list = self.standing(self.variation_list)
        return header(scripts, features, variation_list, major, minor)


def some(rng, values, whole):
    """All of the values with probability `whole`, else some of them."""
    values = list(values)
    if rng.random() < whole:
        return values
    share = rng.choice([0.3, 0.6, 0.8])
    return [value for value in values if rng.random() < share]


def damaged(rng, table):
    table = bytearray(table)
    form = rng.choice(["cut", "cut", "bytes", "bytes", "number", "header"])
    if form == "cut":
        del table[rng.randrange(len(table)):]
    elif form == "header":
        del table[rng.randrange(15):]
    elif form == "bytes":
        for _ in range(rng.choice([1, 1, 2, 4])):
            table[rng.randrange(len(table))] = rng.choice([0, 1, 2, 255, rng.randrange(256)])
    else:
        place = rng.randrange(len(table) // 2) * 2
        table[place:place + 2] = rng.choice([0, 1, 2, 6, len(table) - place, len(table), 65_535]).to_bytes(2, "big")
    return bytes(table)


def small_case(seed, place, work=None):
    rng = random.Random(f"small {seed} {place}")
    made = SmallTable(rng)
    table = laid(made.root(), rng)
    if rng.random() < 0.15:
        table = damaged(rng, table)
    lookups = some(rng, range(made.lookup_range + 1), 0.5)
    features = some(rng, range(made.feature_count + 2), 0.7)
    scripts = some(rng, SmallTable.SCRIPT_TAGS, 0.8)
    if work is None:
        work = rng.choice([4096, 4096, 4096, 4096, rng.randrange(60), rng.randrange(120), rng.randrange(400)])
    return case(rng.choice(["GSUB", "GPOS"]), table, lookups, features, scripts, work)


def room_cases(seed, count):
    for place in range(count):
        for work in range(161):
            yield small_case(f"rooms {seed}", place, work)


# ---- Made cases


def made(scripts, features, variation_list=None, lookups=(0,), indices=None, tags=(b"latn",), kinds=("GSUB", "GPOS"),
         work=4096):
    """The case lines, one for each kind, of a table whose parts are laid in the order first met."""
    table = laid(header(tagged_list(scripts), tagged_list(features), variation_list, 1, 1 if variation_list else 0))
    assert len(table) <= LARGEST_TABLE, len(table)
    indices = range(len(features)) if indices is None else indices
    for kind in kinds:
        yield case(kind, table, lookups, indices, tags, work)


def edge_cases():
    gsub, gpos = ("GSUB",), ("GPOS",)

    def locl_font(lookups, default, romanian, turkish, **kept):
        features = [(b"liga", feature([0]))] + [(b"locl", feature(listed_lookups)) for listed_lookups in lookups]
        features.append((b"pref", feature([])))
        systems = [(b"ROM ", lang_sys(romanian)), (b"TRK ", lang_sys(turkish))]
        return made([(b"latn", script(lang_sys(default), systems))], features, lookups=(0, 1), kinds=gsub, **kept)

    # Two of three features that look alike are retained and share a number; one of them is past its earliest match.
    yield from locl_font([[1], [1, 3], [2]], [0, 1], [0, 2], [2, 4], work=256)
    # The earliest match is not retained: each later one has a number of its own.
    yield from locl_font([[1], [1], [1]], [0], [2], [3])
    # Order counts, and unkept lookups are left out before comparing.
    yield from locl_font([[0, 1], [1, 0], [0, 5, 1]], [1], [2], [3])
    yield from locl_font([[0, 5], [0, 9], [5, 0]], [1], [2], [3])
    # Required indices are compared as they stand, also where neither is retained or both share a number.
    pair = [(b"locl", feature([0])), (b"locl", feature([0])), (b"kern", feature([7]))]
    for first, second in ((0, 1), (2, 5), (2, NO_REQUIRED), (0, 0), (NO_REQUIRED, NO_REQUIRED)):
        records = [(b"ROM ", lang_sys([1, 2], second)), (b"TRK ", lang_sys([2, 0], first))]
        yield from made([(b"latn", script(lang_sys([0], first), records))], pair, kinds=gsub)
    # Scripts without records: default absent, unreadable, empty; under DFLT too.
    one = [(b"liga", feature([0]))]
    for tag in (b"latn", b"DFLT"):
        for default in (None, NearEnd(0), lang_sys([]), lang_sys([3]), lang_sys([0]), lang_sys([], 0)):
            yield from made([(tag, script(default, [])), (tag, script(lang_sys([0]), []))], one, tags=(tag,))
    # Records: absent, unreadable, empty, equal to the default, one that a failed one precedes.
    for record in (None, NearEnd(0), lang_sys([]), lang_sys([0]), lang_sys([0, 0]), lang_sys([3])):
        records = [(b"ROM ", record), (b"TRK ", lang_sys([0, 0, 0]))]
        for default in (None, lang_sys([0])):
            yield from made([(b"latn", script(default, records))], one)
    # Features that survive without a kept lookup, and an unreadable one between others.
    size = params(100, 0, 0, 0, 0)
    kinds_of_feature = [(b"pref", feature([9])), (b"size", feature([9])), (b"size", feature([9], size)),
                        (b"ss01", feature([0], params(0, 300))), (b"cv01", feature([0], params(0, 1, 2, 3, 4, 5, 0))),
                        (b"cv02", feature([0], params(0, 1, 2, 3, 4, 5, 1).number(0x1F600, 3))),
                        (b"liga", feature([9]))]
    whole = script(lang_sys(range(9), 2), [])
    yield from made([(b"latn", whole)], kinds_of_feature)
    for bad in ((b"pref", NearEnd(0)), (b"liga", NearEnd(0)), (b"size", feature([9], NearEnd(9))),
                (b"liga", feature([0], size)), (b"liga", None)):
        yield from made([(b"latn", whole)], kinds_of_feature[:3] + [bad] + kinds_of_feature[3:], kinds=gsub)
    # Four zero bytes of parameters and an empty feature are one object.
    features = [(b"pref", feature([])), (b"ss01", feature([0], params(0, 0))), (b"liga", feature([0]))]
    yield from made([(b"latn", whole)], features, kinds=gsub)
    # Variations: the alternate keeps a feature; records up to the last that names a retained index.
    ranges = condition_set([condition(1, 0, 0, 0x4000), None, condition(2), condition(1, 0, 0, 0x4000)])
    for last in (None, substitution([]), substitution([(5, None)]), substitution([(1, None)]), NearEnd(0),
                 substitution([(0, feature([0])), (0, feature([9, 0])), (1, feature([], size))])):
        features = [(b"liga", feature([9])), (b"kern", feature([0]))]
        records = [(ranges, substitution([(0, feature([0, 9, 0])), (1, None)])), (None, None), (ranges, last)]
        yield from made([(b"latn", whole)], features, variations(records))
    # An unreadable alternate, or substitution table, empties the set of alternates.
    features = [(b"liga", feature([9])), (b"kern", feature([0]))]
    for bad in ([(None, substitution([(0, feature([0])), (7, NearEnd(0))]))],
                [(None, substitution([(0, feature([0]))])), (None, NearEnd(0)), (None, substitution([(1, None)]))]):
        yield from made([(b"latn", whole)], features, variations(bad), kinds=gsub)
    for bad in (condition(0), condition(6), NearEnd(1), NearEnd(2)):
        records = [(condition_set([bad, condition(1)]), substitution([(0, feature([0]))]))]
        yield from made([(b"latn", whole)], one, variations(records), kinds=gsub)

    # The sum of the pruning stage, with and without a default, then over scripts.
    hundred, two = lang_sys([9] * 100), [(b"liga", feature([0])), (b"locl", feature([0]))]
    for total in (4_999, 5_000):
        rest, tail = (b"REST", lang_sys([1] * (total - 4_900))), (b"TAIL", lang_sys([1]))
        records = [(b"A%03d" % place, hundred) for place in range(48)]
        yield from made([(b"latn", script(hundred, records + [rest, tail]))], two, kinds=gsub)
        yield from made([(b"latn", script(None, records + [(b"A999", hundred), rest, tail]))], two, kinds=gsub)
        rest, tail = script(rest[1], [(b"NONE", lang_sys([]))]), script(lang_sys([1]), [])
        yield from made([(b"latn", script(hundred, []))] * 49 + [(b"latn", rest), (b"latn", tail)], two, kinds=gpos)
    # Past 65,535 it stays there: it is 0 if it wraps. The written sum stays where it was. GPOS takes the scripts back.
    long = script(lang_sys([9] * 325), [])
    tail = script(None, [(b"ROM ", lang_sys([0]))])
    for count in (535, 536):
        middle = script(lang_sys([9] * count), [])
        yield from made([(b"latn", long)] * 200 + [(b"latn", middle), (b"latn", tail)], one, kinds=gpos)
    # The written sum: defaults are visited again when written, also those whose visit failed before.
    first, hundred = script(lang_sys([0, 1]), []), script(lang_sys([9] * 100), [])
    for total in (7_999, 8_000):
        rest, tail = script(lang_sys([1] * (total - 7_902), 0), []), script(lang_sys([0]), [])
        for tag in (b"latn", b"DFLT"):
            entries = [(b"latn", first)] + [(b"latn", hundred)] * 79 + [(tag, rest), (b"latn", tail)]
            yield from made(entries, two, tags=(b"DFLT", b"latn"), kinds=gpos)
    # Scripts: 499 that are taken back, one more or none, then one that would be written. One without records and
    # default is counted only when it is written; with an unreadable default it is counted before.
    empty, full = script(lang_sys([]), []), script(lang_sys([0]), [])
    for more in ([full], [empty, full], [script(None, []), full], [script(NearEnd(0), []), full], [empty, NearEnd(0)]):
        yield from made([(b"latn", part) for part in [empty] * 499 + more], one, kinds=gpos)
    # Language systems: 2,000 that are taken back, then one that would be written.
    systems = [(b"NONE", lang_sys([9]))] * 100
    for count in (99, 100):
        entries = [(b"latn", script(None, systems))] * 19 + [(b"latn", script(None, systems[:count]))]
        yield from made(entries + [(b"latn", script(None, [(b"LAST", lang_sys([0]))]))], one, kinds=gsub)
    # Lookups: 35,000 or 35,002 in features of 500 each, the last with parameters, and in alternates likewise.
    long = feature([0] * 500)
    for count in (499, 501):
        entries = [(b"%04d" % place, long) for place in range(69)] + [(b"rest", feature([0] * count))]
        entries.append((b"ss01", feature([9, 0], params(0, 300))))
        yield from made([(b"latn", script(lang_sys(range(71)), []))], entries, kinds=gsub)
    records = [(0, long)] * 69 + [(0, feature([0] * 501)), (0, feature([9, 0]))]
    yield from made([(b"latn", script(lang_sys([0]), []))], [(b"pref", feature([]))],
                    variations([(None, substitution(records))]), kinds=gsub)


def limit_cases():
    ample = {"work": 262_144}
    one, two = [(b"liga", feature([0]))], [(b"liga", feature([0])), (b"locl", feature([0]))]
    # Sums from long systems: at the limits, and far past 65,535 (three times 22,000 is 464 if it wraps).
    for total in (4_999, 5_000, 7_999, 8_000):
        counts = (2, total // 2, total - total // 2 - 2)
        entries = [(b"latn", script(lang_sys([0, 1] * (count // 2) + [0] * (count % 2)), [])) for count in counts]
        yield from made(entries + [(b"latn", script(lang_sys([]), [(b"ROM ", lang_sys([], 1))]))], two, **ample)
    long = script(lang_sys([0] * 22_000), [])
    entries = [(b"latn", long)] * 3 + [(b"latn", script(lang_sys([1]), [(b"ROM ", lang_sys([1, 1]))]))]
    yield from made(entries, two, **ample)
    # Scripts: one script named many times; the one past the limit unreadable, absent or under another tag.
    shared = script(lang_sys([0]), [])
    for count in (499, 500, 501, 502):
        yield from made([(b"latn", shared)] * count, one, **ample)
    for last in ((b"latn", NearEnd(0)), (b"latn", None), (b"cyrl", shared)):
        yield from made([(b"latn", shared)] * 500 + [last], one, **ample)
    for empty in (script(None, []), script(NearEnd(0), [])):
        yield from made([(b"latn", empty)] * 501 + [(b"latn", shared)], one, **ample)
    # Language systems: records of a few scripts that all name one system. A library may keep 2,048 pairs at most.
    for count in (1_999, 2_000, 2_001, 2_048, 2_049):
        full, rest = divmod(count, 500)
        systems = [(b"A%03d" % place, lang_sys([0])) for place in range(1)] * 500
        entries = [(b"latn", script(None, systems))] * full + [(b"latn", script(None, systems[:rest]))]
        yield from made(entries, one, **ample)
    # Lookups: one long feature under several tags, then features with one lookup and with parameters.
    names = [b"aaaa", b"bbbb", b"cccc", b"dddd", b"eeee"]
    long = feature([0] * 8_000)
    for extra in (0, 1):
        entries = [(name, long) for name in names[:4]] + [(names[4], feature([0] * (3_000 + extra)))]
        entries += [(b"liga", feature([9, 0])), (b"ss01", feature([0], params(0, 300)))]
        yield from made([(b"latn", script(lang_sys(range(7)), []))], entries, **ample)
    # Objects: language systems that all differ, one for each pair of a required and a listed number, in 50 scripts.
    # With the scripts and the list itself there are 2,047 to 2,049.
    entries = [(b"%04d" % place, feature([0])) for place in range(48)]
    for count in (1_996, 1_997, 1_998):
        systems = [lang_sys([place % 48], place // 48) for place in range(count)]
        scripts = []
        for start in range(0, count, 40):
            records = [(b"%04d" % place, systems[place]) for place in range(start, min(start + 40, count))]
            scripts.append((b"latn", script(None, records)))
        yield from made(scripts, entries, **ample)
    # Links: one condition named many times in one set. With the other three there are 4,095 to 4,097.
    for count in (4_092, 4_093, 4_094):
        records = [(condition_set([condition(1, 0, 0, 0x4000)] * count), substitution([(0, feature([0]))]))]
        yield from made([(b"latn", script(lang_sys([0]), []))], one, variations(records), **ample)
    # Offsets of 65,534 and 65,536. So many bytes come from features that overlap: each of four begins with an
    # absent parameter offset and the count, and lists what the next ones begin with.
    count = 8_184
    for short in (2, 3):
        overlapped = Part().numbers([0, count] * 4 + [0] * count)
        entries = [(b"aaaa", feature([0])), (b"bbbb", feature([0] * short))]
        entries += [(b"c%03d" % place, Shifted(overlapped, 4 * place)) for place in range(4)]
        yield from made([(b"latn", script(lang_sys(range(6)), []))], entries, lookups=(0, count), **ample)
    # A table of the largest size, and one over it.
    table = laid(header(tagged_list([(b"latn", shared)]), tagged_list(one)))
    for length in (LARGEST_TABLE, LARGEST_TABLE + 1):
        yield case("GSUB", table + bytes(length - len(table)), [0], [0], [b"latn"], 4096)


# ---- Font files


def font_tables(folders):
    """The GSUB and GPOS tables of the font files below the folders that are not over their size."""
    for folder in folders:
        for path in sorted(pathlib.Path(folder).rglob("*")):
            if path.suffix.lower() not in (".ttf", ".otf"):
                continue
            content = path.read_bytes()
            for place in range(int.from_bytes(content[4:6], "big")):
                record = content[12 + 16 * place:28 + 16 * place]
                start, length = struct.unpack(">LL", record[8:16])
                if record[:4] in (b"GSUB", b"GPOS") and length <= LARGEST_TABLE:
                    yield path.name, record[:4].decode(), content[start:start + length]


def font_cases(seed, count, folders):
    for name, kind, table in font_tables(folders):
        rng = random.Random(f"fonts {seed} {name} {kind}")
        scripts_at, features_at, lookups_at = struct.unpack(">HHH", table[4:10])

        def counted(place):
            return int.from_bytes(table[place:place + 2], "big") if place else 0

        tags = [table[scripts_at + 2 + 6 * place:scripts_at + 6 + 6 * place] for place in range(counted(scripts_at))]
        for _ in range(count):
            kept = {
                "lookups": some(rng, range(counted(lookups_at)), 0.2),
                "features": some(rng, range(counted(features_at)), 0.4),
                "scripts": some(rng, sorted(set(tags)), 0.3),
            }
            lookups, features, scripts = (kept[key][:LARGEST_KEPT[key]] for key in ("lookups", "features", "scripts"))
            work = rng.choice([65_536, 65_536, rng.randrange(3_000)])
            yield case(kind, table, lookups, features, scripts, work)


def main():
    words = sys.argv[1:]
    if words[:1] == ["small"] and len(words) == 3:
        lines = (small_case(words[1], place) for place in range(int(words[2])))
    elif words[:1] == ["rooms"] and len(words) == 3:
        lines = room_cases(words[1], int(words[2]))
    elif words == ["edges"]:
        lines = edge_cases()
    elif words == ["limits"]:
        lines = limit_cases()
    elif words[:1] == ["fonts"] and len(words) > 3:
        lines = font_cases(words[1], int(words[2]), words[3:])
    else:
        sys.exit(__doc__)
    for line in lines:
        print(line)


if __name__ == "__main__":
    main()
