#!/usr/bin/env python3
"""Compares what hub prints of the GSUB and GPOS tables of font files with what fontTools reads in them.

    compare.py [--hub PROGRAM] [--made] [FILE ..]

Each FILE is a font file; --made adds fonts that are made here, with parameters and variations.
Each table is shown twice, out of the font file and as a bare table. The status is 0 if all agree.
"""
import argparse
import os
import re
import subprocess
import sys
import tempfile

from fontTools.fontBuilder import FontBuilder
from fontTools.ttLib import TTFont
from fontTools.varLib.featureVars import addFeatureVariations

KINDS = ("GSUB", "GPOS")
LARGEST = 65535
NONE_REQUIRED = 0xFFFF
TAG = r"0x[0-9A-F]{8}|[\x20-\x7E]{4}"


# What hub prints, parsed line by line. A line that no rule takes is an error.


class Lines:
    def __init__(self, text):
        self.lines = []
        for line in text.split("\n")[:-1]:
            if self.lines and self.lines[-1].endswith(","):
                self.lines[-1] += " " + line.strip()
            else:
                self.lines.append(line)
        self.at = 0

    def take(self, pattern):
        found = self.try_take(pattern)
        if found is None:
            line = self.lines[self.at] if self.at < len(self.lines) else "the end"
            raise ValueError(f"line {self.at + 1}: {line!r} is not {pattern!r}")
        return found

    def try_take(self, pattern):
        if self.at == len(self.lines):
            return None
        found = re.fullmatch(pattern, self.lines[self.at])
        self.at += found is not None
        return found


def counted(text, thing):
    """The count in '3 things', 'no things' or '1 thing'; else the standing itself."""
    if text in ("absent", "unreadable"):
        return text
    if text == f"no {thing}s":
        return 0
    number, said = text.split(" ", 1)
    if said != (thing if number == "1" else thing + "s"):
        raise ValueError(f"{text!r} is no count of {thing}s")
    return int(number)


def tag(text):
    return bytes.fromhex(text[2:]).decode("latin-1") if len(text) == 10 else text


def named(text):
    """A feature's index and its tag, which is None past the list's end."""
    index, name = text.split(" ", 1)
    return int(index), None if name == "no such feature" else tag(name)


def items(text, pattern):
    found = [m.group(1) for m in re.finditer(rf"({pattern})(?:, |$)", text)]
    if ", ".join(found) != text:
        raise ValueError(f"{text!r} is no list of {pattern}")
    return found


NAMED = rf"\d+ (?:no such feature|{TAG})"


def lang_sys(text):
    if text in ("absent", "unreadable"):
        return text
    found = re.fullmatch(rf"required (none|{NAMED}); (?:no features|features (.*))", text)
    if found is None:
        raise ValueError(f"{text!r} is no language system")
    required = None if found[1] == "none" else named(found[1])
    return required, [named(item) for item in items(found[2], NAMED)] if found[2] else []


def scripts(lines):
    count = counted(lines.take("Script list: (.*)")[1], "script")
    if isinstance(count, str):
        return count
    return [script(lines, at) for at in range(count)]


def script(lines, at):
    head = lines.take(rf"  {at} ({TAG}): (.*)")
    count = counted(head[2], "language system")
    if isinstance(count, str):
        return tag(head[1]), count
    default = lang_sys(lines.take("    default: (.*)")[1])
    records = []
    for k in range(count):
        record = lines.take(rf"    {k} ({TAG}): (.*)")
        records.append((tag(record[1]), lang_sys(record[2])))
    return tag(head[1]), default, records


def feature(lines, text):
    """A feature's lookups and parameters, from what follows its name and the line below."""
    if text in ("absent", "unreadable"):
        return text
    found = re.fullmatch(r"(no parameters; )?(?:no lookups|lookups (\d+(?:, \d+)*))", text)
    if found is None:
        raise ValueError(f"{text!r} is no feature")
    lookups = [int(n) for n in found[2].split(", ")] if found[2] else []
    params = None if found[1] else parameters(lines.take("        parameters: (.*)")[1])
    return lookups, params


def parameters(text):
    if text == "unreadable":
        return text
    kind, *fields = text.split(", ")
    codes = [f for f in fields if re.fullmatch(r"U\+[0-9A-F]{4,6}", f)]
    pairs = [f.rsplit(" ", 1) for f in fields[: len(fields) - len(codes)]]
    return kind, {name: int(number) for name, number in pairs}, [int(c[2:], 16) for c in codes]


def features(lines):
    count = counted(lines.take("Feature list: (.*)")[1], "feature")
    if isinstance(count, str):
        return count
    found = []
    for at in range(count):
        head = lines.take(rf"  {at} ({TAG}): (.*)")
        found.append((tag(head[1]), feature(lines, head[2])))
    return found


def variations(lines):
    head = lines.take(r"Variation list: (absent|unreadable|version (\d+\.\d+), (.*))")
    if head[2] is None:
        return head[1]
    count = counted(head[3], "record")
    found = []
    for at in range(count):
        lines.take(f"  {at}")
        found.append((conditions(lines), substitution(lines)))
    return head[2], found


def conditions(lines):
    count = counted(lines.take("    condition set: (.*)")[1], "condition")
    if isinstance(count, str):
        return count
    number = r"-?\d\.\d{4}"
    found = []
    for k in range(count):
        line = lines.take(rf"      {k}: (?:(absent|unreadable|other format)|axis (\d+) from ({number}) to ({number}))")
        found.append(line[1] or (int(line[2]), line[3], line[4]))
    return found


def substitution(lines):
    head = lines.take(r"    substitution: (absent|unreadable|version (\d+\.\d+), (.*))")
    if head[2] is None:
        return head[1]
    found = []
    for _ in range(counted(head[3], "record")):
        line = lines.take(rf"      ({NAMED}) -> (.*)")
        found.append((named(line[1]), feature(lines, line[2])))
    return head[2], found


def parsed(text, kind, size, holder, path):
    lines = Lines(text)
    lines.take(re.escape(f"{kind} table, {size} bytes, of the {holder} '{path}'"))
    lines.take("")
    found = {"scripts": scripts(lines), "features": features(lines), "variations": variations(lines)}
    if lines.at != len(lines.lines):
        raise ValueError(f"line {lines.at + 1}: {lines.lines[lines.at]!r} is left over")
    return found


# The same out of fontTools.


def told_named(table, index):
    records = table.FeatureList.FeatureRecord if table.FeatureList else []
    return index, records[index].FeatureTag if index < len(records) else None


def told_lang_sys(table, found):
    if found is None:
        return "absent"
    required = None if found.ReqFeatureIndex == NONE_REQUIRED else told_named(table, found.ReqFeatureIndex)
    return required, [told_named(table, index) for index in found.FeatureIndex]


def told_params(params):
    if params is None:
        return None
    name = type(params).__name__
    if name == "FeatureParamsSize":
        return "size in decipoints", {
            "design size": round(params.DesignSize * 10),
            "subfamily": params.SubfamilyID,
            "name": params.SubfamilyNameID,
            "range start": round(params.RangeStart * 10),
            "range end": round(params.RangeEnd * 10),
        }, []
    if name == "FeatureParamsStylisticSet":
        return "stylistic set", {"version": params.Version, "name": params.UINameID}, []
    return "character variant", {
        "format": params.Format,
        "label": params.FeatUILabelNameID,
        "tooltip": params.FeatUITooltipTextNameID,
        "sample": params.SampleTextNameID,
        "parameters": params.NumNamedParameters,
        "first parameter": params.FirstParamUILabelNameID,
        "characters": len(params.Character),
    }, list(params.Character)


def told_feature(found):
    if found is None:
        return "absent"
    return list(found.LookupListIndex), told_params(found.FeatureParams)


def told_scripts(table):
    if table.ScriptList is None:
        return "absent"
    return [
        (
            record.ScriptTag,
            told_lang_sys(table, record.Script.DefaultLangSys),
            [(one.LangSysTag, told_lang_sys(table, one.LangSys)) for one in record.Script.LangSysRecord],
        )
        for record in table.ScriptList.ScriptRecord
    ]


def told_features(table):
    if table.FeatureList is None:
        return "absent"
    return [(record.FeatureTag, told_feature(record.Feature)) for record in table.FeatureList.FeatureRecord]


def told_fixed(value):
    """An F2DOT14 number, with four places, rounded."""
    bits = round(value * 16384)
    parts = (abs(bits) * 10000 + 8192) // 16384
    return f"{'-' if bits < 0 else ''}{parts // 10000}.{parts % 10000:04}"


def told_version(version):
    return f"{version >> 16}.{version & 0xFFFF}"


def told_condition(found):
    if found is None:
        return "absent"
    if found.Format != 1:
        return "other format"
    return found.AxisIndex, told_fixed(found.FilterRangeMinValue), told_fixed(found.FilterRangeMaxValue)


def told_variations(table):
    found = getattr(table, "FeatureVariations", None)
    if found is None:
        return "absent"
    records = []
    for record in found.FeatureVariationRecord:
        conditions = "absent"
        if record.ConditionSet is not None:
            conditions = [told_condition(one) for one in record.ConditionSet.ConditionTable]
        substituted = "absent"
        change = record.FeatureTableSubstitution
        if change is not None:
            each = [(told_named(table, s.FeatureIndex), told_feature(s.Feature)) for s in change.SubstitutionRecord]
            substituted = told_version(change.Version), each
        records.append((conditions, substituted))
    return told_version(found.Version), records


def told(table):
    return {"scripts": told_scripts(table), "features": told_features(table), "variations": told_variations(table)}


# Fonts that are made here.

FEATURES = """
languagesystem DFLT dflt;
languagesystem latn dflt;
languagesystem latn ROM;
lookup one { sub a by b; } one;
feature liga { sub a b by c; } liga;
feature locl { script latn; language ROM required; sub b by c; } locl;
feature ss01 { featureNames { name "round"; }; sub a by c; } ss01;
feature cv01 {
    cvParameters {
        FeatUILabelNameID { name "label"; };
        FeatUITooltipTextNameID { name "tooltip"; };
        SampleTextNameID { name "sample"; };
        ParamUILabelNameID { name "first"; };
        ParamUILabelNameID { name "second"; };
        Character 0x61;
        Character 0x1F600;
        Character 0x10FFFF;
    };
    sub b by a;
} cv01;
feature size { parameters 10.0 1 80 139; sizemenuname "small"; } size;
feature kern { pos a b -20; } kern;
"""


def made(folder, outlines):
    """A variable font with parameters of each kind and two variation records."""
    names = [".notdef", "a", "b", "c"]
    builder = FontBuilder(1000, isTTF=outlines == "ttf")
    builder.setupGlyphOrder(names)
    builder.setupCharacterMap({ord(name): name for name in names[1:]})
    if outlines == "ttf":
        builder.setupGlyf({name: empty_glyph() for name in names})
    else:
        builder.setupCFF("Made", {}, {name: empty_charstring() for name in names}, {})
    builder.setupHorizontalMetrics({name: (500, 0) for name in names})
    builder.setupHorizontalHeader()
    builder.setupNameTable({"familyName": "Made", "styleName": "Regular"})
    builder.setupOS2()
    builder.setupPost()
    axes = [("wght", 100, 400, 900, "Weight"), ("wdth", 50, 100, 200, "Width")]
    builder.setupFvar(axes, [])
    builder.addOpenTypeFeatures(FEATURES)
    changes = [([{"wght": (0.25, 1.0)}], {"a": "b"}), ([{"wght": (-1.0, -1 / 3), "wdth": (0.1, 0.9)}], {"b": "c"})]
    addFeatureVariations(builder.font, changes)
    path = os.path.join(folder, f"made.{outlines}")
    builder.save(path)
    return path


def empty_glyph():
    from fontTools.pens.ttGlyphPen import TTGlyphPen

    return TTGlyphPen(None).glyph()


def empty_charstring():
    from fontTools.pens.t2CharStringPen import T2CharStringPen

    return T2CharStringPen(500, None).getCharString()


# One table, both ways.


def run(hub, kind, path):
    ended = subprocess.run([hub, "show", kind, path], capture_output=True)
    return ended.returncode, ended.stdout.decode(), ended.stderr.decode()


def refused(ended, words):
    status, out, err = ended
    if status == 1 and out == "" and err.startswith("hub: ") and err.count("\n") == 1 and words in err:
        return []
    return [f"status {status}, standard error {err!r}: expected one line with {words!r}"]


def differences(hub, kind, path, holder, size, expected):
    ended = run(hub, kind, path)
    if size > LARGEST:
        return refused(ended, "refusal 1")
    if ended[0] != 0 or ended[2]:
        return [f"status {ended[0]}, standard error {ended[2]!r}"]
    try:
        found = parsed(ended[1], kind, size, holder, path)
    except ValueError as error:
        return [str(error)]
    return [f"{part}: hub {found[part]!r}, fontTools {expected[part]!r}" for part in expected if found[part] != expected[part]]


def compare(hub, folder, path, kind):
    font = TTFont(path, lazy=True)
    if kind not in font:
        return refused(run(hub, kind, path), f"has no {kind} table")
    data = font.reader[kind]
    expected = told(font[kind].table)
    bare = os.path.join(folder, "bare")
    with open(bare, "wb") as file:
        file.write(data)
    return differences(hub, kind, path, "font file", len(data), expected) + differences(
        hub, kind, bare, "bare table", len(data), expected
    )


def main():
    words = argparse.ArgumentParser(description=__doc__, formatter_class=argparse.RawDescriptionHelpFormatter)
    words.add_argument("--hub", default=os.path.join(os.path.dirname(os.path.abspath(__file__)), "../crates/hub/out/hub"))
    words.add_argument("--made", action="store_true")
    words.add_argument("files", nargs="*")
    words = words.parse_args()
    agreed = failed = 0
    with tempfile.TemporaryDirectory() as folder:
        paths = list(words.files)
        if words.made:
            paths += [made(folder, "ttf"), made(folder, "otf")]
        for path in paths:
            for kind in KINDS:
                wrong = compare(words.hub, folder, path, kind)
                agreed += not wrong
                failed += bool(wrong)
                for one in wrong:
                    print(f"{path} {kind}: {one[:2000]}")
    print(f"{agreed} tables agree, {failed} do not")
    return 1 if failed or not agreed else 0


if __name__ == "__main__":
    sys.exit(main())
