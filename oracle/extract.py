#!/usr/bin/env python3
"""Takes the compared items out of skera 0.6.0's published sources, as they stand, into a build folder.

    extract.py SKERA_SRC BUILD_FOLDER [--other-version]

SKERA_SRC holds skera's src files (layout.rs, lib.rs, gsub.rs, serialize.rs, offset.rs, offset_array.rs, fnv.rs).
BUILD_FOLDER receives fnv.rs, offset.rs, offset_array.rs, serialize.rs, layout.rs, closure.rs and root_items.rs.
Every change that is made to the text is one of the rules below. A rule whose text is not found exactly once ends
the run, and so does an item that is not found exactly once. A file whose SHA-256 is not that of version 0.6.0 ends
it too, unless --other-version is given.
"""

import hashlib
import pathlib
import sys

SHA256 = {
    "fnv.rs": "22af07019328cefdeefa8b7b6f2c2ed56d3ab8508b0cb143aff5a5ee2f16dcf5",
    "gsub.rs": "ac39320a1e30df903d62e49bab265d9d3c5d92c787dd22c6d7d7ad3690690615",
    "layout.rs": "acc494cc2b9877b5aca6ef9b6f648b8f071cbef59c6cb3bb7d57a2758a0a314a",
    "lib.rs": "bb3c9b1a491a6a7ac4b4fcc05d864d5a249a80c10f66c2ada41f77b054188a01",
    "offset.rs": "b52a54229c5b33dafa1852956630c9878cdc838fa187fafe3ea44b2d98d8e1be",
    "offset_array.rs": "fbace8c4a61725f9bd3011f2df09634e1ff766d9a9d01e676b0f590fcc0e279d",
    "serialize.rs": "a3f52de021dcbb4c4e06c4fc68c6099e0257b12120cd7cdb47a815654f06cbd9",
}

# An item is named by its first line, or by the part of it that stands here. It ends at the first line that is a
# closing brace in the first column; an item whose first line ends in a semicolon is that line.
LAYOUT_ITEMS = [
    "const MAX_SCRIPTS: u16",
    "const MAX_LANGSYS: u16",
    "const MAX_FEATURE_INDICES: u16",
    "const MAX_LOOKUP_VISIT_COUNT: u16",
    "const MAX_LANGSYS_FEATURE_COUNT: u16",
    "pub(crate) fn collect_features_with_retained_subs(",
    "fn feature_intersects_lookups(",
    "pub(crate) fn prune_features(",
    "pub(crate) fn find_duplicate_features(",
    "pub(crate) struct PruneLangSysContext<",
    "impl<'a> PruneLangSysContext<'a> {",
    "pub(crate) fn remap_feature_indices(",
    "pub(crate) struct SubsetLayoutContext {",
    "impl SubsetLayoutContext {",
    "impl<'a> SubsetTable<'a> for ScriptList<'_> {",
    "impl<'a> SubsetTable<'a> for ScriptRecord {",
    "impl<'a> SubsetTable<'a> for Script<'_> {",
    "impl<'a> SubsetTable<'a> for LangSysRecord {",
    "impl<'a> SubsetTable<'a> for LangSys<'a> {",
    "impl<'a> SubsetTable<'a> for FeatureList<'_> {",
    "impl<'a> SubsetTable<'a> for FeatureRecord {",
    "impl<'a> SubsetTable<'a> for Feature<'_> {",
    "impl SubsetTable<'_> for FeatureParams<'_> {",
    "impl<'a> SubsetTable<'a> for FeatureVariations<'_> {",
    "fn num_variation_record_to_retain(",
    "impl<'a> SubsetTable<'a> for FeatureVariationRecord {",
    "impl SubsetTable<'_> for ConditionSet<'_> {",
    "impl SubsetTable<'_> for Condition<'_> {",
    "impl SubsetTable<'_> for ConditionFormat1<'_> {",
    "impl<'a> SubsetTable<'a> for FeatureTableSubstitution<'_> {",
    "impl<'a> SubsetTable<'a> for FeatureTableSubstitutionRecord {",
]

LIB_ITEMS = [
    "pub(crate) fn remap_indices<",
    "pub(crate) trait LayoutClosure {",
    "pub(crate) trait SubsetTable<'a> {",
    "trait Serialize<'a> {",
]

GSUB_ITEMS = [
    "impl LayoutClosure for Gsub<'_> {",
]

# Rule "imports of layout.rs": the file's own import lists name parts that are not taken.
LAYOUT_IMPORTS = """\
use std::mem;

use crate::fnv::FnvHashMap;
use crate::{
    offset::SerializeSubset,
    offset_array::SubsetOffsetArray,
    serialize::{OffsetWhence, SerializeErrorFlags, Serializer},
    Plan, SubsetTable,
};
use write_fonts::{
    read::{
        collections::IntSet,
        tables::{
            gsub::Gsub,
            layout::{
                Condition, ConditionFormat1, ConditionSet, Feature, FeatureList, FeatureParams,
                FeatureRecord, FeatureTableSubstitution, FeatureTableSubstitutionRecord,
                FeatureVariationRecord, FeatureVariations, LangSys, LangSysRecord, Script,
                ScriptList, ScriptRecord,
            },
        },
        FontData, MinByteRange, TopLevelTable,
    },
    types::{FixedSize, Offset16, Offset32, Tag},
};
"""

# Rule "imports of gsub.rs": likewise.
CLOSURE_IMPORTS = """\
use crate::fnv::FnvHashMap;
use crate::layout::{
    collect_features_with_retained_subs, find_duplicate_features, prune_features,
    PruneLangSysContext,
};
use crate::LayoutClosure;
use write_fonts::{
    read::{collections::IntSet, tables::gsub::Gsub},
    types::Tag,
};
"""

# Rule "counts module": a module of the oracle's own below layout.rs, which can read the private counts.
COUNTS_MODULE = "pub(crate) mod counts;\n"

# Rule "laying module": a module of the oracle's own below serialize.rs, which can call the private link resolution.
LAYING_MODULE = "\npub(crate) mod laying;\n"

# Rule "saturating sum": the plain sum would pass 65,535 and stop the program (or wrap).
PLAIN_SUM = "        self.langsys_feature_count += feature_count;\n"
SATURATING_SUM = "        self.langsys_feature_count = self.langsys_feature_count.saturating_add(feature_count);\n"

# Rules "limit 1" to "limit 8": the block that is entered when a visit is refused first records which limit it was.
LIMIT_BLOCKS = {
    1: "            if !c.visit_script() {\n",
    2: "                if !c.visit_langsys() {\n",
    4: "        if !c.visit_feature_index(self.feature_index_count()) {\n",
    8: "            if !c.visit_lookup() {\n",
}
LIMIT_RECORD = "crate::reached::limit({});\n"

# Rule "no glyph closure, declared": the closure over glyphs is not compared.
CLOSURE_DECLARATION = "\n    fn closure_glyphs_lookups_features(&self, plan: &mut Plan);\n"

# Rule "no glyph closure, defined": the method runs from its first line to the end of the impl.
CLOSURE_DEFINITION_START = "\n    fn closure_glyphs_lookups_features(&self, plan: &mut Plan) {\n"
CLOSURE_DEFINITION_END = "\n    }\n}\n"


def fail(message):
    sys.exit(f"extract.py: {message}")


def replace_once(rule, text, old, new):
    if text.count(old) != 1:
        fail(f"rule '{rule}': its text is there {text.count(old)} times, not once")
    return text.replace(old, new)


def cut_once(rule, text, start, end, keep):
    """Drops from `start` to `end`, leaving `keep` in their place."""
    if text.count(start) != 1:
        fail(f"rule '{rule}': its first line is there {text.count(start)} times, not once")
    begin = text.index(start)
    stop = text.find(end, begin)
    if stop < 0:
        fail(f"rule '{rule}': no end found")
    return text[:begin] + keep + text[stop + len(end):]


def item(file_name, text, name):
    """The item that `name` begins, with the comments and attributes directly above it, unchanged."""
    lines = text.splitlines(keepends=True)
    starts = [place for place, line in enumerate(lines) if line.startswith(name)]
    if len(starts) != 1:
        fail(f"{file_name}: '{name}' begins {len(starts)} items, not one")
    start = end = starts[0]
    if not lines[start].rstrip().endswith(";"):
        while lines[end].rstrip("\n") != "}":
            end += 1
            if end == len(lines):
                fail(f"{file_name}: '{name}' has no end")
    while start > 0 and lines[start - 1].startswith(("//", "#[")):
        start -= 1
    return "".join(lines[start:end + 1])


def items(file_name, text, names):
    return "\n".join(item(file_name, text, name) for name in names)


def main():
    arguments = [argument for argument in sys.argv[1:] if argument != "--other-version"]
    if len(arguments) != 2:
        sys.exit(__doc__)
    source, build = map(pathlib.Path, arguments)
    texts = {}
    for name, expected in SHA256.items():
        path = source / name
        if not path.is_file():
            fail(f"{path} is not there")
        content = path.read_bytes()
        if hashlib.sha256(content).hexdigest() != expected and "--other-version" not in sys.argv:
            fail(f"{path} is not that of skera 0.6.0")
        texts[name] = content.decode("utf-8")

    root = items("lib.rs", texts["lib.rs"], LIB_ITEMS)
    root = replace_once("no glyph closure, declared", root, CLOSURE_DECLARATION, "")

    closure = items("gsub.rs", texts["gsub.rs"], GSUB_ITEMS)
    closure = cut_once("no glyph closure, defined", closure, CLOSURE_DEFINITION_START, CLOSURE_DEFINITION_END, "}\n")

    layout = items("layout.rs", texts["layout.rs"], LAYOUT_ITEMS)
    layout = replace_once("saturating sum", layout, PLAIN_SUM, SATURATING_SUM)
    for limit, block in LIMIT_BLOCKS.items():
        layout = replace_once(f"limit {limit}", layout, block, block + LIMIT_RECORD.format(limit))

    build.mkdir(parents=True, exist_ok=True)
    written = {
        "fnv.rs": texts["fnv.rs"],
        "offset.rs": texts["offset.rs"],
        "offset_array.rs": texts["offset_array.rs"],
        "serialize.rs": texts["serialize.rs"] + LAYING_MODULE,
        "layout.rs": LAYOUT_IMPORTS + COUNTS_MODULE + "\n" + layout,
        "closure.rs": CLOSURE_IMPORTS + "\n" + closure,
        "root_items.rs": root,
    }
    for name, text in written.items():
        (build / name).write_text(text, encoding="utf-8")
    print(f"extract.py: {len(LAYOUT_ITEMS) + len(LIB_ITEMS) + len(GSUB_ITEMS)} items and 4 whole files in {build}")


if __name__ == "__main__":
    main()
