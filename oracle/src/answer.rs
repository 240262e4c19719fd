//! The five answer lines of a case.

use crate::case::{Case, Kind};
use crate::fnv::FnvHashMap;
use crate::layout::{counts::counts, remap_feature_indices, SubsetLayoutContext};
use crate::reached::take_limits;
use crate::serialize::{laying::lay, SerializeErrorFlags, Serializer};
use crate::{remap_indices, LayoutClosure, Plan, SubsetTable};
use std::fmt::Write;
use write_fonts::read::collections::IntSet;
use write_fonts::read::tables::{gpos::Gpos, gsub::Gsub};
use write_fonts::read::{FontData, ReadError, TopLevelTable};

pub type Answer = [String; 5];

const LARGEST_TABLE: usize = 65_535;

pub fn answer(case: &Case) -> Answer {
    if case.table.len() > LARGEST_TABLE {
        return without_lists("open refused 1");
    }
    let Ok(table) = Gsub::read(FontData::new(&case.table)) else {
        return without_lists("open refused 2");
    };
    let numbering = Numbering::of(&table, case);
    let number = numbering.line();
    let plan = numbering.into_plan(case);
    let mut context = SubsetLayoutContext::new(match case.kind {
        Kind::Gsub => Gsub::TAG,
        Kind::Gpos => Gpos::TAG,
    });

    let script_list = match table.script_list() {
        Ok(list) => written(case, |s| list.subset(&plan, s, &mut context)),
        Err(fault) => unread(fault),
    };
    let feature_list = match table.feature_list() {
        Ok(list) => written(case, |s| list.subset(&plan, s, &mut context)),
        Err(fault) => unread(fault),
    };
    let variation_list = match table.feature_variations() {
        Some(Ok(list)) => written(case, |s| list.subset(&plan, s, &mut context)),
        Some(Err(fault)) => unread(fault),
        None => "empty".to_string(),
    };

    let [scripts, systems, indices, lookups] = counts(&context);
    let limits = take_limits();
    [
        number,
        format!("list 1 {script_list}"),
        format!("list 2 {feature_list}"),
        format!("list 3 {variation_list}"),
        format!(
            "counts scripts {scripts} systems {systems} indices {indices} lookups {lookups} limits {limits}"
        ),
    ]
}

/// The answer where there is nothing to number or to write.
pub fn without_lists(first: &str) -> Answer {
    [
        first,
        "list 1 none",
        "list 2 none",
        "list 3 none",
        "counts none",
    ]
    .map(str::to_string)
}

struct Numbering {
    retained: IntSet<u16>,
    own: FnvHashMap<u16, u16>,
    own_and_shared: FnvHashMap<u16, u16>,
    lookups: FnvHashMap<u16, u16>,
    pairs: FnvHashMap<u16, IntSet<u16>>,
}

impl Numbering {
    fn of(table: &Gsub, case: &Case) -> Numbering {
        let kept_lookups: IntSet<u16> = case.lookups.iter().copied().collect();
        let kept_features: IntSet<u16> = case.features.iter().copied().collect();
        let kept_scripts = case.scripts.iter().copied().collect();

        let survivors = table.prune_features(&kept_lookups, kept_features);
        let matches = table.find_duplicate_features(&kept_lookups, survivors);
        let (pairs, retained) = table.prune_langsys(&matches, &kept_scripts);
        let (own, own_and_shared) = remap_feature_indices(&retained, &matches);
        Numbering {
            retained,
            own,
            own_and_shared,
            lookups: remap_indices(kept_lookups),
            pairs,
        }
    }

    fn line(&self) -> String {
        let rows = self
            .retained
            .iter()
            .map(|old| format!("{old}:{}", self.own_and_shared[&old]));
        let mut scripts: Vec<_> = self.pairs.keys().collect();
        scripts.sort();
        let pairs = scripts.into_iter().flat_map(|script| {
            self.pairs[script]
                .iter()
                .map(move |system| format!("{script}:{system}"))
        });
        format!(
            "number ok {} {} rows {} pairs {}",
            self.retained.len(),
            self.own.len(),
            joined(rows, " "),
            joined(pairs, " ")
        )
    }

    fn into_plan(self, case: &Case) -> Plan {
        let layout_scripts = case.scripts.iter().copied().collect();
        match case.kind {
            Kind::Gsub => Plan {
                layout_scripts,
                gsub_features: self.own,
                gsub_features_w_duplicates: self.own_and_shared,
                gsub_lookups: self.lookups,
                gsub_script_langsys: self.pairs,
                ..Plan::default()
            },
            Kind::Gpos => Plan {
                layout_scripts,
                gpos_features: self.own,
                gpos_features_w_duplicates: self.own_and_shared,
                gpos_lookups: self.lookups,
                gpos_script_langsys: self.pairs,
                ..Plan::default()
            },
        }
    }
}

/// One list, written as the root object of a serializer of its own.
fn written(
    case: &Case,
    write_list: impl FnOnce(&mut Serializer) -> Result<(), SerializeErrorFlags>,
) -> String {
    let mut serializer = Serializer::new(case.work);
    let packed = serializer
        .push()
        .and_then(|()| write_list(&mut serializer))
        .and_then(|()| serializer.pop_pack(true).ok_or(serializer.error()));
    match packed {
        Ok(_) => {
            let objects = objects(&serializer);
            let laid = lay(serializer).map_or_else(flag_names, |bytes| hex(&bytes));
            format!("ok {objects} laid {laid}")
        }
        Err(SerializeErrorFlags::SERIALIZE_ERROR_EMPTY) => "empty".to_string(),
        Err(flags) => format!("error {}", flag_names(flags)),
    }
}

fn unread(fault: ReadError) -> String {
    match fault {
        ReadError::NullOffset => "error absent".to_string(),
        _ => format!(
            "error {}",
            flag_names(SerializeErrorFlags::SERIALIZE_ERROR_READ_ERROR)
        ),
    }
}

/// The packed objects in order: bytes, then links as width, position and target.
fn objects(serializer: &Serializer) -> String {
    let data = serializer.data();
    let mut text = serializer.packed_idxs().len().to_string();
    for place in serializer.packed_idxs() {
        let object = serializer
            .get_obj(*place)
            .expect("a packed object is there");
        let links = object.real_links().into_iter().map(|(position, link)| {
            format!("{}@{position}>{}", link.link_width() as u8, link.obj_idx())
        });
        let bytes = hex(&data[object.head()..object.tail()]);
        write!(text, " {bytes}/{}", joined(links, ",")).expect("a string takes all text");
    }
    text
}

fn flag_names(flags: SerializeErrorFlags) -> String {
    let contains = |flag: SerializeErrorFlags| {
        let mut joined = flags;
        joined |= flag;
        joined == flags
    };
    let names = [
        (SerializeErrorFlags::SERIALIZE_ERROR_OTHER, "other"),
        (
            SerializeErrorFlags::SERIALIZE_ERROR_OFFSET_OVERFLOW,
            "offset-overflow",
        ),
        (
            SerializeErrorFlags::SERIALIZE_ERROR_OUT_OF_ROOM,
            "out-of-room",
        ),
        (
            SerializeErrorFlags::SERIALIZE_ERROR_INT_OVERFLOW,
            "int-overflow",
        ),
        (
            SerializeErrorFlags::SERIALIZE_ERROR_ARRAY_OVERFLOW,
            "array-overflow",
        ),
        (
            SerializeErrorFlags::SERIALIZE_ERROR_READ_ERROR,
            "read-error",
        ),
        (SerializeErrorFlags::SERIALIZE_ERROR_EMPTY, "empty"),
    ];
    let met = names.into_iter().filter(|(flag, _)| contains(*flag));
    joined(met.map(|(_, name)| name.to_string()), "+")
}

/// The words with `separator` between them, or `-` if there are none.
fn joined(words: impl Iterator<Item = String>, separator: &str) -> String {
    let words: Vec<String> = words.collect();
    if words.is_empty() {
        return "-".to_string();
    }
    words.join(separator)
}

fn hex(bytes: &[u8]) -> String {
    bytes.iter().fold(String::new(), |mut text, byte| {
        write!(text, "{byte:02x}").expect("a string takes all text");
        text
    })
}
