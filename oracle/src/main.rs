//! Reads cases from standard input, one a line, and answers each with five lines: the numbering that skera 0.6.0
//! makes, what it writes for the script, the feature and the variation list, and its counts. With the argument
//! `--branches` a sixth line gives the numbers of the marked branches that the case reached.
//!
//! The modules `fnv`, `offset`, `offset_array`, `serialize`, `layout` and `closure`, and the items included below,
//! are skera's own text, put beside this file by `extract.py`.

mod answer;
mod case;
mod closure;
#[allow(dead_code)]
mod fnv;
mod layout;
#[allow(dead_code)]
mod offset;
#[allow(dead_code)]
mod offset_array;
mod reached;
#[allow(dead_code)]
mod serialize;

use fnv::FnvHashMap;
use serialize::{SerializeErrorFlags, Serializer};
use std::io::{self, BufRead, Write};
use std::panic;
use write_fonts::read::collections::{Domain, IntSet};
use write_fonts::types::Tag;

include!("root_items.rs");

/// What the list writers need to know of a numbering: skera's fields of these names.
#[derive(Default)]
pub struct Plan {
    layout_scripts: IntSet<Tag>,
    gsub_features: FnvHashMap<u16, u16>,
    gpos_features: FnvHashMap<u16, u16>,
    gsub_features_w_duplicates: FnvHashMap<u16, u16>,
    gpos_features_w_duplicates: FnvHashMap<u16, u16>,
    gsub_lookups: FnvHashMap<u16, u16>,
    gpos_lookups: FnvHashMap<u16, u16>,
    gsub_script_langsys: FnvHashMap<u16, IntSet<u16>>,
    gpos_script_langsys: FnvHashMap<u16, IntSet<u16>>,
}

fn main() -> io::Result<()> {
    let with_branches = std::env::args().any(|argument| argument == "--branches");
    panic::set_hook(Box::new(|_| ()));
    let mut out = io::BufWriter::new(io::stdout().lock());
    for (place, line) in io::stdin().lock().lines().enumerate() {
        let line = line?;
        let answered = match case::Case::parse(&line) {
            Some(case) => panic::catch_unwind(|| answer::answer(&case))
                .unwrap_or_else(|_| answer::without_lists("panic")),
            None => answer::without_lists(&format!("? line {}", place + 1)),
        };
        for line in answered {
            writeln!(out, "{line}")?;
        }
        let branches: Vec<String> = reached::take_branches()
            .iter()
            .map(u16::to_string)
            .collect();
        if with_branches {
            writeln!(out, "branches {}", branches.join(","))?;
        }
    }
    out.flush()
}
