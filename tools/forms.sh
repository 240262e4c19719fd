#!/bin/sh
# Lists the places of older forms in the crates' sources at a commit (HEAD if none is given), by point:
#   tools/forms.sh [COMMIT] [POINT]      the lines; with the word 'count' for POINT, how many there are of each
# The patterns find candidates; docs/DESIGN-PASS.md says which of them are places.
commit=${1:-HEAD}
src='crates/*/src/*.rt'
find() { git grep -nE "$1" "$commit" -- "$src" | grep -v '/tests\.rt:'; }
point() {
  case $1 in
    1a) find '^ *(pub(\(crate\))? )?enum ' ;;
    1b) find '65535[;,)]|0x[fF]{4}[^_0-9a-fA-F]' ;;
    1c) find 'Option<u8>|=> [0-9]+,' ;;
    1d) find '(Ok|Some)\(([a-z]+)\) => (Ok|Some)\(\2\)|Err\([a-z]+\) => (return )?Err\(|None => None,|(Ok|Some)\(_\) => (true|false),' ;;
    1e) find '[a-z_]+: bool,|\[bool; ' ;;
    2a) find 'fn (read_kind|kind_name|is_printable|printable|number|u16_at|u32_at|read_u16|read_u32|same_bytes|same_links|is_ascending|are_ascending_tags|keep_lookups|keep_features|keep_scripts|read_tags|read_indices|find_duplicate_features|find_duplicates_in_buckets|script_list|feature_list|lang_sys_head|variations_head|substitution_head|count_of|place_of|place_in|range_count|range_at)[(<]' ;;
    2b) find 'struct (Indices|Pairs)\b|struct Filled' ;;
    3a) find '^ *(while |loop )' ;;
    3b) find 'for [a-z_]+ in [a-z0-9_(]+\.\.' ;;
    4a) find 'impl(<[^>]*>)? (PartialEq|Eq|PartialOrd|Ord|Clone|Copy|Default) for' ;;
    4b) find 'format!\(in heap; [^)]*\)\?\.as_str\(\)|TagText\(' ;;
    4c) find 'fn (kind_name|kind_tag|read_kind|read_tag|order|feature_name)\b' ;;
    5a) find '(requires|ensures).*(Ascends|Paired|Ascending TagBefore) [a-z]+\.now( [a-z]+\.now)? }' ;;
    5b) find 'Sound [a-z.]+ [a-z.]+ [a-z.]+ →' ;;
    5c) find 'requires.*(Small|Inside|InsideVariations) ' ;;
    5d) find '^ *heap: Global,$' ;;
    6a) find '^ *(pub(\(crate\))? )?[a-z_]+: \[[A-Za-z0-9]+; ?[A-Z0-9]+\],' ;;
    6b) find 'len: usize|count: usize,' ;;
    6c) find '\.get\([a-z]+\)|\[[a-z]+\]$|if [a-z]+ < [a-z.]+\.len\(\)' ;;
    7) find 'enum (Task|Verb)|Task::|Verb::|dyn |: fn\(' ;;
  esac
}
all='1a 1b 1c 1d 1e 2a 2b 3a 3b 4a 4b 4c 5a 5b 5c 5d 6a 6b 6c 7'
if [ "$2" = count ]; then
  for p in $all; do printf '%s %s\n' "$p" "$(point $p | wc -l)"; done
elif [ -n "$2" ]; then point "$2"; else for p in $all; do echo "== $p"; point $p; done; fi
