//! The counts that the list writers keep, read where they are private.

use super::SubsetLayoutContext;

/// Scripts, language-system records, feature indices (the sum) and lookups counted so far.
pub(crate) fn counts(context: &SubsetLayoutContext) -> [u16; 4] {
    [
        context.script_count,
        context.langsys_count,
        context.feature_index_count,
        context.lookup_count,
    ]
}
