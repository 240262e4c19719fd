//! The bytes of the packed objects with their offsets in place, made by the serializer's own link resolution.

use super::{SerializeErrorFlags, Serializer};

pub(crate) fn lay(mut serializer: Serializer) -> Result<Vec<u8>, SerializeErrorFlags> {
    serializer.resolve_links();
    if serializer.in_error() {
        return Err(serializer.error());
    }
    Ok(serializer.copy_bytes())
}
