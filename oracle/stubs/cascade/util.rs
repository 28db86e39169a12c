//! Stands in for `util.rs`.

use std::collections::{BTreeMap, BTreeSet};

/// Only joining two maps calls it, and the oracle joins none.
pub fn append_set_map<K, V>(_: &mut BTreeMap<K, BTreeSet<V>>, _: &mut BTreeMap<K, BTreeSet<V>>) {
    unimplemented!("stub")
}
