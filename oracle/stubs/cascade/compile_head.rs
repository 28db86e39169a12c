//! The functions of `compile.rs` that the schedule needs, text unchanged; only
//! this head is not the original's.

use std::collections::hash_map::Entry;
use std::collections::{BTreeMap, BTreeSet, HashMap, HashSet};
use std::ops::Range;

use crate::annotations::{AnnotationInfo, Associated};
use crate::ast::{
    Annotation, Annotations, Argument, CascadeString, Declaration, Expression, TypeDecl,
};
use crate::constants;
use crate::error::{CascadeErrors, CompileError, ErrorItem, InternalError};
use crate::internal_rep::{TypeInfo, TypeMap};

/// Makes the one private function that the oracle calls reachable.
pub fn order(types: &TypeMap) -> Result<Vec<&TypeInfo>, CascadeErrors> {
    organize_type_map(types)
}
