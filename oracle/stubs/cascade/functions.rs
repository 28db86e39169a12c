//! Stands in for `functions.rs`: what `context.rs` and `internal_rep.rs` name.
//! Nothing of it runs for a schedule; a call would panic.

use crate::alias_map::{AliasMap, Declared};
use crate::ast::{Argument, CascadeString, DeclaredArgument, FuncCall, IpAddr, Port};
use crate::context::Context;
use crate::error::CascadeErrors;
use crate::internal_rep::{ClassList, TypeInfo, TypeInstance, TypeMap};
use crate::warning::WithWarnings;
use codespan_reporting::files::SimpleFile;
use std::collections::BTreeSet;
use std::ops::Range;

#[derive(Clone, Debug)]
pub enum ArgForValidation<'a> {
    Var(&'a CascadeString),
    List(Vec<&'a CascadeString>),
    Quote(&'a CascadeString),
    Port(&'a Port),
    IpAddr(&'a IpAddr),
}

impl<'a> From<&'a Argument> for ArgForValidation<'a> {
    fn from(_: &'a Argument) -> Self {
        unimplemented!("stub")
    }
}

impl ArgForValidation<'_> {
    pub fn get_range(&self) -> Option<Range<usize>> {
        unimplemented!("stub")
    }
}

#[derive(Clone, Debug)]
pub struct FunctionArgument<'a> {
    pub param_type: &'a TypeInfo,
    pub name: String,
    pub is_list_param: bool,
}

impl<'a> FunctionArgument<'a> {
    pub fn new(
        _: &DeclaredArgument,
        _: &'a TypeMap,
        _: &ClassList,
        _: &Context,
        _: Option<&SimpleFile<String, String>>,
    ) -> Result<Self, CascadeErrors> {
        unimplemented!("stub")
    }
}

#[derive(Clone, Debug, PartialEq)]
pub enum FunctionClass<'a> {
    Global,
    Type(&'a TypeInfo),
}

#[derive(Clone, Debug)]
pub struct FunctionInfo<'a> {
    pub name: String,
    pub name_aliases: BTreeSet<String>,
    pub class: FunctionClass<'a>,
}

impl Declared for FunctionInfo<'_> {
    fn get_file(&self) -> Option<SimpleFile<String, String>> {
        unimplemented!("stub")
    }

    fn get_name_range(&self) -> Option<Range<usize>> {
        unimplemented!("stub")
    }

    fn get_generic_name(&self) -> String {
        unimplemented!("stub")
    }

    fn get_secondary_indices(&self) -> Vec<String> {
        unimplemented!("stub")
    }
}

pub type FunctionMap<'a> = AliasMap<FunctionInfo<'a>>;

#[allow(clippy::too_many_arguments)]
pub fn validate_arguments<'a>(
    _: &FuncCall,
    _: &[FunctionArgument],
    _: &'a TypeMap,
    _: &ClassList,
    _: &Context<'a>,
    _: Option<&'a SimpleFile<String, String>>,
    _: Option<&FunctionInfo>,
    _: Option<&TypeInfo>,
) -> Result<WithWarnings<Vec<TypeInstance<'a>>>, CascadeErrors> {
    unimplemented!("stub")
}

pub fn argument_to_typeinfo<'a>(
    _: &ArgForValidation<'_>,
    _: &'a TypeMap,
    _: &ClassList,
    _: Option<&TypeInfo>,
    _: &Context<'a>,
    _: Option<&SimpleFile<String, String>>,
) -> Result<&'a TypeInfo, CascadeErrors> {
    unimplemented!("stub")
}

pub fn argument_to_typeinfo_vec<'a>(
    _: &[&CascadeString],
    _: &'a TypeMap,
    _: &ClassList,
    _: Option<&TypeInfo>,
    _: &Context<'a>,
    _: Option<&SimpleFile<String, String>>,
) -> Result<Vec<&'a TypeInfo>, CascadeErrors> {
    unimplemented!("stub")
}
