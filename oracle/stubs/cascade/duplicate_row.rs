fn make_duplicate_associate_error(
    _types: &TypeMap,
    child_domain: &TypeInfo,
    res_name: &CascadeString,
) -> Option<CompileError> {
    Some(CompileError::new(
        "duplicate",
        child_domain.declaration_file.as_ref()?,
        child_domain.name.get_range()?,
        res_name.as_ref(),
    ))
}
