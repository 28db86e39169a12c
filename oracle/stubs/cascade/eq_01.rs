impl PartialEq for TypeDecl {
    fn eq(&self, other: &Self) -> bool {
        self.name == other.name
            && self.inherits == other.inherits
            && self.is_virtual == other.is_virtual
            && self.is_trait == other.is_trait
            && self.is_extension == other.is_extension
            && self.annotations == other.annotations
    }
}
