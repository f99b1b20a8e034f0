/// Identity predicate with an optional conservative block prefilter.
pub trait Filter {
    fn matches(&mut self, key: &[u8]) -> bool;
    /// False must imply that no selected identity can occur in this raw block.
    fn may_match(&mut self, _block: &[u8]) -> bool {
        true
    }
}
impl<F: FnMut(&[u8]) -> bool> Filter for F {
    fn matches(&mut self, key: &[u8]) -> bool {
        self(key)
    }
}
