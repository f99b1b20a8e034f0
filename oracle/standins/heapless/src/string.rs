//! Stands in for heapless's `String`. The functions compared hold one only in `JourneyStop::stop`, which none reads.
use crate::Vec;
use core::ops::Deref;

#[derive(Clone, Default, PartialEq, Eq)]
pub struct String<const N: usize> {
    bytes: Vec<u8, N>,
}
impl<const N: usize> String<N> {
    pub const fn new() -> Self {
        Self { bytes: Vec::new() }
    }
    pub fn push_str(&mut self, text: &str) -> Result<(), ()> {
        self.bytes.extend_from_slice(text.as_bytes())
    }
    pub fn push(&mut self, c: char) -> Result<(), ()> {
        self.push_str(c.encode_utf8(&mut [0; 4]))
    }
    pub fn pop(&mut self) -> Option<char> {
        let c = self.chars().next_back()?;
        self.bytes.truncate(self.bytes.len() - c.len_utf8());
        Some(c)
    }
}
impl<const N: usize> Deref for String<N> {
    type Target = str;
    fn deref(&self) -> &str {
        core::str::from_utf8(&self.bytes).expect("pushed as text")
    }
}
impl<const N: usize> core::fmt::Debug for String<N> {
    fn fmt(&self, f: &mut core::fmt::Formatter<'_>) -> core::fmt::Result {
        (**self).fmt(f)
    }
}
impl<const N: usize> PartialEq<String<N>> for &str {
    fn eq(&self, other: &String<N>) -> bool {
        **self == **other
    }
}
