#[derive(Clone, Copy, Debug, PartialEq, Eq, PartialOrd, Ord)]
pub struct Id<const N: usize = 32> {
    bytes: [u8; N],
    len: usize,
}

impl<const N: usize> Id<N> {
    pub const EMPTY: Self = Self {
        bytes: [0; N],
        len: 0,
    };
    pub fn new(value: &str) -> Result<Self, Error> {
        if value.len() > N {
            return Err(Error::IdTooLong);
        }
        let mut id = Self::EMPTY;
        id.bytes[..value.len()].copy_from_slice(value.as_bytes());
        id.len = value.len();
        Ok(id)
    }
    pub fn as_str(&self) -> &str {
        core::str::from_utf8(&self.bytes[..self.len]).expect("copied UTF-8 ID")
    }
}
