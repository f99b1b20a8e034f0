pub const MAX_HEADSIGNS: usize = 32;

#[derive(Default)]
pub struct Headings {
    bytes: Vec<u8, 1024>,
    spans: Vec<(u16, u8), MAX_HEADSIGNS>,
}
impl Headings {
    pub const fn new() -> Self {
        Self {
            bytes: Vec::new(),
            spans: Vec::new(),
        }
    }
    pub(crate) fn checkpoint(&self) -> (usize, usize) {
        (self.bytes.len(), self.spans.len())
    }
    pub(crate) fn restore(&mut self, (bytes, spans): (usize, usize)) {
        self.bytes.truncate(bytes);
        self.spans.truncate(spans);
    }
    pub fn clear(&mut self) {
        self.bytes.clear();
        self.spans.clear();
    }
    pub fn get(&self, index: u8) -> Option<&str> {
        let &(offset, len) = self.spans.get(index as usize)?;
        core::str::from_utf8(&self.bytes[offset as usize..offset as usize + len as usize]).ok()
    }
    pub fn insert(&mut self, name: &str) -> Result<u8, gtfs::Error> {
        let mut end = name.len().min(64);
        while !name.is_char_boundary(end) {
            end -= 1;
        }
        let name = &name[..end];
        if let Some(index) = (0..self.spans.len()).position(|i| self.get(i as u8) == Some(name)) {
            return Ok(index as u8);
        }
        if self.spans.is_full() || self.bytes.len() + name.len() > self.bytes.capacity() {
            return Err(gtfs::Error::IndexFull);
        }
        let offset = self.bytes.len() as u16;
        self.bytes
            .extend_from_slice(name.as_bytes())
            .map_err(|_| gtfs::Error::IndexFull)?;
        self.spans
            .push((offset, name.len() as u8))
            .map_err(|_| gtfs::Error::IndexFull)?;
        Ok((self.spans.len() - 1) as u8)
    }
}
