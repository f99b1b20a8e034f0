//! Load files of version 1 (document 02, request 01): records read one by one.

pub enum Record<'a> {
    Settings {
        origin_walks: &'a [u8],
        target_walks: &'a [u8],
        transfer_minutes: u8,
        max_transfers: u8,
        now: i64,
        epochs: [i64; 3],
    },
    Stop {
        id: &'a [u8],
        name: Option<&'a [u8]>,
        parent: Option<&'a [u8]>,
        location_type: u8,
        position: Option<(f64, f64)>,
        members: u8,
    },
    Call {
        trip: u16,
        day: u8,
        sequence: u32,
        stop: u16,
        arrival: Option<u32>,
        departure: Option<u32>,
        pickup_type: u8,
        drop_off_type: u8,
    },
    Rule {
        from: u16,
        to: u16,
        transfer_type: u8,
        seconds: Option<u16>,
    },
    Search,
}

struct Fields<'a>(&'a [u8]);
impl<'a> Fields<'a> {
    fn bytes(&mut self, n: usize) -> Option<&'a [u8]> {
        let (head, rest) = self.0.split_at_checked(n)?;
        self.0 = rest;
        Some(head)
    }
    fn u8(&mut self) -> Option<u8> {
        Some(self.bytes(1)?[0])
    }
    fn u16(&mut self) -> Option<u16> {
        Some(u16::from_be_bytes(self.bytes(2)?.try_into().ok()?))
    }
    fn u32(&mut self) -> Option<u32> {
        Some(u32::from_be_bytes(self.bytes(4)?.try_into().ok()?))
    }
    fn u64(&mut self) -> Option<u64> {
        Some(u64::from_be_bytes(self.bytes(8)?.try_into().ok()?))
    }
    fn text(&mut self) -> Option<&'a [u8]> {
        let n = self.u8()?;
        self.bytes(usize::from(n))
    }
    fn optional<T>(&mut self, field: impl FnOnce(&mut Self) -> Option<T>) -> Option<Option<T>> {
        match self.u8()? {
            0 => Some(None),
            1 => Some(Some(field(self)?)),
            _ => None,
        }
    }
    fn settings(&mut self) -> Option<Record<'a>> {
        let (origins, targets) = (self.u8()?, self.u8()?);
        let origin_walks = self.bytes(usize::from(origins))?;
        let target_walks = self.bytes(usize::from(targets))?;
        let (transfer_minutes, max_transfers) = (self.u8()?, self.u8()?);
        let now = self.u64()? as i64;
        let epochs = [self.u64()? as i64, self.u64()? as i64, self.u64()? as i64];
        Some(Record::Settings { origin_walks, target_walks, transfer_minutes, max_transfers, now, epochs })
    }
    fn stop(&mut self) -> Option<Record<'a>> {
        let id = self.text()?;
        let name = self.optional(Self::text)?;
        let parent = self.optional(Self::text)?;
        let location_type = self.u8()?;
        let position = self.optional(|f| Some((f64::from_bits(f.u64()?), f64::from_bits(f.u64()?))))?;
        Some(Record::Stop { id, name, parent, location_type, position, members: self.u8()? })
    }
    fn call(&mut self) -> Option<Record<'a>> {
        let (trip, day, sequence, stop) = (self.u16()?, self.u8()?, self.u32()?, self.u16()?);
        let (arrival, departure) = (self.optional(Self::u32)?, self.optional(Self::u32)?);
        let (pickup_type, drop_off_type) = (self.u8()?, self.u8()?);
        Some(Record::Call { trip, day, sequence, stop, arrival, departure, pickup_type, drop_off_type })
    }
    fn rule(&mut self) -> Option<Record<'a>> {
        let (from, to, transfer_type) = (self.u16()?, self.u16()?, self.u8()?);
        Some(Record::Rule { from, to, transfer_type, seconds: self.optional(Self::u16)? })
    }
    fn record(mut self, kind: u8) -> Option<Record<'a>> {
        let record = match kind {
            1 => self.settings()?,
            2 => self.stop()?,
            3 => self.call()?,
            4 => self.rule()?,
            _ => Record::Search,
        };
        self.0.is_empty().then_some(record)
    }
}

/// Hands each record to `take` before the next is looked at. `malformed` makes 17, 18 or 19 an error of `take`'s kind.
pub fn read<'a, E>(
    bytes: &'a [u8],
    malformed: impl Fn(u8) -> E,
    mut take: impl FnMut(Record<'a>) -> Result<(), E>,
) -> Result<(), E> {
    if bytes.first() != Some(&1) {
        return Err(malformed(17));
    }
    let mut rest = Fields(&bytes[1..]);
    let mut first = true;
    while !rest.0.is_empty() {
        let body = rest.u16().filter(|&n| n != 0).and_then(|n| rest.bytes(usize::from(n)));
        let body = body.ok_or_else(|| malformed(18))?;
        let kind = body[0];
        if !(1..=5).contains(&kind) || first != (kind == 1) {
            return Err(malformed(19));
        }
        first = false;
        take(Fields(&body[1..]).record(kind).ok_or_else(|| malformed(18))?)?;
    }
    if first { Err(malformed(19)) } else { Ok(()) }
}
