//! Writes load files of version 1, also with values that 01 refuses.
#[derive(Clone, Default)]
pub struct Settings {
    pub origin_walks: Vec<u8>,
    pub target_walks: Vec<u8>,
    pub transfer_minutes: u8,
    pub max_transfers: u8,
    pub now: i64,
    pub epochs: [i64; 3],
}
#[derive(Clone, Default)]
pub struct Stop {
    pub id: Vec<u8>,
    pub name: Option<Vec<u8>>,
    pub parent: Option<Vec<u8>>,
    pub location_type: u8,
    pub position: Option<(f64, f64)>,
    pub members: u8,
}
#[derive(Clone, Default)]
pub struct Call {
    pub trip: u16,
    pub day: u8,
    pub sequence: u32,
    pub stop: u16,
    pub arrival: Option<u32>,
    pub departure: Option<u32>,
    pub pickup: u8,
    pub drop_off: u8,
}
#[derive(Clone, Default)]
pub struct Rule {
    pub from: u16,
    pub to: u16,
    pub transfer_type: u8,
    pub seconds: Option<u16>,
}
#[derive(Clone)]
pub enum Step {
    Stop(Stop),
    Call(Call),
    Rule(Rule),
    Search,
}

fn text(out: &mut Vec<u8>, bytes: &[u8]) {
    out.push(bytes.len() as u8);
    out.extend(bytes);
}
fn optional(out: &mut Vec<u8>, field: Option<Vec<u8>>) {
    out.push(u8::from(field.is_some()));
    out.extend(field.unwrap_or_default());
}
fn optional_text(out: &mut Vec<u8>, field: &Option<Vec<u8>>) {
    optional(
        out,
        field.as_ref().map(|bytes| {
            let mut field = Vec::new();
            text(&mut field, bytes);
            field
        }),
    );
}
pub fn record(kind: u8, fields: &[u8]) -> Vec<u8> {
    let mut out = (fields.len() as u16 + 1).to_be_bytes().to_vec();
    out.push(kind);
    out.extend(fields);
    out
}
impl Settings {
    pub fn record(&self) -> Vec<u8> {
        let mut out = vec![self.origin_walks.len() as u8, self.target_walks.len() as u8];
        out.extend(&self.origin_walks);
        out.extend(&self.target_walks);
        out.extend([self.transfer_minutes, self.max_transfers]);
        out.extend(self.now.to_be_bytes());
        self.epochs.iter().for_each(|e| out.extend(e.to_be_bytes()));
        record(1, &out)
    }
}
impl Stop {
    pub fn record(&self) -> Vec<u8> {
        let mut out = Vec::new();
        text(&mut out, &self.id);
        optional_text(&mut out, &self.name);
        optional_text(&mut out, &self.parent);
        out.push(self.location_type);
        let bits = |d: f64| d.to_bits().to_be_bytes();
        optional(&mut out, self.position.map(|(lat, lon)| [bits(lat), bits(lon)].concat()));
        out.push(self.members);
        record(2, &out)
    }
}
impl Call {
    pub fn record(&self) -> Vec<u8> {
        let mut out = self.trip.to_be_bytes().to_vec();
        out.push(self.day);
        out.extend(self.sequence.to_be_bytes());
        out.extend(self.stop.to_be_bytes());
        optional(&mut out, self.arrival.map(|t| t.to_be_bytes().to_vec()));
        optional(&mut out, self.departure.map(|t| t.to_be_bytes().to_vec()));
        out.extend([self.pickup, self.drop_off]);
        record(3, &out)
    }
}
impl Rule {
    pub fn record(&self) -> Vec<u8> {
        let mut out = self.from.to_be_bytes().to_vec();
        out.extend(self.to.to_be_bytes());
        out.push(self.transfer_type);
        optional(&mut out, self.seconds.map(|s| s.to_be_bytes().to_vec()));
        record(4, &out)
    }
}
impl Step {
    pub fn record(&self) -> Vec<u8> {
        match self {
            Self::Stop(stop) => stop.record(),
            Self::Call(call) => call.record(),
            Self::Rule(rule) => rule.record(),
            Self::Search => record(5, &[]),
        }
    }
}
pub fn file(settings: &Settings, steps: &[Step]) -> Vec<u8> {
    let mut out = vec![1];
    out.extend(settings.record());
    steps.iter().for_each(|step| out.extend(step.record()));
    out
}
