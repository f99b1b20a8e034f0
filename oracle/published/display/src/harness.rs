//! Not a published file. Drives the private functions of journey.rs for one load. It fills `Search` as the published driver does, but for
//! the seconds of rules (request 02) and their order (request 06), calls the published functions and hands out what they left. A call
//! after the search goes back to the load before it, which is then searched again (request 11). Middle rides (request 10) are in middle.rs.
use super::*;
use crate::config::JourneyStop;

#[path = "middle.rs"]
mod middle;
#[path = "timing.rs"]
pub mod timing;

type List<T> = std::vec::Vec<T>;
/// 512 calls and as many trips and middle calls, 128 stops; a service for each day and one route, which middle rides ask for.
type Sized = Search<512, 128, 512, 512, 3, 1>;

pub struct StopRow {
    pub id: std::string::String,
    pub name: Option<std::string::String>,
    pub parent: Option<std::string::String>,
    pub location_type: u8,
    pub position: Option<(f64, f64)>,
}
impl StopRow {
    fn stop(&self) -> gtfs::Stop<'_> {
        gtfs::Stop {
            id: &self.id,
            code: None,
            name: self.name.as_deref(),
            latitude: self.position.map(|p| p.0),
            longitude: self.position.map(|p| p.1),
            parent_station: self.parent.as_deref(),
            location_type: self.location_type,
        }
    }
}
pub struct CallRow {
    pub trip: u16,
    pub day: u8,
    pub sequence: u32,
    pub stop: u16,
    pub arrival: u16,
    pub departure: u16,
    pub board: bool,
    pub alight: bool,
    pub board_request: bool,
    pub alight_request: bool,
}
pub struct RideRow {
    pub trip: u16,
    pub day: u8,
    pub from: u16,
    pub to: u16,
    pub departure: u16,
    pub arrival: u16,
    pub board_request: bool,
    pub alight_request: bool,
}
/// The stops of the load as the rows of an in-memory feed. A position that `coordinates` finds unusable is left out,
/// since `Record::stop` would refuse the row; `place_key` treats both alike.
struct Feed<'a>(&'a [StopRow]);
impl Tables for Feed<'_> {
    async fn scan(
        &mut self,
        _: &[Table],
        _: Option<&zip::Manifest>,
        _: &mut zip::Workspace,
        mut visit: impl FnMut(gtfs::csv::Record<'_>) -> Result<(), Error>,
    ) -> Result<zip::Manifest, Error> {
        for row in self.0 {
            let kind = row.location_type.to_string();
            let usable = row.position.filter(|_| coordinates(row.stop()).is_some());
            let (lat, lon) = usable.map_or_else(Default::default, |p| (p.0.to_string(), p.1.to_string()));
            let fields = [
                (C::StopId, row.id.as_str()),
                (C::StopName, row.name.as_deref().unwrap_or("")),
                (C::ParentStation, row.parent.as_deref().unwrap_or("")),
                (C::LocationType, kind.as_str()),
                (C::StopLat, lat.as_str()),
                (C::StopLon, lon.as_str()),
            ];
            visit(gtfs::csv::Record::new(Table::Stops, &fields))?;
        }
        Ok(zip::Manifest)
    }
}
fn block_on<T>(future: impl Future<Output = T>) -> T {
    let mut context = core::task::Context::from_waker(core::task::Waker::noop());
    match core::pin::pin!(future).poll(&mut context) {
        core::task::Poll::Ready(value) => value,
        core::task::Poll::Pending => unreachable!("the feed is in memory"),
    }
}

pub struct Settings<'a> {
    pub origin_walks: &'a [u8],
    pub target_walks: &'a [u8],
    pub transfer_minutes: u8,
    pub max_transfers: u8,
    pub now: i64,
    pub epochs: [i64; 3],
}
#[derive(Clone, Copy)]
pub struct StopTimes {
    pub trip: u16,
    pub day: u8,
    pub sequence: u32,
    pub stop: u16,
    pub arrival: Option<u32>,
    pub departure: Option<u32>,
    pub pickup_type: u8,
    pub drop_off_type: u8,
}
impl Sized {
    /// Request 06: rules whose from is a station first, the others behind, each in the order taken. Of two rules with one exact side the
    /// one exact on its to side has a station for its from, so the last of equals is the one exact on the from side, for every pair.
    fn order_rules(&mut self, station: impl Fn(usize) -> bool) {
        self.rules.sort_by_key(|rule| !station(usize::from(rule.from)));
    }
}
pub struct Run {
    search: Box<Sized>,
    calls: Box<Vec<Call, 512>>,
    config: Journey,
    rows: List<StopRow>,
    /// The calls that were taken, as handed in.
    taken: List<StopTimes>,
    cache: Cache,
    /// The calls, horizon and mark before the last search.
    before: (Box<Vec<Call, 512>>, u16, u8),
}
impl Run {
    pub fn open(settings: &Settings<'_>) -> Self {
        let mut search = Box::new(Sized::new(Date::new(2026, 1, 1).unwrap()));
        search.now = settings.now;
        search.epochs = settings.epochs;
        let stops = |walks: &[u8]| {
            let mut stops = Vec::new();
            for &walk in walks {
                stops.push(JourneyStop { stop: String::new(), walk }).expect("at most 4");
            }
            stops
        };
        let config = Journey {
            origins: stops(settings.origin_walks),
            targets: stops(settings.target_walks),
            transfer_minutes: settings.transfer_minutes,
            max_transfers: settings.max_transfers,
        };
        let before = (Box::new(Vec::new()), search.horizon, search.limits);
        let (rows, taken) = (List::new(), List::new());
        Self { search, calls: Box::new(Vec::new()), config, rows, taken, cache: Cache::default(), before }
    }
    /// The place key as `group_places` will see it, which refuses a needed name.
    pub fn place_key(&self, row: &StopRow) -> Result<(), Error> {
        if row.location_type == 0 { place_key(row.stop()).map(|_| ()) } else { Ok(()) }
    }
    pub fn stop(&mut self, row: StopRow, members: u8) -> Result<(), Error> {
        let i = self.search.stop(&row.id)?;
        self.search.endpoints[i as usize] = members;
        self.rows.push(row);
        Ok(())
    }
    /// Whether the call was taken: `push` ends with the same `window` at the same horizon.
    pub fn call(&mut self, row: &StopTimes) -> Result<bool, Error> {
        let time = |seconds: Option<u32>| {
            seconds.map(|s| {
                let text = format!("{:02}:{:02}:{:02}", s / 3600, s / 60 % 60, s % 60);
                text.parse::<gtfs::Time>().expect("a time")
            })
        };
        let call = StopTime {
            trip_id: "",
            stop_id: "",
            sequence: row.sequence,
            arrival: time(row.arrival),
            departure: time(row.departure),
            headsign: None,
            pickup_type: row.pickup_type,
            drop_off_type: row.drop_off_type,
        };
        let day = usize::from(row.day);
        self.search.push(&mut self.calls, &call, row.trip, row.stop, day)?;
        let taken = self.search.window(&call, day)?.is_some();
        self.taken.extend(taken.then_some(*row));
        Ok(taken)
    }
    /// Request 02: the Rust is fed 0 seconds for types 0 and 1, whatever the rule was handed in with; then it gives the change time.
    pub fn rule(&mut self, from: u16, to: u16, transfer_type: u8, seconds: u16) -> Result<(), Error> {
        let seconds = if transfer_type < 2 { 0 } else { seconds };
        let rule = Rule { from, to, seconds, forbidden: transfer_type == 3 };
        self.search.rules.push(rule).map_err(|_| Error::IndexFull)
    }
    fn places(&mut self) -> Result<(), Error> {
        block_on(self.search.group_places(&mut Feed(&self.rows), &mut zip::Workspace))
    }
    /// Request 11: back to the load before the last search, which has no journeys.
    pub fn unsearch(&mut self) {
        self.calls.clone_from(&self.before.0);
        (self.search.horizon, self.search.limits) = (self.before.1, self.before.2);
        self.search.candidates.clear();
    }
    pub fn search(&mut self) -> Result<(), Error> {
        self.before = (self.calls.clone(), self.search.horizon, self.search.limits);
        let rows = &self.rows;
        self.search.order_rules(|stop| rows[stop].location_type == 1);
        block_on(self.search.stations(&mut Feed(&self.rows), &mut zip::Workspace, false))?;
        self.places()?;
        match self.config.max_transfers {
            2 => self.search_middle(),
            depth => self.search.endpoint_paths(&mut self.calls, &self.config, depth),
        }
    }
    /// The kept candidates as `publish` writes them, without labels.
    pub fn publish(&mut self) {
        self.cache.reset(0);
        self.cache.windows[0] = self.search.horizon;
        self.cache.limits[0] = self.search.limits;
        for &c in &self.search.candidates {
            let walk = self.config.origins[c.first.endpoint as usize].walk;
            let egress = self.config.targets[c.target as usize].walk;
            let path = Path {
                origin: c.first.endpoint,
                target: c.target,
                walk,
                egress,
                len: c.len(),
                leave: c.first.departure - u16::from(walk) * 60,
                arrival: c.end().arrival + u16::from(egress) * 60,
                ..Path::default()
            };
            let _ = self.cache.paths.push(path);
        }
    }
    pub fn max_transfers(&self) -> u8 {
        self.config.max_transfers
    }
    pub fn horizon(&self) -> u16 {
        self.search.horizon
    }
    pub fn limits(&self) -> u8 {
        self.search.limits
    }
    pub fn calls(&self) -> List<CallRow> {
        let row = |c: &Call| CallRow {
            trip: c.trip,
            day: c.day,
            sequence: c.sequence,
            stop: c.stop,
            arrival: c.arrival,
            departure: c.departure,
            board: c.flags & 1 != 0,
            alight: c.flags & 2 != 0,
            board_request: c.flags & 5 == 5,
            alight_request: c.flags & 10 == 10,
        };
        let mut rows: List<CallRow> = self.calls.iter().map(row).collect();
        rows.sort_by_key(|c| (c.trip, c.day, c.sequence));
        rows
    }
    pub fn place_numbers(&self) -> List<Option<u16>> {
        let places = &self.search.places[..self.search.stops.len()];
        places.iter().map(|&p| (p != NONE).then_some(p)).collect()
    }
    pub fn rides(&self, journey: usize) -> List<RideRow> {
        let c = self.search.candidates[journey];
        let row = |r: Ride| RideRow {
            trip: r.trip,
            day: r.day & DAY,
            from: r.from,
            to: r.to,
            departure: r.departure,
            arrival: r.arrival,
            board_request: r.day & REQUEST_BOARD != 0,
            alight_request: r.day & REQUEST_ALIGHT != 0,
        };
        [Some(c.first), c.middle, c.last].into_iter().flatten().map(row).collect()
    }
    pub fn paths(&self) -> &[Path] {
        &self.cache.paths
    }
    pub fn best(&self, second: i64) -> Option<&Path> {
        self.cache.best(0, second)
    }
    pub fn next_after(&self, second: i64, after: &Path) -> Option<&Path> {
        self.cache.next_after(0, second, after)
    }
}

/// `Cache::best` over a list that the caller lends, which has at most 64; the answer is its index.
pub struct Lent(Cache);
impl Lent {
    pub fn new(paths: &[Path], horizon: u16) -> Self {
        let mut cache = Cache::default();
        cache.until = i64::from(u16::MAX);
        cache.windows[0] = horizon;
        cache.paths.extend_from_slice(paths).expect("at most 64");
        Self(cache)
    }
    pub fn best(&self, second: i64) -> Option<usize> {
        let best: *const Path = self.0.best(0, second)?;
        self.0.paths.iter().position(|p| core::ptr::eq(p, best))
    }
}
pub fn fnv(bytes: &[u8]) -> u64 {
    joined(key(bytes))
}
fn joined(hash: [u32; 2]) -> u64 {
    u64::from(hash[0]) | u64::from(hash[1]) << 32
}
/// Tag, hash, latitude and longitude in microdegrees.
pub type Key = (u8, u64, i32, i32);
pub fn key_of(row: &StopRow) -> Result<Key, Error> {
    place_key(row.stop()).map(|k| (k.tag, joined(k.hash), k.lat, k.lon))
}
pub fn same_place(a: Key, b: Key) -> bool {
    let key = |k: Key| PlaceKey { tag: k.0, hash: [k.1 as u32, (k.1 >> 32) as u32], lat: k.2, lon: k.3 };
    same_place_keys(key(a), key(b))
}
pub fn microdegrees(position: Option<(f64, f64)>) -> Option<(i32, i32)> {
    let row = StopRow { id: "".into(), name: None, parent: None, location_type: 0, position };
    coordinates(row.stop())
}

/// The errors that stand for 10 and for 11; every other error of a call or a search stands for 14.
pub const LATE: Error = Error::InvalidTime;
pub const FULL: Error = Error::IndexFull;
pub fn id_fits(id: &str) -> bool {
    Id::<32>::new(id).is_ok()
}
