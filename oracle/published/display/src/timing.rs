//! Not a published file. Times for the benchmark. It sits in this folder because the harness does.
use super::super::*;
use super::{Feed, List, Run, Settings, Sized, StopTimes, block_on};
use std::time::{Duration, Instant};

/// Each repetition starts from the same filled load.
impl Run {
    pub fn time_paths(&mut self, times: usize) -> Result<List<Duration>, Error> {
        block_on(self.search.stations(&mut Feed(&self.rows), &mut zip::Workspace, false))?;
        self.places()?;
        let (horizon, limits) = (self.search.horizon, self.search.limits);
        let taken = self.calls.clone();
        let mut spent = List::new();
        for _ in 0..times {
            self.calls.clone_from(&taken);
            self.search.candidates.clear();
            (self.search.horizon, self.search.limits) = (horizon, limits);
            let start = Instant::now();
            self.search.endpoint_paths(&mut self.calls, &self.config, self.config.max_transfers)?;
            spent.push(start.elapsed());
        }
        Ok(spent)
    }
    /// The closing loop alone, its text copied from `group_places` because it is no function of its own there.
    pub fn time_closing_loop(&mut self, times: usize) -> Result<List<Duration>, Error> {
        let mut keys = Vec::<PlaceKey, 128>::new();
        for row in &self.rows {
            let key = if row.location_type == 0 { place_key(row.stop())? } else { NO_PLACE };
            let _ = keys.push(key);
        }
        self.places()?;
        let places = self.search.places;
        let once = |_| {
            let start = Instant::now();
            self.search.closing_loop(&keys);
            start.elapsed()
        };
        let spent = (0..times).map(once).collect();
        assert!(self.search.places == places, "the copied loop differs");
        Ok(spent)
    }
}
impl Sized {
    fn closing_loop(&mut self, keys: &Vec<PlaceKey, 128>) {
        self.places.fill(NONE);
        while let Some(i) = (0..self.stops.len())
            .filter(|&i| keys[i] != NO_PLACE && self.places[i] == NONE)
            .min_by(|&a, &b| self.stops[a].cmp(&self.stops[b]))
        {
            let representative = (0..self.stops.len())
                .filter(|&j| self.places[j] == j as u16 && same_place_keys(keys[i], keys[j]))
                .min_by(|&a, &b| self.stops[a].cmp(&self.stops[b]));
            self.places[i] = representative.unwrap_or(i) as u16;
        }
    }
}

/// A load filled record by record with what the published functions ask for and no more: `Search::stop` and `place_key` for
/// a stop, `push` for a call. The keys are kept, so its search is the closing loop and `endpoint_paths`.
pub struct Filled {
    run: Run,
    keys: Vec<PlaceKey, 128>,
}
/// Times go in as text, the only way to make one; below 100 hours without an allocation.
fn time(seconds: u32) -> gtfs::Time {
    let [h, m, s] = [seconds / 3600, seconds / 60 % 60, seconds % 60];
    if h > 99 {
        return format!("{h}:{m:02}:{s:02}").parse().expect("a time");
    }
    let digit = |n: u32| b'0' + n as u8;
    let two = |n: u32| (digit(n / 10), digit(n % 10));
    let ((a, b), (c, d), (e, f)) = (two(h), two(m), two(s));
    let text = [a, b, b':', c, d, b':', e, f];
    core::str::from_utf8(&text).expect("digits").parse().expect("a time")
}
impl Filled {
    pub fn open(settings: &Settings<'_>) -> Self {
        Self { run: Run::open(settings), keys: Vec::new() }
    }
    pub fn stop(&mut self, stop: gtfs::Stop<'_>, members: u8) -> Result<(), Error> {
        let search = &mut self.run.search;
        let i = usize::from(search.stop(stop.id)?);
        search.endpoints[i] = members;
        if let Some(parent) = stop.parent_station {
            search.parents[i] = search.stop(parent)?;
        }
        let key = if stop.location_type == 0 { place_key(stop)? } else { NO_PLACE };
        self.keys.push(key).map_err(|_| Error::IndexFull)
    }
    pub fn call(&mut self, row: &StopTimes) -> Result<(), Error> {
        let call = StopTime {
            trip_id: "",
            stop_id: "",
            sequence: row.sequence,
            arrival: row.arrival.map(time),
            departure: row.departure.map(time),
            headsign: None,
            pickup_type: row.pickup_type,
            drop_off_type: row.drop_off_type,
        };
        let run = &mut self.run;
        run.search.push(&mut run.calls, &call, row.trip, row.stop, usize::from(row.day))
    }
    pub fn rule(&mut self, from: u16, to: u16, transfer_type: u8, seconds: u16) -> Result<(), Error> {
        self.run.rule(from, to, transfer_type, seconds)
    }
    /// Once all rules are in: stations are the stops without a place key.
    pub fn order_rules(&mut self) {
        let keys = &self.keys;
        self.run.search.order_rules(|stop| keys[stop] == NO_PLACE);
    }
    pub fn search(&mut self) -> Result<(), Error> {
        let run = &mut self.run;
        run.search.closing_loop(&self.keys);
        run.search.endpoint_paths(&mut run.calls, &run.config, run.config.max_transfers)?;
        if run.config.max_transfers == 2 { run.search.three_rides(&run.calls, &run.config) } else { Ok(()) }
    }
    /// So many searches of a load that is filled, and what they start from put back after each; or that alone.
    pub fn searches(&mut self, times: usize, searched: bool) -> Result<(), Error> {
        let (horizon, limits) = (self.run.search.horizon, self.run.search.limits);
        let taken = self.run.calls.clone();
        for _ in 0..times {
            if core::hint::black_box(searched) {
                self.search()?;
            }
            self.run.calls.clone_from(&taken);
            self.run.search.candidates.clear();
            (self.run.search.horizon, self.run.search.limits) = (horizon, limits);
        }
        Ok(())
    }
    pub fn kept(&mut self) -> &Run {
        self.run.publish();
        &self.run
    }
}

/// Every ride of the table, as `last_rides` makes them, at a target or not.
fn rides(calls: &[Call]) -> impl Iterator<Item = Ride> + '_ {
    calls.iter().enumerate().filter(|(_, board)| board.flags & 1 != 0).flat_map(|(i, board)| {
        calls[i + 1..]
            .iter()
            .take_while(|alight| (alight.trip, alight.day) == (board.trip, board.day))
            .filter(|alight| alight.flags & 2 != 0)
            .map(|alight| Ride {
                trip: board.trip,
                from: board.stop,
                to: alight.stop,
                departure: board.departure,
                arrival: alight.arrival,
                endpoint: 0,
                day: ride_day(*board, *alight),
            })
    })
}
impl Sized {
    /// Journeys of three rides in request 10's order, plainly: every first, middle and last ride, by the published `join` and `candidate`.
    /// The published `middle` goes by the middle ride first and scans a feed.
    fn three_rides(&mut self, calls: &[Call], config: &Journey) -> Result<(), Error> {
        for first in first_rides(calls, &self.endpoints, config) {
            for middle in rides(calls) {
                if !self.join(first, middle, config.transfer_minutes) {
                    continue;
                }
                for last in last_rides(calls, &self.endpoints, config) {
                    if self.join(middle, last, config.transfer_minutes) {
                        let c = Candidate { first, middle: Some(middle), last: Some(last), target: last.endpoint };
                        Self::candidate(&mut self.candidates, &mut self.horizon, &mut self.limits, c, config)?;
                    }
                }
            }
        }
        Ok(())
    }
}

/// The kept list of a search, alone, for offers to `candidate`.
#[derive(Clone)]
pub struct Kept {
    candidates: Vec<Candidate, MAX_PATHS>,
    horizon: u16,
    limits: u8,
}
#[derive(Clone, Copy)]
pub struct Offer(Candidate);
impl Offer {
    /// A journey of one ride, or of two for `change`, from an origin and to a target by their numbers in the settings.
    pub fn new(departure: u16, arrival: u16, change: bool, origin: u8, target: u8) -> Self {
        let ride = Ride { trip: 0, from: 0, to: 0, departure, arrival, endpoint: origin, day: 0 };
        Self(Candidate { first: ride, middle: None, last: change.then_some(ride), target })
    }
}
impl Kept {
    pub fn new(horizon: u16) -> Self {
        Self { candidates: Vec::new(), horizon, limits: 0 }
    }
    #[inline(never)]
    pub fn offer(&mut self, offer: &Offer, run: &Run) -> bool {
        Sized::candidate(&mut self.candidates, &mut self.horizon, &mut self.limits, offer.0, &run.config).is_ok()
    }
    /// Departure, arrival and number of rides of each, then the horizon and limits.
    pub fn shown(&self) -> (List<(u16, u16, u8)>, u16, u8) {
        let row = |c: &Candidate| (c.first.departure, c.end().arrival, c.len());
        (self.candidates.iter().map(row).collect(), self.horizon, self.limits)
    }
}
