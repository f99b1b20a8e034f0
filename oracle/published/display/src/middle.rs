//! Not a published file. Runs the published `middle` (request 10) over tables in memory. It sits in this folder because the harness does.
//! Each trip and day of the load is a trip of the feed, with a service that runs on that day alone. While the search runs the calls bear
//! these trips' numbers, which stand in the order of trip and day, so that no order changes.
use super::super::*;
use super::{Feed, List, Run, Sized, StopTimes, block_on};

/// Trips and days of the table, in order.
type Runs = List<(u16, u8)>;

fn number(runs: &Runs, trip: u16, day: u8) -> Option<u16> {
    runs.binary_search(&(trip, day)).ok().map(|i| i as u16)
}
/// Stops, trips and the stop times of calls that were taken.
struct Timetable<'a> {
    stops: Feed<'a>,
    runs: &'a Runs,
    calls: &'a [StopTimes],
}
fn clock(seconds: Option<u32>) -> std::string::String {
    seconds.map_or_else(Default::default, |s| format!("{:02}:{:02}:{:02}", s / 3600, s / 60 % 60, s % 60))
}
impl Timetable<'_> {
    fn trips(&self, visit: &mut impl FnMut(gtfs::csv::Record<'_>) -> Result<(), Error>) -> Result<(), Error> {
        for (i, &(_, day)) in self.runs.iter().enumerate() {
            let (id, service) = (i.to_string(), day.to_string());
            let fields = [(C::TripId, id.as_str()), (C::RouteId, "r"), (C::ServiceId, service.as_str())];
            visit(gtfs::csv::Record::new(Table::Trips, &fields))?;
        }
        Ok(())
    }
    /// A call whose trip and day have left the table was dropped by a cut, and lies outside the window.
    fn stop_times(&self, visit: &mut impl FnMut(gtfs::csv::Record<'_>) -> Result<(), Error>) -> Result<(), Error> {
        for call in self.calls {
            let Some(run) = number(self.runs, call.trip, call.day) else { continue };
            let [trip, sequence] = [u32::from(run), call.sequence].map(|n| n.to_string());
            let [pickup, drop_off] = [call.pickup_type, call.drop_off_type].map(|n| n.to_string());
            let (arrival, departure) = (clock(call.arrival), clock(call.departure));
            let fields = [
                (C::TripId, trip.as_str()),
                (C::StopId, self.stops.0[usize::from(call.stop)].id.as_str()),
                (C::StopSequence, sequence.as_str()),
                (C::ArrivalTime, arrival.as_str()),
                (C::DepartureTime, departure.as_str()),
                (C::PickupType, pickup.as_str()),
                (C::DropOffType, drop_off.as_str()),
            ];
            visit(gtfs::csv::Record::new(Table::StopTimes, &fields))?;
        }
        Ok(())
    }
}
impl Tables for Timetable<'_> {
    async fn scan(
        &mut self,
        tables: &[Table],
        manifest: Option<&zip::Manifest>,
        workspace: &mut zip::Workspace,
        mut visit: impl FnMut(gtfs::csv::Record<'_>) -> Result<(), Error>,
    ) -> Result<zip::Manifest, Error> {
        match tables {
            [Table::Trips] => self.trips(&mut visit)?,
            [Table::StopTimes] => self.stop_times(&mut visit)?,
            _ => return self.stops.scan(tables, manifest, workspace, visit).await,
        }
        Ok(zip::Manifest)
    }
}
impl Sized {
    /// The trips of the feed under their numbers, and a service for each day.
    fn hold_runs(&mut self, runs: &Runs) -> Result<(), Error> {
        self.trips.clear();
        self.lookup.clear();
        for i in 0..runs.len() {
            let held = self.intern(&i.to_string(), 0)?;
            assert!(held == Some(i as u16), "a trip of its own");
        }
        self.services.clear();
        for day in 0..3u8 {
            self.service(&day.to_string())?.active = 1 << day;
        }
        Ok(())
    }
}
impl Run {
    /// `endpoint_paths` with depth 2 and then `middle`, as `query` calls them.
    pub(super) fn search_middle(&mut self) -> Result<(), Error> {
        let mut runs: Runs = self.calls.iter().map(|c| (c.trip, c.day)).collect();
        runs.sort_unstable();
        runs.dedup();
        self.search.hold_runs(&runs)?;
        self.calls.iter_mut().for_each(|c| c.trip = number(&runs, c.trip, c.day).expect("a run of the table"));
        let found = self.endpoint_and_middle(&runs);
        self.calls.iter_mut().for_each(|c| c.trip = runs[c.trip as usize].0);
        for c in self.search.candidates.iter_mut() {
            for ride in [Some(&mut c.first), c.middle.as_mut(), c.last.as_mut()].into_iter().flatten() {
                ride.trip = runs[ride.trip as usize].0;
            }
        }
        found
    }
    fn endpoint_and_middle(&mut self, runs: &Runs) -> Result<(), Error> {
        self.search.endpoint_paths(&mut self.calls, &self.config, 2)?;
        let mut source = Timetable { stops: Feed(&self.rows), runs, calls: &self.taken };
        let (mut workspace, days) = (zip::Workspace, 7);
        match block_on(self.search.middle(&mut source, &mut workspace, days, &mut self.calls, &self.config)) {
            Err(Error::IndexFull) => {
                self.search.scratch = Scratch::Idle;
                self.search.limits |= LIMIT_TRANSFERS;
                Ok(())
            }
            found => found,
        }
    }
}
