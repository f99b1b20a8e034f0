//! A small load step by step: refusals, verdicts with every cause, displays.
use timetable::*;

const SETTINGS: Settings<'static> = Settings {
    origin_walks: &[5],
    target_walks: &[2],
    change_time: 120,
    max_transfers: 1,
    now: 1000,
    epochs: [1000, 87400, 173800],
};

fn call(trip: u16, sequence: u32, stop: u16, second: u32) -> Call {
    Call { trip, sequence, stop, arrival: Some(second), departure: Some(second), ..Call::default() }
}

/// Stops 0 to 4: mill, market, square, college, yard. Trips 1 to the market, 2 and 3 from the square, 4 from the market, 5 from the yard.
fn built(buffer: &mut [u8]) -> LoadBuilder<'_> {
    let mut load = LoadBuilder::new(buffer, &SETTINGS).unwrap();
    let stop = |id| Stop { id, ..Stop::default() };
    let stops = [
        Stop { origins: 1, ..stop(b"mill") },
        stop(b"market"),
        stop(b"square"),
        Stop { targets: 1, ..stop(b"college") },
        stop(b"yard"),
    ];
    for (number, stop) in (0..).zip(&stops) {
        assert_eq!(load.stop(stop), Ok(number));
    }
    load.rule(&Rule { from: 1, to: 2, kind: 2, seconds: Some(180) }).unwrap();
    load.rule(&Rule { from: 1, to: 4, kind: 3, seconds: None }).unwrap();
    let calls = [
        call(1, 1, 0, 600),
        call(1, 2, 1, 1200),
        call(2, 1, 2, 1380),
        call(2, 2, 3, 1800),
        call(3, 1, 2, 1320),
        call(3, 2, 3, 1740),
        Call { pickup: 1, ..call(4, 1, 1, 1400) },
        Call { drop_off: 1, ..call(4, 2, 3, 1900) },
        call(5, 1, 4, 1400),
        call(5, 2, 3, 1900),
        call(6, 1, 0, 200),
        call(6, 2, 3, 2000),
    ];
    for call in &calls {
        assert_eq!(load.call(call), Ok(Accepted::Taken));
    }
    load
}

#[test]
fn refusals() {
    let mut buffer = [0; FILE_ROOM];
    let five = Settings { origin_walks: &[1; 5], ..SETTINGS };
    assert_eq!(LoadBuilder::new(&mut buffer, &five).err(), Some(Refusal::SettingsRange));
    assert_eq!(LoadBuilder::new(&mut [], &SETTINGS).err(), Some(Refusal::BufferShort));
    assert_eq!(LoadBuilder::new(&mut [0; 20], &SETTINGS).err(), Some(Refusal::BufferShort));
    let mut load = built(&mut buffer);
    let before = load.file().to_vec();
    assert_eq!(load.stop(&Stop { id: b"mill", ..Stop::default() }), Err(Refusal::IdTaken));
    assert_eq!(load.stop(&Stop { id: &[b'x'; 33], ..Stop::default() }), Err(Refusal::IdLength));
    assert_eq!(load.stop(&Stop { id: &[b'x'; 300], ..Stop::default() }), Err(Refusal::IdLength));
    assert_eq!(load.stop(&Stop { id: b"x", parent: Some(b"mill"), ..Stop::default() }), Err(Refusal::ParentUnknown));
    assert_eq!(load.rule(&Rule { from: 1, to: 2, kind: 0, seconds: None }), Err(Refusal::PairTaken));
    assert_eq!(load.rule(&Rule { from: 2, to: 1, kind: 2, seconds: None }), Err(Refusal::RuleType));
    assert_eq!(load.call(&call(9, 1, 9, 60)), Err(Refusal::FieldRange));
    assert_eq!(load.call(&Call { departure: Some(59), ..call(9, 1, 0, 60) }), Err(Refusal::TimesReversed));
    assert_eq!(load.append(&[]), Err(Refusal::RecordLength));
    assert_eq!(load.append(&[6]), Err(Refusal::RecordKind));
    assert_eq!(load.file(), before);
    assert_eq!(load.call(&Call { departure: None, ..call(9, 1, 0, 60) }), Ok(Accepted::Outside));
    assert_eq!(load.call(&call(9, 1, 0, 21601)), Ok(Accepted::Outside));
    assert_eq!(load.file().len(), before.len() + 2 * 24 - 4);
    load.search().unwrap();
    assert_eq!(load.search(), Err(Refusal::AlreadySearched));
    assert_eq!(load.stop(&Stop { id: b"x", ..Stop::default() }), Err(Refusal::AlreadySearched));
    assert_eq!(load.call(&call(1, 2, 1, 1201)), Err(Refusal::Neighbours));
    assert_eq!(load.call(&call(7, 1, 0, 700)), Ok(Accepted::Taken));
    assert_eq!(load.call(&call(7, 2, 3, 1500)), Ok(Accepted::Taken));
    assert_eq!(load.list().unwrap().best(0).unwrap().map(|best| best.rides()[0].trip), Some(7));
}

#[test]
fn room() {
    let mut whole = [0; FILE_ROOM];
    let length = built(&mut whole).file().len();
    let mut buffer = vec![0; length + 2];
    let mut load = built(&mut buffer);
    assert_eq!(load.search(), Err(Refusal::BufferShort));
    assert_eq!(load.file(), &whole[..length]);
    let mut buffer = vec![0; length + 3];
    let mut load = built(&mut buffer);
    assert_eq!(load.search(), Ok(()));
    assert_eq!(load.into_file().len(), length + 3);
}

fn leg(trip: u16, board: u32, alight: u32) -> Leg {
    Leg { trip, day: 0, board, alight }
}

#[test]
fn verdicts() {
    let mut buffer = [0; FILE_ROOM];
    let mut load = built(&mut buffer);
    let bus = leg(1, 1, 2);
    let judged = |load: &LoadBuilder<'_>, origin, target, legs: &[Leg]| judge(load.file(), &Connection { origin, target, legs });
    assert_eq!(judged(&load, 0, 0, &[bus, leg(2, 1, 2)]), Ok(Verdict::NotFinished));
    load.search().unwrap();
    let said = |legs: &[Leg]| judged(&load, 0, 0, legs).unwrap();
    assert_eq!(said(&[bus, leg(2, 1, 2)]), Verdict::Listed(0));
    for (legs, cause) in [
        (&[][..], Cause::RideCount { rides: 0 }),
        (&[bus; 4], Cause::RideCount { rides: 4 }),
        (&[bus; 300], Cause::RideCount { rides: 255 }),
        (&[leg(8, 1, 2)], Cause::NoCall { leg: 0, sequence: 1 }),
        (&[bus, leg(2, 1, 77)], Cause::NoCall { leg: 1, sequence: 77 }),
        (&[bus, leg(4, 1, 2)], Cause::BoardingBarred { leg: 1 }),
        (&[leg(6, 1, 2), leg(4, 2, 2)], Cause::AlightingBarred { leg: 1 }),
        (&[leg(1, 2, 1)], Cause::NotLater { leg: 0 }),
        (&[leg(2, 1, 2)], Cause::NotOrigin),
        (&[bus], Cause::NotTarget),
        (&[leg(6, 1, 2)], Cause::TooEarly { walk: 300, departure: 200 }),
        (&[bus, leg(2, 1, 2), leg(5, 1, 2)], Cause::TooManyChanges { most: 1 }),
        (&[bus, leg(5, 1, 2)], Cause::Forbidden { change: 0, rule: 1 }),
        (&[bus, leg(3, 1, 2)], Cause::TooShort { change: 0, needed: 180, arrival: 1200, departure: 1320 }),
    ] {
        assert_eq!(said(legs), Verdict::Impossible(cause));
    }
    assert_eq!(judged(&load, 1, 0, &[bus, leg(2, 1, 2)]), Ok(Verdict::Impossible(Cause::NotOrigin)));
    assert_eq!(judged(&load, 0, 1, &[bus, leg(2, 1, 2)]), Ok(Verdict::Impossible(Cause::NotTarget)));
    assert_eq!(judge(&load.file()[..99], &Connection { origin: 0, target: 0, legs: &[bus] }), Err(Refusal::RecordLength));
}

/// Trips from the mill to the college, each leaving and arriving a minute after the one before.
fn shuttle(buffer: &mut [u8], trips: u16) -> List {
    let mut load = LoadBuilder::new(buffer, &SETTINGS).unwrap();
    load.stop(&Stop { id: b"mill", origins: 1, ..Stop::default() }).unwrap();
    load.stop(&Stop { id: b"college", targets: 1, ..Stop::default() }).unwrap();
    for trip in 0..trips {
        let second = 600 + 60 * u32::from(trip);
        load.call(&call(trip, 1, 0, second)).unwrap();
        load.call(&call(trip, 2, 1, second + 4000)).unwrap();
    }
    load.search().unwrap();
    load.list().unwrap()
}

#[test]
fn displays() {
    let mut buffer = [0; FILE_ROOM];
    let lists = [shuttle(&mut buffer, 30), shuttle(&mut buffer, 50)];
    let display = deal(&lists, &[3, 1]).unwrap();
    assert!(display.part(0).is_none() && display.part(2).is_none() && display.part(4).is_none());
    // group 1, of 50, gets 16 and then what group 3 doesn't take of the rest: groups are dealt by number
    let (one, three) = (display.part(1).unwrap().unwrap(), display.part(3).unwrap().unwrap());
    assert_eq!((one.share(), three.share()), (48, 16));
    let first_out = lists[0].journeys()[16].arrival;
    assert_eq!(three.window(), first_out - 1);
    assert_eq!(three.best(&lists[0], 0), lists[0].best(0));
    let last_in = lists[0].journeys()[15];
    assert_eq!(three.next_after(&lists[0], 0, &last_in), Ok(None));
    assert_eq!(lists[0].next_after(0, &last_in), Ok(Some(lists[0].journeys()[16])));
    assert_eq!(deal(&lists, &[1, 1]), Err(Refusal::DisplayGroups));
    assert_eq!(deal(&lists, &[1, 4]), Err(Refusal::DisplayGroups));
    assert_eq!(deal(&[], &[]).unwrap().part(0), None);
}

#[test]
fn threads() {
    let mut buffer = [0; FILE_ROOM];
    let mut load = built(&mut buffer);
    load.search().unwrap();
    let wanted = load.list().unwrap();
    std::thread::scope(|scope| {
        for _ in 0..8 {
            scope.spawn(|| (0..100).for_each(|_| assert_eq!(load.list().as_ref(), Ok(&wanted))));
        }
    });
}
