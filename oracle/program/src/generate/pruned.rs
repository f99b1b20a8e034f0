//! Fixed files where a search that leaves last rides out by a bound must not leave out one too many: ties of every figure,
//! several targets, later calls of a last ride, arrivals at the horizon, lists near 64.
use super::writer::{Call, Settings, Step, Stop, file};

const ORIGIN: u16 = 0;
const SECOND: u16 = 1;
const CHANGE: u16 = 2;
const TARGET: u16 = 3;
const FARTHER: u16 = 4;

/// A trip that calls at each stop at one second.
type Trip = Vec<(u16, u32)>;

/// Two origins, a change stop, and two target stops: one of targets 0 and 1, one of 2 and 3.
fn paper(origin_walks: [u8; 2], target_walks: [u8; 4], trips: &[Trip]) -> Vec<u8> {
    let (origin_walks, target_walks) = (origin_walks.to_vec(), target_walks.to_vec());
    let settings = Settings { origin_walks, target_walks, max_transfers: 1, ..Settings::default() };
    let stop = |id: &str, members| Step::Stop(Stop { id: id.into(), members, ..Stop::default() });
    let mut steps = vec![stop("a", 1), stop("c", 2), stop("m", 0), stop("x", 0x30), stop("y", 0xc0)];
    for (trip, calls) in trips.iter().enumerate() {
        for (k, &(stop, at)) in calls.iter().enumerate() {
            let (trip, sequence) = (trip as u16, k as u32);
            steps.push(Step::Call(Call { trip, sequence, stop, arrival: Some(at), departure: Some(at), ..Call::default() }));
        }
    }
    steps.push(Step::Search);
    file(&settings, &steps)
}
fn offset(at: u32, by: i32) -> u32 {
    at.wrapping_add_signed(by)
}

/// A journey of two rides, leaving at 600 and due at 2000 with walk 5, after a kept one whose leave, arrival and walk are
/// each one less, the same or one more, by one ride and by two.
fn ties(files: &mut Vec<Vec<u8>>) {
    let near = [-1, 0, 1];
    for (leave, arrival, walk) in near.iter().flat_map(|&l| near.iter().flat_map(move |&a| near.map(|w| (l, a, w)))) {
        let walks = [5, offset(5, walk) as u8];
        let departure = offset(600, leave) + 60 * u32::from(walks[1]);
        let (offered, due) = (vec![(ORIGIN, 900), (CHANGE, 1500)], offset(2000, arrival));
        let last = vec![(CHANGE, 1500), (TARGET, 2000)];
        files.push(paper(walks, [0; 4], &[vec![(SECOND, departure), (TARGET, due)], offered.clone(), last.clone()]));
        let kept = [vec![(SECOND, departure), (CHANGE, 1400)], vec![(CHANGE, 1400), (TARGET, due)]];
        let (first, second) = (vec![kept[0].clone(), offered.clone(), kept[1].clone()], last);
        // The kept journey's last ride leaves before the offered first ride arrives.
        files.push(paper(walks, [0; 4], &[first, vec![second]].concat()));
    }
}
/// A kept direct journey due between what one target of a last ride gives and what another gives, at one stop or at two.
fn targets(files: &mut Vec<Vec<u8>>) {
    let first = || vec![(ORIGIN, 600), (CHANGE, 900)];
    for walks in [[10, 0, 5, 5], [0, 10, 5, 5], [255, 0, 9, 9], [0, 255, 9, 9], [9, 8, 255, 0], [9, 8, 0, 255]] {
        for kept in [1560, 1561, 2100, 2101] {
            for last in [vec![(CHANGE, 900), (TARGET, 1500)], vec![(CHANGE, 900), (TARGET, 1500), (FARTHER, 1560)]] {
                let direct = vec![(ORIGIN, 600), (FARTHER, kept - 60 * u32::from(walks[2].min(walks[3])))];
                files.push(paper([0, 0], walks, &[direct, first(), last]));
            }
        }
    }
}
/// Several last rides that depart within 128 seconds of each other, about a multiple of 128, the best of them anywhere.
fn departures(files: &mut Vec<Vec<u8>>) {
    for arrival in [1278, 1279, 1280, 1281] {
        for best in 0..4 {
            let last = |k: u32| vec![(CHANGE, 1279 + k), (TARGET, if k == best { 1900 } else { 2100 + k })];
            let kept = vec![(ORIGIN, 600), (TARGET, 2000)];
            let trips = [vec![kept, vec![(ORIGIN, 600), (CHANGE, arrival)]], (0..4).map(last).collect()].concat();
            files.push(paper([0, 0], [0; 4], &trips));
        }
    }
    for (arrival, departure) in [(21375, 21504), (21376, 21504), (21503, 21504), (21503, 21599), (21600, 21600)] {
        files.push(paper([0, 0], [0; 4], &[vec![(ORIGIN, 600), (CHANGE, arrival)], vec![(CHANGE, departure), (TARGET, 21600)]]));
    }
}
/// Journeys of two rides due at a horizon, a second before and after it: that of an empty load, after a cut of the table,
/// and after a 65th journey, when 63 are left.
fn horizons(files: &mut Vec<Vec<u8>>) {
    let by_two = |due: u32| vec![vec![(ORIGIN, 4000), (CHANGE, 4100)], vec![(CHANGE, 4100), (TARGET, due)]];
    for off in [-1, 0, 1] {
        for walk in [0, 2, 255] {
            let due = offset(21600, off) - 60 * u32::from(walk);
            files.push(paper([0, 0], [walk, walk, 0, 0], &by_two(due)));
        }
        let idle = (0..254).map(|i| vec![(CHANGE, i), (CHANGE, 3000)]).collect::<Vec<_>>();
        let late = vec![vec![(CHANGE, 16201)]];
        files.push(paper([0, 0], [0; 4], &[by_two(offset(16200, off)), idle, late].concat()));
        let direct = |k: u32| vec![(ORIGIN, 600 + 10 * k), (TARGET, 4200 + 10 * k.min(63))];
        files.push(paper([0, 0], [0; 4], &[(0..65).map(direct).collect(), by_two(offset(4829, off))].concat()));
    }
}
/// 60 to 66 journeys of which none beats another, then one of two rides that beats none, one, several, or is beaten; and a
/// 65th of two rides with the latest arrival 3599 to 3602.
fn lists(files: &mut Vec<Vec<u8>>) {
    for n in 60..67 {
        for (leave, due) in [(600 + 10 * n, 4200 + 10 * n), (605, 4200), (900, 4300), (890, 4500), (3000, 4200 + 10 * n - 1)] {
            let direct = |k: u32| vec![(ORIGIN, 600 + 10 * k), (TARGET, 4200 + 10 * k)];
            let two = [vec![(ORIGIN, leave), (CHANGE, leave + 10)], vec![(CHANGE, leave + 10), (TARGET, due)]];
            files.push(paper([0, 0], [0; 4], &[(0..n).map(direct).collect(), two.to_vec()].concat()));
        }
    }
    for due in 3599..3603 {
        let direct = |k: u32| vec![(ORIGIN, 600 + 10 * k), (TARGET, 2900 + 10 * k)];
        let two = [vec![(ORIGIN, 2000), (CHANGE, 2010)], vec![(CHANGE, 2010), (TARGET, due)]];
        files.push(paper([0, 0], [0; 4], &[(0..64).map(direct).collect(), two.to_vec()].concat()));
    }
}

pub fn files() -> Vec<Vec<u8>> {
    let mut files = Vec::new();
    ties(&mut files);
    targets(&mut files);
    departures(&mut files);
    horizons(&mut files);
    lists(&mut files);
    files
}
