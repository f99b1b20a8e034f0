//! Fixed files of request 10: journeys of three rides, where each join, bar, order, bound and limit turns, a second before and after.
use super::writer::{Call, Settings, Step, Stop, file};

const ORIGIN: u16 = 0;
const SECOND: u16 = 1;
const NEAR: u16 = 2;
const FAR: u16 = 3;
const TARGET: u16 = 4;
const FARTHER: u16 = 5;

/// A trip that calls at each stop at one second.
type Trip = Vec<(u16, u32)>;

fn calls(trips: &[Trip]) -> Vec<Call> {
    let mut found = Vec::new();
    for (trip, calls) in trips.iter().enumerate() {
        for (k, &(stop, at)) in calls.iter().enumerate() {
            let (trip, sequence) = (trip as u16, k as u32);
            found.push(Call { trip, sequence, stop, arrival: Some(at), departure: Some(at), ..Call::default() });
        }
    }
    found
}
/// Two origins, two change stops, and two target stops: one of targets 0 and 1, one of 2 and 3.
fn of_calls(settings: Settings, calls: Vec<Call>) -> Vec<u8> {
    let stop = |id: &str, members| Step::Stop(Stop { id: id.into(), members, ..Stop::default() });
    let mut steps = vec![stop("a", 1), stop("c", 2), stop("m", 0), stop("n", 0), stop("x", 0x30), stop("y", 0xc0)];
    steps.extend(calls.into_iter().map(Step::Call));
    steps.push(Step::Search);
    file(&settings, &steps)
}
fn settings(origin_walks: [u8; 2], target_walks: [u8; 4]) -> Settings {
    let (origin_walks, target_walks) = (origin_walks.to_vec(), target_walks.to_vec());
    Settings { origin_walks, target_walks, max_transfers: 2, ..Settings::default() }
}
fn paper(trips: &[Trip]) -> Vec<u8> {
    of_calls(settings([0; 2], [0; 4]), calls(trips))
}
fn offset(at: u32, by: i32) -> u32 {
    at.wrapping_add_signed(by)
}
/// Leaves at 600, due at 2000.
fn chain() -> Vec<Trip> {
    vec![vec![(ORIGIN, 600), (NEAR, 900)], vec![(NEAR, 1000), (FAR, 1300)], vec![(FAR, 1400), (TARGET, 2000)]]
}

/// The settings 0 to 3; each join with a change time of a minute, a second short and just met; one trip where two would join.
fn joins(files: &mut Vec<Vec<u8>>) {
    for max_transfers in 0..4 {
        files.push(of_calls(Settings { max_transfers, ..settings([0; 2], [0; 4]) }, calls(&chain())));
    }
    for (first, last) in [(960, 1360), (959, 1360), (960, 1359), (961, 1361)] {
        let trips = [chain()[0].clone(), vec![(NEAR, first), (FAR, 1300)], vec![(FAR, last), (TARGET, 2000)]];
        files.push(of_calls(Settings { transfer_minutes: 1, ..settings([0; 2], [0; 4]) }, calls(&trips)));
    }
    // The middle ride starts, or ends, elsewhere; of one trip are the first and the last, the first and the middle, the other two.
    files.push(paper(&[chain()[0].clone(), vec![(FAR, 1000), (FAR, 1300)], chain()[2].clone()]));
    files.push(paper(&[chain()[0].clone(), vec![(NEAR, 1000), (NEAR, 1300)], chain()[2].clone()]));
    files.push(paper(&[vec![(ORIGIN, 600), (NEAR, 900), (FAR, 1400), (TARGET, 2000)], chain()[1].clone()]));
    files.push(paper(&[vec![(ORIGIN, 600), (NEAR, 900), (NEAR, 1000), (FAR, 1300)], chain()[2].clone()]));
    files.push(paper(&[chain()[0].clone(), vec![(NEAR, 1000), (FAR, 1300), (FAR, 1400), (TARGET, 2000)]]));
}
/// Each call of the chain without boarding, without alighting, and on request.
fn bars(files: &mut Vec<Vec<u8>>) {
    for at in 0..6 {
        for (pickup, drop_off) in [(1, 0), (0, 1), (2, 3)] {
            let mut calls = calls(&chain());
            (calls[at].pickup, calls[at].drop_off) = (pickup, drop_off);
            files.push(of_calls(settings([0; 2], [0; 4]), calls));
        }
    }
}
/// A journey of three rides, leaving at 600 and due at 2000 with walk 5, after a kept one whose leave, arrival and walk are each one
/// less, the same or one more, by one ride, by two and by three.
fn ties(files: &mut Vec<Vec<u8>>) {
    let near = [-1, 0, 1];
    for (leave, arrival, walk) in near.iter().flat_map(|&l| near.iter().flat_map(move |&a| near.map(|w| (l, a, w)))) {
        let walks = [5, offset(5, walk) as u8];
        let (departure, due) = (offset(600, leave) + 60 * u32::from(walks[1]), offset(2000, arrival));
        let offered = vec![vec![(ORIGIN, 900), (NEAR, 1500)], vec![(NEAR, 1500), (FAR, 1600)], vec![(FAR, 1600), (TARGET, 2000)]];
        let kept = [
            vec![vec![(SECOND, departure), (TARGET, due)]],
            vec![vec![(SECOND, departure), (FAR, 1590)], vec![(FAR, 1590), (TARGET, due)]],
            vec![vec![(SECOND, departure), (NEAR, 1400)], vec![(NEAR, 1400), (FAR, 1590)], vec![(FAR, 1590), (TARGET, due)]],
        ];
        for kept in kept {
            files.push(of_calls(settings(walks, [0; 4]), calls(&[kept, offered.clone()].concat())));
        }
    }
}
/// Equal journeys: which first, middle and last ride is offered first; the origin and the target; then a middle ride with two ends, and
/// rides that board on the way.
fn orders(files: &mut Vec<Vec<u8>>) {
    // The first first ride joins the second middle ride alone, the first middle ride the second last ride.
    let firsts = vec![vec![(ORIGIN, 600), (NEAR, 950)], vec![(ORIGIN, 600), (NEAR, 900)]];
    let middles = vec![vec![(NEAR, 920), (FAR, 1300)], vec![(NEAR, 980), (FAR, 1300)]];
    let lasts = vec![vec![(FAR, 1400), (TARGET, 2000)], vec![(FAR, 1400), (TARGET, 2000)]];
    files.push(paper(&[firsts.clone(), middles.clone(), lasts.clone()].concat()));
    files.push(paper(&[lasts.clone(), middles.clone(), firsts.clone()].concat()));
    files.push(paper(&[middles, lasts, firsts].concat()));
    let middles = vec![vec![(NEAR, 920), (FAR, 1350)], vec![(NEAR, 920), (FAR, 1300)]];
    let lasts = vec![vec![(FAR, 1320), (TARGET, 2000)], vec![(FAR, 1400), (TARGET, 2000)]];
    files.push(paper(&[vec![vec![(ORIGIN, 600), (NEAR, 900)]], middles, lasts].concat()));
    let mut both = settings([5, 5], [2, 2, 2, 2]);
    for members in [3, 2] {
        let stop = |id: &str, members| Step::Stop(Stop { id: id.into(), members, ..Stop::default() });
        let stops = [stop("a", members), stop("c", 0), stop("m", 0), stop("n", 0), stop("x", 0xa0)];
        let steps = stops.into_iter().chain(calls(&chain()).into_iter().map(Step::Call)).chain([Step::Search]);
        files.push(file(&both, &steps.collect::<Vec<_>>()));
    }
    both.target_walks = vec![9, 4, 5, 5];
    let last = vec![(FAR, 1400), (TARGET, 1700), (FARTHER, 1700), (TARGET, 1800)];
    files.push(of_calls(both, calls(&[chain()[0].clone(), chain()[1].clone(), last])));
    let way = vec![(ORIGIN, 600), (SECOND, 700), (NEAR, 900), (NEAR, 950)];
    files.push(paper(&[
        way,
        vec![(NEAR, 920), (NEAR, 1000), (FAR, 1300), (FAR, 1350)],
        vec![(FAR, 1320), (FAR, 1400), (TARGET, 2000)],
    ]));
}
/// Due at the horizon, a second before and after it, also with a walk; a kept direct journey between what two targets give.
fn ends(files: &mut Vec<Vec<u8>>) {
    for off in [-1, 0, 1] {
        for walk in [0, 2, 255] {
            let due = offset(21600, off) - 60 * u32::from(walk);
            let trips = [chain()[0].clone(), chain()[1].clone(), vec![(FAR, 1400), (TARGET, due)]];
            files.push(of_calls(settings([0; 2], [walk, walk, 0, 0]), calls(&trips)));
        }
    }
    for walks in [[10, 0, 5, 5], [0, 10, 5, 5], [9, 8, 255, 0], [9, 8, 0, 255]] {
        for kept in [1560, 1561, 2100, 2101] {
            let direct = vec![(ORIGIN, 600), (FARTHER, kept - 60 * u32::from(walks[2].min(walks[3])))];
            let last = vec![(FAR, 1400), (TARGET, 1500), (FARTHER, 1560)];
            files.push(of_calls(settings([0; 2], walks), calls(&[vec![direct], chain()[..2].to_vec(), vec![last]].concat())));
        }
    }
}
/// Lists of 63 to 65 by direct rides with a journey of three rides that is one more, beats one or several, or is beaten by a later
/// direct ride; the latest arrival about 3600.
fn lists(files: &mut Vec<Vec<u8>>) {
    let three = |leave: u32, due: u32| {
        vec![
            vec![(ORIGIN, leave), (NEAR, leave + 5)],
            vec![(NEAR, leave + 5), (FAR, leave + 9)],
            vec![(FAR, leave + 9), (TARGET, due)],
        ]
    };
    let direct = |k: u32| vec![(ORIGIN, 600 + 10 * k), (TARGET, 4200 + 10 * k)];
    for (n, leave, due) in [(63, 1230, 4830), (64, 1240, 4840), (65, 1250, 4850), (64, 605, 4200), (64, 905, 4300)] {
        let list = (0..n).map(direct).collect::<Vec<_>>();
        files.push(paper(&[list.clone(), three(leave, due)].concat()));
        files.push(paper(&[three(leave, due), list].concat()));
    }
    // One that a direct ride offered later beats, which also beats one of the 64: no 65th.
    let list = (0..64).map(direct).collect::<Vec<_>>();
    let better = vec![vec![(ORIGIN, 906), (TARGET, 4505)]];
    files.push(paper(&[three(905, 4506), list.clone(), better.clone()].concat()));
    files.push(paper(&[list, better, three(905, 4506)].concat()));
    // One that is a 65th, and one that beats it and one of the 64, offered after it by first rides and before it by middle rides (as the
    // Rust goes), and the other way round.
    let list = (0..64).map(direct).collect::<Vec<_>>();
    let [one, other] = [vec![(ORIGIN, 905), (NEAR, 950)], vec![(ORIGIN, 906), (NEAR, 911)]];
    let middles = vec![vec![(NEAR, 911), (FAR, 915)], vec![(NEAR, 950), (FAR, 960)]];
    let lasts = vec![vec![(FAR, 915), (TARGET, 4499)], vec![(FAR, 960), (TARGET, 4506)]];
    files.push(paper(&[vec![one, other], middles, lasts, list.clone()].concat()));
    let [one, other] = [three(905, 4506), three(906, 4499)];
    let chains = vec![other[0].clone(), one[0].clone(), one[1].clone(), other[1].clone(), one[2].clone(), other[2].clone()];
    files.push(paper(&[chains, list].concat()));
    for due in 3599..3603 {
        let direct = |k: u32| vec![(ORIGIN, 600 + 10 * k), (TARGET, 2900 + 10 * k)];
        files.push(paper(&[(0..64).map(direct).collect(), three(2000, due)].concat()));
    }
}

pub fn files() -> Vec<Vec<u8>> {
    let mut files = Vec::new();
    joins(&mut files);
    bars(&mut files);
    ties(&mut files);
    orders(&mut files);
    ends(&mut files);
    lists(&mut files);
    files
}
