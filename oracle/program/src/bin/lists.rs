//! Compares the port's best over lists of journeys, by value and lent (the static library of crate lent_c), with the published
//! `Cache::best`. Half of the lists stand in request 09's order; of these the first that leaves in time is compared too.
use display::journey::Path;
use display::journey::harness::Lent;
use program::generate::rng::Rng;

#[rustfmt::skip]
#[link(name = "lent_c", kind = "static")]
unsafe extern "C" {
    safe fn best_over_numbers(
        leaves: &[u16; 64], arrivals: &[u16; 64], rides: &[u8; 64], walks: &[u8; 64],
        count: usize, horizon: u16, second: i64, answer: &mut [u16; 5],
    );
    safe fn best_lent_numbers(
        leaves: &[u16; 64], arrivals: &[u16; 64], rides: &[u8; 64], walks: &[u8; 64],
        count: usize, horizon: u16, second: i64, answer: &mut [u16; 5],
    );
    safe fn first_numbers(
        leaves: &[u16; 64], arrivals: &[u16; 64], rides: &[u8; 64], walks: &[u8; 64],
        count: usize, horizon: u16, second: i64, answer: &mut [u16; 5],
    );
}

#[derive(Clone, Copy, Debug, PartialEq)]
struct Figures {
    leave: u16,
    arrival: u16,
    rides: u8,
    walk: u8,
}
impl Figures {
    fn any(rng: &mut Rng) -> Self {
        let [a, b] = [rng.next(), rng.next()];
        Self { leave: a as u16, arrival: (a >> 16) as u16, rides: b as u8, walk: (b >> 8) as u8 }
    }
    fn small(rng: &mut Rng) -> Self {
        let mut below = |n| rng.below(n) as u16;
        Self { leave: below(3), arrival: below(3), rides: 1 + below(2) as u8, walk: below(2) as u8 }
    }
    fn ends(rng: &mut Rng) -> Self {
        let mut end = || rng.pick(&[0, 1, u16::MAX - 1, u16::MAX]);
        Self { leave: end(), arrival: end(), rides: end() as u8, walk: end() as u8 }
    }
    /// One figure one more or one less, or none.
    fn beside(mut self, rng: &mut Rng) -> Self {
        let by = rng.pick(&[1, u16::MAX]);
        match rng.below(5) {
            0 => self.leave = self.leave.wrapping_add(by),
            1 => self.arrival = self.arrival.wrapping_add(by),
            2 => self.rides = self.rides.wrapping_add(by as u8),
            3 => self.walk = self.walk.wrapping_add(by as u8),
            _ => {}
        }
        self
    }
    fn path(&self) -> Path {
        Path { leave: self.leave, arrival: self.arrival, len: self.rides, walk: self.walk, ..Path::default() }
    }
}

/// Unbeaten journeys as a search keeps them, each later than the one before; half of the lists in another order.
fn unbeaten(rng: &mut Rng, n: usize) -> Vec<Figures> {
    let mut list = Vec::new();
    let (mut leave, mut arrival) = (0, rng.range(1, 3000) as u16);
    for _ in 0..n {
        leave += rng.range(1, 300) as u16;
        arrival += rng.range(1, 300) as u16;
        list.push(Figures { leave, arrival, rides: rng.range(1, 2) as u8, walk: rng.range(0, 15) as u8 });
    }
    if rng.once_in(2) {
        rng.shuffle(&mut list);
    }
    list
}
const KINDS: [&str; 6] =
    ["small figures", "one to three, repeated", "one more or less in a figure", "ends of the types", "any figures", "unbeaten"];
fn journeys(rng: &mut Rng, kind: usize) -> Vec<Figures> {
    let n = match rng.below(8) {
        0 => rng.below(3) as usize,
        1 => 64,
        _ => rng.below(65) as usize,
    };
    let few: Vec<Figures> = (0..rng.range(1, 3)).map(|_| Figures::any(rng)).collect();
    if kind == 5 {
        return unbeaten(rng, n);
    }
    let one = |_| match kind {
        0 => Figures::small(rng),
        1 => rng.pick(&few),
        2 => few[0].beside(rng),
        3 => Figures::ends(rng),
        _ => Figures::any(rng),
    };
    (0..n).map(one).collect()
}
/// 0, 65535, 21600, any, or about the leave or the arrival of a journey.
fn horizon(rng: &mut Rng, list: &[Figures]) -> u16 {
    let any = rng.next() as u16;
    let near = if list.is_empty() { Figures::any(rng) } else { rng.pick(list) };
    let by = rng.pick(&[0, 1, u16::MAX]);
    rng.pick(&[0, u16::MAX, 21600, any, near.leave.wrapping_add(by), near.arrival.wrapping_add(by)])
}
/// The ends of i64, -1, 0, each leave, each leave + 1, the horizon and the horizon + 1, once each.
fn seconds(list: &[Figures], horizon: u16) -> Vec<i64> {
    let mut seconds = vec![i64::MIN, -1, 0, i64::MAX];
    for at in list.iter().map(|j| j.leave).chain([horizon]) {
        seconds.extend([i64::from(at), i64::from(at) + 1]);
    }
    seconds.sort_unstable();
    seconds.dedup();
    seconds
}

/// A list as the port is handed it; past its end stands a journey that best would take, or any.
struct Columns {
    leaves: [u16; 64],
    arrivals: [u16; 64],
    rides: [u8; 64],
    walks: [u8; 64],
    count: usize,
}
impl Columns {
    fn new(rng: &mut Rng, list: &[Figures]) -> Self {
        let best = Figures { leave: u16::MAX, arrival: 0, rides: 0, walk: 0 };
        let any = Figures::any(rng);
        let past = rng.pick(&[best, any]);
        let full = rng.pick(&[64, 65, usize::MAX]);
        let at = |i: usize| list.get(i).copied().unwrap_or(past);
        Self {
            leaves: std::array::from_fn(|i| at(i).leave),
            arrivals: std::array::from_fn(|i| at(i).arrival),
            rides: std::array::from_fn(|i| at(i).rides),
            walks: std::array::from_fn(|i| at(i).walk),
            count: if list.len() == 64 { full } else { list.len() },
        }
    }
    /// By value, lent, and the first that leaves in time; of a list not in order that is best by value once more.
    fn best(&self, horizon: u16, second: i64, ordered: bool) -> [[u16; 5]; 3] {
        let Self { leaves, arrivals, rides, walks, count } = self;
        let mut answers = [[1; 5]; 3];
        best_over_numbers(leaves, arrivals, rides, walks, *count, horizon, second, &mut answers[0]);
        best_lent_numbers(leaves, arrivals, rides, walks, *count, horizon, second, &mut answers[1]);
        let third = if ordered { first_numbers } else { best_over_numbers };
        third(leaves, arrivals, rides, walks, *count, horizon, second, &mut answers[2]);
        answers
    }
}

/// Lists; questions; without an answer; with one; of these, with a full tie; differences.
type Counts = [u64; 6];
fn print(name: &str, counts: &Counts) {
    let [lists, asked, none, found, tied, differ] = counts;
    println!("{name:<30} {lists:>9} {asked:>10} {none:>10} {found:>10} {tied:>10} {differ:>7}");
}
/// Asks a list at its seconds; what differs first is put into `first`.
fn ask(rng: &mut Rng, kind: usize, counts: &mut Counts, first: &mut Option<String>) {
    let mut list = journeys(rng, kind);
    let ordered = rng.once_in(2);
    if ordered {
        list.sort_by_key(|j| (j.arrival, j.rides, j.walk, std::cmp::Reverse(j.leave)));
    }
    let horizon = horizon(rng, &list);
    let columns = Columns::new(rng, &list);
    let paths: Vec<Path> = list.iter().map(Figures::path).collect();
    let lent = Lent::new(&paths, horizon);
    counts[0] += 1;
    for second in seconds(&list, horizon) {
        let found = lent.best(second);
        let published = found.map_or([u16::MAX, 0, 0, 0, 0], |i| {
            let j = list[i];
            [i as u16, j.leave, j.arrival, u16::from(j.rides), u16::from(j.walk)]
        });
        let port = columns.best(horizon, second, ordered);
        let tied = found.is_some_and(|i| list.iter().filter(|&&j| j == list[i]).count() > 1);
        let differs = port != [published; 3];
        counts[1] += 1;
        counts[2 + usize::from(found.is_some())] += 1;
        counts[4] += u64::from(tied);
        counts[5] += u64::from(differs);
        if differs && first.is_none() {
            *first = Some(format!(
                "{list:?} up to {horizon} at {second}: published {published:?}, by value, lent and the first {port:?}"
            ));
        }
    }
}

fn main() {
    let mut words = std::env::args().skip(1).map(|word| word.parse().expect("a number"));
    let n = words.next().unwrap_or(1_000_000);
    let seed = words.next().unwrap_or(2026);
    println!("{n} lists, seed {seed}");
    let mut rng = Rng::new(seed as u64);
    let mut counts = [[0; 6]; KINDS.len()];
    let mut first = None;
    for i in 0..n {
        let kind = i % KINDS.len();
        ask(&mut rng, kind, &mut counts[kind], &mut first);
    }
    println!(
        "{:<30} {:>9} {:>10} {:>10} {:>10} {:>10} {:>7}",
        "journeys", "lists", "asked", "none", "found", "full ties", "differ"
    );
    for (kind, counts) in KINDS.iter().zip(&counts) {
        print(kind, counts);
    }
    print("all", &std::array::from_fn(|i| counts.iter().map(|count| count[i]).sum()));
    if let Some(first) = &first {
        println!("the first that differs: {first}");
    }
    std::process::exit(i32::from(first.is_some()))
}
