//! Times a display of four full lists (crate display_c): the lists made, the display dealt from them.
use std::hint::black_box;
use std::time::Instant;

#[link(name = "display_c", kind = "static")]
unsafe extern "C" {
    safe fn full_display(a: &[u16; 64], b: &[u16; 64], c: &[u16; 64], d: &[u16; 64]) -> u16;
}

const CALLS: u32 = 1000;

/// A list whose 17th journey, the first that doesn't fit, is due at `at`.
fn list(at: u16) -> [u16; 64] {
    std::array::from_fn(|i| at - 16 + i as u16)
}

fn main() {
    let rounds = std::env::args().nth(1).map_or(1001, |n| n.parse().expect("a number of rounds"));
    let window = |at| full_display(&list(at), &list(at), &list(at), &list(at));
    assert_eq!((window(4000), window(3601), window(3600)), (3999, 3600, 0));
    let (a, b, c, mut d) = (list(4000), list(5000), list(6000), list(7000));
    let mut times: Vec<u128> = (0..rounds)
        .map(|_| {
            let start = Instant::now();
            for call in 0..CALLS {
                d[63] = 7100 + (call % 100) as u16;
                black_box(full_display(black_box(&a), black_box(&b), black_box(&c), black_box(&d)));
            }
            start.elapsed().as_nanos() / CALLS as u128
        })
        .collect();
    times.sort_unstable();
    println!("a display of four lists of 64: least {} ns, median {} ns", times[0], times[times.len() / 2]);
}
