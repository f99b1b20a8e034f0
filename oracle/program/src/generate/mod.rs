//! Load files from a seed: one profile for each group of rules that could go wrong.
pub mod accents;
pub mod chained;
pub mod chains;
pub mod changes;
pub mod combined;
pub mod damaged;
pub mod dense;
pub mod faults;
pub mod limits;
pub mod marked;
pub mod places;
pub mod pruned;
pub mod rng;
pub mod tables;
pub mod world;
pub mod writer;

use rng::Rng;

pub type Profile = fn(&mut Rng) -> Vec<u8>;
/// Name, generator, and how many of a hundred files of `all` are drawn from it.
pub const PROFILES: &[(&str, Profile, u64)] = &[
    ("small", world::small, 4),
    ("window", world::window, 5),
    ("types", world::types, 5),
    ("days", world::days, 6),
    ("neighbours", world::neighbours, 6),
    ("ties", world::ties, 4),
    ("changes", changes::changes, 6),
    ("change-ties", changes::ties, 5),
    ("figures", changes::figures, 5),
    ("rules", places::rules, 5),
    ("halves", places::halves, 2),
    ("places", places::places, 6),
    ("names", places::names, 5),
    ("ids", places::ids, 3),
    ("accents", accents::accents, 4),
    ("list", limits::list, 2),
    ("brim", limits::brim, 1),
    ("cut", limits::cut, 1),
    ("counts", limits::counts, 1),
    ("settings", faults::settings, 2),
    ("refusals", faults::refusals, 6),
    ("damage", faults::damage, 2),
    ("after", faults::after, 2),
    ("added", faults::added, 2),
    ("paper", tables::paper, 0),
    ("full", tables::full, 0),
    ("dense", dense::dense, 3),
    ("edge", dense::edge, 2),
    ("crowd", dense::crowd, 1),
    ("chains", chains::chains, 4),
];

/// The i-th file of a profile and seed. It does not depend on the files before it.
pub fn file(profile: Profile, seed: u64, i: u64) -> Vec<u8> {
    profile(&mut Rng::new(seed ^ i.wrapping_mul(0x9e37_79b9_7f4a_7c15)))
}
pub fn find(name: &str) -> Option<Profile> {
    if name == "all" {
        return Some(all);
    }
    PROFILES.iter().find(|p| p.0 == name).map(|p| p.1)
}
fn all(rng: &mut Rng) -> Vec<u8> {
    let mut at = rng.below(100);
    for &(_, profile, share) in PROFILES {
        if at < share {
            return profile(rng);
        }
        at -= share;
    }
    world::small(rng)
}
