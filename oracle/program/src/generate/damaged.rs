//! Files that are malformed in each way that request 01 names, and at each place in its order.
use super::writer::{Call, Rule, Settings, Stop, record};

fn settings(origins: usize) -> Settings {
    Settings { origin_walks: vec![0; origins], target_walks: vec![0], max_transfers: 1, ..Settings::default() }
}
/// A record with its fields changed, its length made to fit.
fn changed(whole: Vec<u8>, change: impl FnOnce(&mut Vec<u8>)) -> Vec<u8> {
    let mut fields = whole[3..].to_vec();
    change(&mut fields);
    record(whole[2], &fields)
}
fn file(parts: &[Vec<u8>]) -> Vec<u8> {
    [vec![1], parts.concat()].concat()
}
/// A byte too few or too many in each record, and optional bytes of 2.
fn unfilled(open: &[u8], stop: &[u8], search: &[u8]) -> Vec<Vec<u8>> {
    let call = Call { arrival: Some(600), departure: Some(600), ..Call::default() }.record();
    let rule = Rule { seconds: Some(60), transfer_type: 2, ..Rule::default() }.record();
    let parts = |last| file(&[open.to_vec(), stop.to_vec(), last]);
    let mut files = Vec::new();
    for whole in [stop, &call, &rule, search] {
        files.push(parts(changed(whole.to_vec(), |fields| fields.push(0))));
        if whole.len() > 3 {
            files.push(parts(changed(whole.to_vec(), |fields| fields.truncate(fields.len() - 1))));
        }
    }
    for (whole, places) in [(stop, vec![2, 3, 5]), (&call, vec![9, 14]), (&rule, vec![5])] {
        for at in places {
            files.push(parts(changed(whole.to_vec(), |fields| fields[at] = 2)));
        }
    }
    files
}

pub fn files() -> Vec<Vec<u8>> {
    let open = settings(1).record();
    let search = record(5, &[]);
    let stop = Stop { id: b"a".to_vec(), ..Stop::default() }.record();
    let late = Stop { id: vec![], ..Stop::default() }.record();
    let mut files = vec![vec![], vec![0], vec![3], vec![255, 0, 0]];
    // Another version before anything else.
    files.extend([0, 3].map(|version| [vec![version], open.clone(), search.clone()].concat()));
    // No record; a length that is 0, is cut, or runs past the end; the first record of another kind.
    files.extend([vec![], vec![0], vec![0, 0], vec![0, 1], vec![0, 2, 1], vec![255, 255, 1]].map(|rest| file(&[rest])));
    files.extend([0, 2, 3, 4, 5, 6, 255].map(|kind| file(&[record(kind, &[])])));
    files.extend([search.clone(), stop.clone(), [&open[..], &[0]].concat()].map(|first| file(&[first, open.clone()])));
    // The same after the settings; an unknown kind with fields, a second settings with too few.
    for rest in
        [vec![0], vec![0, 0], vec![0, 9, 5], record(0, &[]), record(6, &[7, 7]), vec![0, 9, 6], open.clone(), record(1, &[])]
    {
        files.push(file(&[open.clone(), rest]));
    }
    files.extend(unfilled(&open, &stop, &search));
    // Walks as many as the count says; a record's own 18 before 1; what follows a refusal is not looked at.
    files.push(file(&[changed(open.clone(), |fields| fields[0] = 2)]));
    files.push(file(&[changed(settings(5).record(), |fields| fields.truncate(fields.len() - 1))]));
    files.extend([vec![], vec![0, 0]].map(|rest| file(&[settings(5).record(), rest])));
    files.push(file(&[open.clone(), late, vec![0, 0]]));
    // After a search the record's own 18 comes before 15.
    files.push(file(&[open.clone(), search.clone(), record(5, &[0])]));
    files.push(file(&[open.clone(), search.clone(), search.clone(), vec![0]]));
    files.push(file(&[open, search]));
    files
}
