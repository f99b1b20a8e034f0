//! Prints the journeys of a load file as `show` does, and the best at a second if one is given.
//! usage: list FILE [SECOND]      the exit status is 1 if the file is refused, 2 if it can't be read
use std::process::ExitCode;
use timetable::{Journey, List};

fn print_journey(journey: &Journey) {
    let Journey { leave, arrival, walk, origin, target, .. } = journey;
    println!("journey {leave} {arrival} {} {walk} {origin} {target}", journey.rides().len());
}

fn print_list(list: &List) {
    list.journeys().iter().for_each(print_journey);
    println!("horizon {} limits {}", list.horizon(), u8::from(list.is_cut()));
}

fn print_best(list: &List, second: i64) {
    match list.best(second) {
        Ok(Some(best)) => {
            println!("best from {second}:");
            print_journey(&best);
            for ride in &best {
                println!(
                    "  trip {} day {}: stop {} at {} > stop {} at {}",
                    ride.trip, ride.day, ride.from, ride.departure, ride.to, ride.arrival
                );
            }
        }
        Ok(None) => println!("best from {second}: none"),
        Err(no_list) => println!("best from {second}: {no_list}"),
    }
}

fn main() -> ExitCode {
    let words: Vec<String> = std::env::args().skip(1).collect();
    let (path, second) = match &words[..] {
        [path] => (path, None),
        [path, second] => (path, Some(second.parse().unwrap_or(0))),
        _ => {
            eprintln!("usage: list FILE [SECOND]");
            return ExitCode::from(2);
        }
    };
    let file = match std::fs::read(path) {
        Ok(file) => file,
        Err(fault) => {
            eprintln!("{path}: {fault}");
            return ExitCode::from(2);
        }
    };
    match List::read(&file) {
        Ok(list) => {
            print_list(&list);
            second.inspect(|&second| print_best(&list, second));
            ExitCode::SUCCESS
        }
        Err(refusal) => {
            println!("refused {}", refusal.number());
            ExitCode::FAILURE
        }
    }
}
