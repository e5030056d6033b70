//! Longer random runs: `long CALLS SEED` checks that many calls and prints how
//! often each answer was seen.

use model::check::{session, Tally};
use model::random::{Profile, PROFILES};

/// Calls in one session; the full profile needs many.
fn length(profile: Profile) -> usize {
    match profile {
        Profile::Full => 1600,
        _ => 200,
    }
}

fn main() -> Result<(), String> {
    let arguments: Vec<String> = std::env::args().skip(1).collect();
    let number = |at: usize| arguments.get(at).and_then(|a| a.parse::<u64>().ok());
    let (Some(calls), Some(first)) = (number(0), number(1)) else {
        return Err("usage: long CALLS SEED".to_string());
    };
    let mut tally = Tally::new();
    let mut seed = first;
    while tally.values().sum::<u64>() < calls {
        // One session in 200 is a full one.
        let profile = match seed % 200 {
            0 => Profile::Full,
            n => PROFILES[n as usize % 5],
        };
        session(seed, profile, length(profile), &mut tally)
            .map_err(|e| format!("seed {seed}, {profile:?}: {e}"))?;
        seed += 1;
    }
    println!(
        "{} calls, seeds {first} to {}",
        tally.values().sum::<u64>(),
        seed - 1
    );
    for (k, count) in &tally {
        let name = if *k == 0 {
            "ok".to_string()
        } else {
            format!("no {k}")
        };
        println!("{name}: {count}");
    }
    Ok(())
}
