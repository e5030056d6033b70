//! Who holds what is lent, and where the processes are.

use super::view::View;
use crate::layout::{PROCESS_WORDS, ROWS, SUBDIRECTORY, SYSTEM};

/// What the newest request that lists a row says.
#[derive(Clone, Copy, PartialEq)]
enum Listing {
    None,
    Fetched,
    Waits,
}

/// Older listings are fetched; the system holds exactly what waits.
pub fn holders_sound(t: &View) -> bool {
    let mut listings = [Listing::None; ROWS];
    for q in (0..t.request_count).rev() {
        let fetched = t.requests[3][q] == 1;
        for slot in t.items(q).iter().filter_map(|item| t.find(*item)) {
            let listing = &mut listings[slot];
            match *listing {
                Listing::None if fetched => *listing = Listing::Fetched,
                Listing::None => *listing = Listing::Waits,
                _ if fetched => {}
                _ => return false,
            }
        }
    }
    let places = t.rows[5][..t.row_count].iter();
    let mut held = places.zip(&listings);
    held.all(|(place, listing)| (*place == SYSTEM) == (*listing == Listing::Waits))
}

/// A process is in its prime node, or in the node of a subdirectory row of its c-list.
pub fn processes_placed(t: &View, p: &[u32; PROCESS_WORDS]) -> bool {
    let mut records = p.chunks_exact(3).enumerate();
    records.all(|(at, record)| {
        let (prime, active, through) = (record[0], record[1], record[2]);
        if through == 0 {
            return active == prime;
        }
        t.find(through).is_some_and(|slot| {
            let place = t.rows[5][slot] == 101 + at as u32;
            t.rows[1][slot] == SUBDIRECTORY && place && t.rows[2][slot] == active
        })
    })
}
