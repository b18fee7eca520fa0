//! List of the static library, called as C calls it.

use crate::calls::{write, Reading};
use crate::frames::digits;
use crate::table::Refusal;

/// Bytes before and behind a lent buffer that nobody may touch.
const GUARD: usize = 64;

extern "C" {
    fn lainukesk_list(text: *const u8, text_length: usize, out: *mut u8, out_length: usize) -> u64;
}

/// Calls List with buffers that are empty, short by one, exact and longer by `spare`, and says what the second
/// implementation and the library leave behind where they differ.
pub fn difference(text: &[u8], spare: usize) -> Option<(String, String)> {
    let list = Reading::of(text).list();
    let needed = list.as_ref().map_or(0, |entries| 3 * entries.len());
    let mut lengths = vec![0, needed.saturating_sub(1), needed, needed + spare];
    lengths.dedup();
    for length in lengths {
        let mut expected = untouched(length);
        let answer = list.as_ref().map_err(|&refusal| refusal);
        let answer = answer.and_then(|entries| {
            write(&entries.concat(), &mut expected[GUARD..GUARD + length])?;
            Ok(entries.len())
        });
        let mut got = untouched(length);
        let lent = &mut got[GUARD..GUARD + length];
        // The slices are not null and have the lengths given.
        let returned =
            unsafe { lainukesk_list(text.as_ptr(), text.len(), lent.as_mut_ptr(), length) };
        if returned != packed(answer) || got != expected {
            return Some((
                left_behind(length, packed(answer), &expected),
                left_behind(length, returned, &got),
            ));
        }
    }
    None
}

/// A buffer of the length between its guards, each byte unlike its neighbours.
fn untouched(length: usize) -> Vec<u8> {
    (0..length + 2 * GUARD).map(|at| (at % 251) as u8).collect()
}

/// The number that List returns to C.
fn packed(answer: Result<usize, Refusal>) -> u64 {
    match answer {
        Ok(count) => count as u64,
        Err(refusal) => 65_536 * refusal.number as u64 + refusal.line as u64,
    }
}

/// A call's return and the bytes with their guards, for reading.
fn left_behind(length: usize, returned: u64, bytes: &[u8]) -> String {
    format!(
        "buffer of {length}: returns {returned}, bytes with {GUARD} more at each end\n{}\n",
        String::from_utf8_lossy(&digits(bytes))
    )
}
