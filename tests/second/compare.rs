//! The comparison of the proved programs and library with the second implementation, on seeded texts.

use crate::added;
use crate::cases::{case, Case};
use crate::cover;
use crate::differences::Difference;
use crate::letters;
use crate::library;
use crate::printed::{self, Answers, MOST_INPUT};
use crate::programs::{name, piped, Programs};
use crate::promises;
use crate::questions::Questions;
use crate::reader::read;
use crate::rest::Rest;
use crate::upper;
use std::path::Path;
use std::sync::atomic::{AtomicU64, Ordering};
use std::sync::{Mutex, MutexGuard, PoisonError};
use std::thread;

/// How many texts `answers` gets at once.
const BATCH: u64 = 100;
/// Every so many texts, and of each long one, the programs get their input in two pieces.
const IN_PIECES: u64 = 50;
/// Accepted texts of so many rows or fewer, among them all tiny tables, are cut at every row.
const FEW_ROWS: usize = 12;
/// Every so many texts one with more rows is cut at every row too: with each row `answers` takes longer.
const LARGER_CUT: u64 = 20;
/// How many bytes beyond those needed most of the longer buffers for List have at most.
const MOST_SPARE: u64 = 48;
/// Every so many texts List gets a buffer for any table's list.
const LARGEST_BUFFER: u64 = 16;
/// The most bytes that List writes.
const LIST_BYTES: u64 = 41_376;

/// How many texts there were of each sort, and how many cuts of those that were cut.
#[derive(Clone, Copy, Default)]
pub struct Tally {
    pub accepted: u64,
    pub refused: u64,
    pub tiny: u64,
    pub long: u64,
    pub cut: u64,
    pub cuts: u64,
}

/// Compares so many texts of the seed with the programs in `binaries`, on all processors. Gives the tally, or tells of the
/// first difference.
pub fn compare(seed: u64, count: u64, binaries: &Path) -> Result<Tally, String> {
    let next = AtomicU64::new(0);
    let tally = Mutex::new(Tally::default());
    let differences = Mutex::new(Vec::new());
    let work = |worker: usize| -> Result<(), String> {
        let programs = Programs::new(binaries, worker)?;
        loop {
            let from = next.fetch_add(BATCH, Ordering::Relaxed);
            if from >= count {
                return Ok(());
            }
            let cases: Vec<(u64, Case)> = (from..count.min(from + BATCH))
                .map(|number| (number, case(seed, number)))
                .collect();
            match compare_batch(&programs, &cases) {
                Ok(()) => locked(&tally).add(&cases),
                Err(difference) => {
                    next.store(count, Ordering::Relaxed);
                    locked(&differences).push(difference);
                }
            }
        }
    };
    let work = &work;
    thread::scope(|scope| {
        let workers = thread::available_parallelism().map_or(1, usize::from);
        let threads: Vec<_> = (0..workers)
            .map(|worker| scope.spawn(move || work(worker)))
            .collect();
        threads
            .into_iter()
            .try_for_each(|thread| thread.join().map_err(|_| "a thread panicked")?)
    })?;
    let first = locked(&differences)
        .drain(..)
        .min_by_key(|difference: &Difference| difference.number);
    match first {
        Some(difference) => Err(difference.report(seed)),
        None => Ok(*locked(&tally)),
    }
}

/// What the lock holds.
fn locked<T>(lock: &Mutex<T>) -> MutexGuard<'_, T> {
    lock.lock().unwrap_or_else(PoisonError::into_inner)
}

impl Tally {
    /// Counts the cases.
    fn add(&mut self, cases: &[(u64, Case)]) {
        for (number, case) in cases {
            match read(&case.text) {
                Ok(_) => self.accepted += 1,
                Err(_) => self.refused += 1,
            }
            self.tiny += u64::from(case.tiny);
            self.long += u64::from(is_long(&case.text));
            let cuts = cuts(*number, &case.text).len() as u64;
            self.cut += u64::from(cuts > 0);
            self.cuts += cuts;
        }
    }
}

/// Whether the text is about as long as the longest input, or longer.
fn is_long(text: &[u8]) -> bool {
    text.len() >= MOST_INPUT - 1
}

/// The cuts of the numbered text; none if it is refused, or not one of those that are cut.
pub fn cuts(number: u64, text: &[u8]) -> Vec<&[u8]> {
    match read(text) {
        Ok(table) if table.rows.len() <= FEW_ROWS || number % LARGER_CUT == 0 => added::cuts(text),
        _ => Vec::new(),
    }
}

/// Compares everything on the numbered cases.
fn compare_batch(programs: &Programs, cases: &[(u64, Case)]) -> Result<(), Difference> {
    let answers = compare_answers(programs, cases)?;
    for ((number, case), answers) in cases.iter().zip(&answers) {
        compare_list(*number, &case.text)?;
        compare_output(*number, &programs.rowlist, &case.text, &answers.list)?;
        compare_output(*number, &programs.strike, &case.text, &answers.struck)?;
    }
    check_letters(programs, cases, &answers)?;
    check_prefixes(cases, &answers)?;
    check_added(programs, cases, &answers)?;
    check_promises(programs, cases, &answers)
}

/// Compares List of the static library.
fn compare_list(number: u64, text: &[u8]) -> Result<(), Difference> {
    let spare = if number % LARGEST_BUFFER == 0 {
        LIST_BYTES
    } else {
        1 + number % MOST_SPARE
    };
    match library::difference(text, spare as usize) {
        Some((second, proved)) => Err(Difference::between(
            number,
            "List of the static library",
            second.as_bytes(),
            proved.as_bytes(),
        )),
        None => Ok(()),
    }
}

/// Compares what the program prints of the text, which now and then comes in two pieces, with the call's answer.
fn compare_output(
    number: u64,
    program: &Path,
    text: &[u8],
    answer: &[u8],
) -> Result<(), Difference> {
    let second = printed::of_input(text, answer);
    let (one, other) = text.split_at(text.len() / 2);
    let pieces = if number % IN_PIECES == 0 || is_long(text) {
        vec![one, other]
    } else {
        vec![text]
    };
    let proved = piped(program, &pieces).map_err(|told| Difference { number, told })?;
    if proved == second {
        return Ok(());
    }
    let what = program.file_name().unwrap_or_default().to_string_lossy();
    Err(Difference::between(number, &what, second, &proved))
}

/// Compares what `answers` prints of the numbered cases, and gives it.
fn compare_answers(programs: &Programs, cases: &[(u64, Case)]) -> Result<Vec<Answers>, Difference> {
    let Some(&(number, _)) = cases.first() else {
        return Ok(Vec::new());
    };
    let printed = match programs.answers(cases.iter().map(|(_, case)| case)) {
        Ok(printed) => printed,
        Err(told) => {
            // Tried one by one, the text at fault shows.
            if cases.len() > 1 {
                for case in cases.chunks(1) {
                    compare_answers(programs, case)?;
                }
            }
            return Err(Difference { number, told });
        }
    };
    let mut rest = Rest::new(&printed);
    let mut proved = Vec::new();
    for (place, (number, case)) in cases.iter().enumerate() {
        let second = printed::answers(&name(place), &case.text, &case.questions);
        proved.push(rest.same(*number, &second)?);
    }
    rest.end(number)?;
    Ok(proved)
}

/// Compares what `answers` prints of the same texts in another case of their letters, and holds the answers against each other.
fn check_letters(
    programs: &Programs,
    cases: &[(u64, Case)],
    answers: &[Answers],
) -> Result<(), Difference> {
    let recased: Vec<(u64, Case)> = cases
        .iter()
        .map(|(number, case)| (*number, Case::of_text(&case.recased, &case.questions)))
        .collect();
    let others =
        compare_answers(programs, &recased).map_err(|difference| difference.of("recased"))?;
    for (((number, _), one), other) in cases.iter().zip(answers).zip(&others) {
        letters::check(one, other).map_err(|told| Difference {
            number: *number,
            told,
        })?;
    }
    Ok(())
}

/// Holds what is promised of Prefixes against the answers to the accepted texts.
fn check_prefixes(cases: &[(u64, Case)], answers: &[Answers]) -> Result<(), Difference> {
    for ((number, case), answers) in cases.iter().zip(answers) {
        if read(&case.text).is_ok() {
            cover::check(&case.text, &case.questions.sides, answers).map_err(|told| {
                Difference {
                    number: *number,
                    told,
                }
            })?;
        }
    }
    Ok(())
}

/// Compares what `answers` prints of the cuts of the texts, and holds the answers to each cut against those to the next, the last
/// against those to the text.
fn check_added(
    programs: &Programs,
    cases: &[(u64, Case)],
    answers: &[Answers],
) -> Result<(), Difference> {
    for ((number, case), whole) in cases.iter().zip(answers) {
        let questions = Questions {
            probes: case.questions.probes.clone(),
            ..Questions::default()
        };
        let cuts: Vec<(u64, Case)> = cuts(*number, &case.text)
            .into_iter()
            .map(|cut| (*number, Case::of_text(cut, &questions)))
            .collect();
        let cut_answers =
            compare_answers(programs, &cuts).map_err(|difference| difference.of("cut"))?;
        let next_answers = cut_answers.iter().skip(1).chain([whole]);
        for (rows, (before, after)) in cut_answers.iter().zip(next_answers).enumerate() {
            added::check(rows, &questions.probes, before, after).map_err(|told| Difference {
                number: *number,
                told,
            })?;
        }
    }
    Ok(())
}

/// Holds demand 3 against the answers on the tiny tables and on their struck texts, and what is promised of Join.
fn check_promises(
    programs: &Programs,
    cases: &[(u64, Case)],
    answers: &[Answers],
) -> Result<(), Difference> {
    let tiny: Vec<(&(u64, Case), &Answers)> = cases
        .iter()
        .zip(answers)
        .filter(|((_, case), _)| case.tiny)
        .collect();
    let struck: Vec<(u64, Case)> = tiny
        .iter()
        .map(|((number, _), answers)| {
            (
                *number,
                Case::of_text(&answers.struck, &Questions::default()),
            )
        })
        .collect();
    let after = compare_answers(programs, &struck).map_err(|difference| difference.of("struck"))?;
    check_extended(programs, &tiny)?;
    for (((number, case), before), after) in tiny.into_iter().zip(&after) {
        promises::check(&case.text, &case.questions.probes, before, after)
            .and_then(|()| upper::check(&case.text, &case.questions.couples, before))
            .map_err(|broken| Difference {
                number: *number,
                told: broken,
            })?;
    }
    Ok(())
}

/// Compares what `answers` prints of the texts with a line that Join wrote added to them, which are to be accepted.
fn check_extended(
    programs: &Programs,
    tiny: &[(&(u64, Case), &Answers)],
) -> Result<(), Difference> {
    let extended: Vec<(u64, Case)> = tiny
        .iter()
        .filter_map(|((number, case), answers)| {
            let text = upper::extended(&case.text, answers)?;
            Some((*number, Case::of_text(&text, &Questions::default())))
        })
        .collect();
    let after =
        compare_answers(programs, &extended).map_err(|difference| difference.of("extended"))?;
    for ((number, case), answers) in extended.iter().zip(&after) {
        upper::check_extended(&case.text, answers).map_err(|told| Difference {
            number: *number,
            told,
        })?;
    }
    Ok(())
}
