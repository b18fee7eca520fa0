//! Climbing from a table, by small changes, to others that cost more: more values tried, more blocks examined, or more time.

use crate::grid::Grid;
use crate::library::{Call, Text, OUT_BYTES};
use crate::moves::change;
use crate::random::Random;
use crate::table::{Row, Table};
use crate::{meshes, tables, worst};
use std::time::{Duration, Instant};

/// How many changes make the next table.
const CHANGES: (usize, usize) = (1, 3);
/// The next table is gone on from if it costs at least so many times what the peak does, as far as times can be told apart; and from
/// so many times on it is the new peak.
const ENOUGH: f64 = 0.99;
const GAIN: f64 = 1.03;
/// How many tables in a row are tried without a new peak before the climb ends, and without one to go on from before it goes on
/// from the peak again.
const PATIENCE: usize = 3000;
const BACK: usize = 64;
/// Every so many tables the peak is timed again: timed while the machine was slow, it would keep out all others.
const TIME_AGAIN: usize = 16;
/// How often List is called to compare tables, and to tell a new peak; and after what time no more.
const TURNS: usize = 8;
const GAIN_TURNS: usize = 24;
const LONG: Duration = Duration::from_millis(8);

/// What a table costs.
#[derive(Clone, Copy, PartialEq, Eq)]
pub enum Cost {
    /// How many values are tried in Rust to tell which of its rows are dead.
    Values,
    /// How many blocks are examined in Rust for the mesh of its last row.
    Blocks,
    /// The seconds of List.
    Time,
}

/// The holder of all rows, or none where each is its source's; the entities that sources and destinations are drawn from; how many
/// changes of a hundred are of a row's ends; and whether the last row stays as it is.
pub struct Ends {
    pub holder: Option<u8>,
    pub sources: &'static [usize],
    pub destinations: &'static [usize],
    pub percent: usize,
    pub last_stays: bool,
}

/// A table and its text, the grid that its changes are drawn from, and its cost.
#[derive(Clone)]
pub struct Tried {
    table: Table,
    pub text: Text,
    grid: Grid,
    pub cost: f64,
}

/// What climbs have in common.
pub struct Climber {
    pub random: Random,
    ends: Ends,
    out: Vec<u8>,
    /// How many tables were tried.
    pub tried: u64,
}

impl Climber {
    pub fn new(seed: u64, ends: Ends) -> Climber {
        Climber {
            random: Random::new(seed),
            ends,
            out: vec![0; OUT_BYTES],
            tried: 0,
        }
    }

    /// The lawful table, tried; none if Check refuses it.
    pub fn tried(&mut self, table: Table, grid: Grid, by: Cost) -> Option<Tried> {
        let text = Text::of(&table);
        if text.here(Call::Check, &mut []) != 0 {
            return None;
        }
        self.tried += 1;
        let mut tried = Tried {
            table,
            text,
            grid,
            cost: 0.0,
        };
        tried.cost = self.cost(&tried, by);
        Some(tried)
    }

    /// What the table costs, by one call of List where it is time.
    fn cost(&mut self, tried: &Tried, by: Cost) -> f64 {
        match by {
            Cost::Values => worst::dead_values(&tried.table).iter().sum::<u64>() as f64,
            Cost::Blocks => meshes::blocks(&tried.table, tried.text.rows - 1) as f64,
            Cost::Time => {
                let start = Instant::now();
                tried.text.here(Call::List, &mut self.out);
                start.elapsed().as_secs_f64()
            }
        }
    }

    /// Times List on the tables anew: the least of several calls in turn.
    pub fn time<'t>(&mut self, tables: impl IntoIterator<Item = &'t mut Tried>) {
        let mut tables: Vec<&mut Tried> = tables.into_iter().collect();
        let begin = Instant::now();
        for turn in 0..TURNS {
            for tried in &mut tables {
                let seconds = self.cost(tried, Cost::Time);
                tried.cost = if turn == 0 {
                    seconds
                } else {
                    seconds.min(tried.cost)
                };
            }
            if begin.elapsed() > LONG {
                break;
            }
        }
    }

    /// The table after so many changes; none if it is the same or Check refuses it.
    pub fn changed(&mut self, from: &Tried, changes: (usize, usize), by: Cost) -> Option<Tried> {
        let mut table = from.table.clone();
        let rows = &mut table.rows;
        let last = rows.pop_if(|_| self.ends.last_stays);
        for _ in 0..self.random.between(changes.0, changes.1) {
            if self.random.chance(self.ends.percent) {
                let row = self.random.below(rows.len());
                rows[row] = self.with_ends(&rows[row]);
            } else {
                change(&mut self.random, &from.grid, rows);
            }
        }
        rows.extend(last);
        if table.rows == from.table.rows {
            return None;
        }
        self.tried(table, from.grid.clone(), by)
    }

    /// The row with other ends.
    pub fn with_ends(&mut self, row: &Row) -> Row {
        let source = self.random.pick(self.ends.sources);
        let destination = self.random.pick(self.ends.destinations);
        let other = tables::row(source, destination, row.selector);
        Row {
            holder: self.ends.holder.unwrap_or(other.holder),
            ..other
        }
    }

    /// Climbs from the table until there is no new peak for long or the time is over, and gives the peak.
    pub fn climb(&mut self, start: Tried, by: Cost, end: Instant) -> Tried {
        let mut peak = start;
        peak.cost = self.cost(&peak, by);
        let mut present = peak.clone();
        let (mut since_peak, mut since_step) = (0, 0);
        while since_peak < PATIENCE && Instant::now() < end {
            since_peak += 1;
            since_step += 1;
            if since_step > BACK {
                present = peak.clone();
                since_step = 0;
            }
            if since_peak % TIME_AGAIN == 0 {
                peak.cost = peak.cost.min(self.cost(&peak, by));
            }
            let Some(mut next) = self.changed(&present, CHANGES, by) else {
                continue;
            };
            let gain = self.gain(&mut next, &mut peak, by);
            if gain < ENOUGH {
                continue;
            }
            since_step = 0;
            if gain >= GAIN {
                since_peak = 0;
                peak = next.clone();
            }
            present = next;
        }
        peak
    }

    /// How many times what the peak costs the next table does. Where it is time, both are called in turn as long as the next seems
    /// enough, and longer where it seems a gain, so that no slow call passes for one.
    fn gain(&mut self, next: &mut Tried, peak: &mut Tried, by: Cost) -> f64 {
        let mut gain = next.cost / peak.cost;
        if by != Cost::Time {
            return gain;
        }
        for (least, turns) in [(ENOUGH, TURNS), (GAIN, GAIN_TURNS)] {
            if gain < least {
                break;
            }
            let mut of_peak = f64::INFINITY;
            let begin = Instant::now();
            for _ in 0..turns {
                next.cost = next.cost.min(self.cost(next, by));
                of_peak = of_peak.min(self.cost(peak, by));
                if next.cost < least * peak.cost || begin.elapsed() > LONG {
                    break;
                }
            }
            peak.cost = peak.cost.min(of_peak);
            gain = next.cost / of_peak;
        }
        gain
    }
}
