//! Tables with the times of the calls on them.

use crate::clock::in_turn;
use crate::library::{Call, Text, CALLS, OUT_BYTES};
use crate::table::Table;
use std::time::Duration;

/// A table and its text, and the times of each call here and in the second implementation.
pub struct Measured {
    pub name: &'static str,
    pub table: Table,
    pub text: Text,
    pub times: [[Duration; 2]; CALLS.len()],
}

impl Measured {
    /// The time of List here.
    pub fn list(&self) -> Duration {
        self.times[Call::List as usize][0]
    }
}

/// Times the calls on the table's text. Both sides are to answer the same.
pub fn measure(name: &'static str, table: Table) -> Measured {
    let text = Text::of(&table);
    let times = CALLS.map(|call| {
        let [mut out_here, mut out_second] = [(); 2].map(|()| vec![0; OUT_BYTES]);
        let (mut here, mut second) = (0, Ok(0));
        let mut call_here = || here = text.here(call, &mut out_here);
        let mut call_second = || second = text.second(call, &mut out_second);
        let times = in_turn([&mut call_here, &mut call_second]);
        assert_eq!((Ok(here), out_here), (second, out_second), "{name}");
        times
    });
    Measured {
        name,
        table,
        text,
        times,
    }
}
