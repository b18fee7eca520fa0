//! The table of a text: entities, caps, floor, filters and rows.

use std::ops::Range as Place;

/// Number of a packet's fields.
pub const FIELDS: usize = 5;
/// Bytes of each field: two addresses, two ports, the protocol.
pub const WIDTHS: [usize; FIELDS] = [4, 4, 2, 2, 1];
/// The parent byte of a root, and the second number of an anomaly of one row.
pub const NONE: u8 = 0xFF;

/// Five field values, compared field by field.
pub type Packet = [u32; FIELDS];
/// Header integrity, payload integrity, confidentiality.
pub type Coefficients = [u8; 3];

/// The values from `low` to `high`, both included.
#[derive(Clone, Copy, Debug, PartialEq, Eq)]
pub struct Range {
    pub low: u32,
    pub high: u32,
}

/// One range for each field of a packet.
pub type Selector = [Range; FIELDS];

/// An entity frame.
#[derive(Clone, Debug, PartialEq, Eq)]
pub struct Entity {
    pub parent: u8,
    pub layer: u8,
    pub mask: u8,
}

/// What a root does with the packets of a filter, numbered as in the frame.
#[derive(Clone, Copy, Debug, PartialEq, Eq)]
pub enum Action {
    Drop = 0,
    Pass = 1,
}

/// A filter frame: the root drops the packets of the selector, or passes them.
#[derive(Clone, Debug, PartialEq, Eq)]
pub struct Filter {
    pub root: u8,
    pub selector: Selector,
    /// The action, where the frame has its byte.
    pub written: Option<Action>,
}

impl Filter {
    /// What the root does with the packets: it drops them where the frame has no action.
    pub fn action(&self) -> Action {
        self.written.unwrap_or(Action::Drop)
    }
}

/// A row frame.
#[derive(Clone, Debug, PartialEq, Eq)]
pub struct Row {
    pub holder: u8,
    pub source: u8,
    pub destination: u8,
    pub technology: u8,
    pub coefficients: Coefficients,
    pub selector: Selector,
    pub gateways: Vec<u8>,
}

/// What a text says, with the place of each row's line in it.
#[derive(Clone, Debug, Default, PartialEq, Eq)]
pub struct Table {
    pub entities: Vec<Entity>,
    pub caps: Vec<Coefficients>,
    pub floor: Option<Coefficients>,
    pub filters: Vec<Filter>,
    pub rows: Vec<Row>,
    pub row_places: Vec<Place<usize>>,
}

/// Why a call gives no result: the documents' number, and the line or 0.
#[derive(Clone, Copy, Debug, PartialEq, Eq)]
pub struct Refusal {
    pub number: usize,
    pub line: usize,
}
