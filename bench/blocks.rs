//! The product's mesh of a row written once more in Rust, for the same pace in the same run, and to count the blocks that are examined.

use crate::search::{Bounds, Number};

const FIELDS: usize = 5;
/// How many intervals a field has at most: 63 boxes cut it in 126 places.
const MOST_INTERVALS: usize = 127;
/// How often the way from a block's first cell to its end is halved until nothing is left of it.
const HALVINGS: usize = 8;

/// A cell, by the number of its interval in each field.
type Cell = [usize; FIELDS];

/// The boxes that have each interval of each field, as bits, the one at place k for box k.
struct Mesh {
    sets: [[u64; MOST_INTERVALS]; FIELDS],
    /// How many intervals the fields have.
    counts: Cell,
    /// How many blocks were examined.
    examined: u64,
}

/// The least packet of the row that no box has, and how many blocks were examined. There are at most 63 boxes.
pub fn mesh(row: &Bounds, boxes: &[Bounds]) -> (Option<[Number; FIELDS]>, u64) {
    let mut mesh = Mesh::new(row, boxes);
    let none = [mesh.counts[0], 0, 0, 0, 0];
    let cell = mesh.least([0; FIELDS], mesh.counts, none);
    let packet = || [0, 1, 2, 3, 4].map(|field| nth_cut(row, boxes, field, cell[field]));
    ((cell != none).then(packet), mesh.examined)
}

impl Mesh {
    fn new(row: &Bounds, boxes: &[Bounds]) -> Mesh {
        let mut mesh = Mesh {
            sets: [[0; MOST_INTERVALS]; FIELDS],
            counts: [0; FIELDS],
            examined: 0,
        };
        for (field, &(low, high)) in row.iter().enumerate() {
            let mut cut = Some(low);
            while let Some(value) = cut {
                let place = mesh.counts[field];
                mesh.sets[field][place] = holding(boxes, field, value);
                mesh.counts[field] += 1;
                cut = next_cut(boxes, field, value, high);
            }
        }
        mesh
    }

    /// The first cell of the block that no box has, if it is before `best`, else `best`. A block has the cells from `lo` on, in each field
    /// up to `hi` and without it.
    fn least(&mut self, lo: Cell, hi: Cell, best: Cell) -> Cell {
        self.examined += 1;
        if lo >= best {
            return best;
        }
        let boxes = self.claiming(lo);
        if boxes == 0 {
            return lo;
        }
        self.rest(lo, hi, best, self.chosen(hi, self.far(lo, hi, boxes)))
    }

    /// Those of the boxes that have the block's middle as well; or, where none has, what is halfway there, and so on.
    fn far(&self, lo: Cell, hi: Cell, boxes: u64) -> u64 {
        let mut cell = hi;
        for _ in 0..HALVINGS {
            for (place, first) in cell.iter_mut().zip(lo) {
                *place = first + (*place - first) / 2;
            }
            let both = boxes & self.claiming(cell);
            if both != 0 {
                return both;
            }
        }
        boxes
    }

    /// The boxes that have the cell.
    fn claiming(&self, cell: Cell) -> u64 {
        (0..FIELDS).fold(u64::MAX, |boxes, f| boxes & self.sets[f][cell[f]])
    }

    /// Some of the boxes: field by field those of them that go on to the end of the block, where there are any.
    fn chosen(&self, hi: Cell, boxes: u64) -> u64 {
        (0..FIELDS).fold(boxes, |some, f| match some & self.sets[f][hi[f] - 1] {
            0 => some,
            lasting => lasting,
        })
    }

    /// The same of a block whose first cell these boxes have: what they leave is a block for each field.
    fn rest(&mut self, lo: Cell, mut hi: Cell, mut best: Cell, boxes: u64) -> Cell {
        for field in (0..FIELDS).rev() {
            let ends = |&place: &usize| self.sets[field][place] & boxes != boxes;
            if let Some(end) = (lo[field] + 1..hi[field]).find(ends) {
                let mut past = lo;
                past[field] = end;
                best = self.least(past, hi, best);
                hi[field] = end;
            }
        }
        best
    }
}

/// The boxes whose field has the value.
fn holding(boxes: &[Bounds], field: usize, value: Number) -> u64 {
    boxes.iter().enumerate().fold(0, |set, (k, bounds)| {
        let (low, high) = bounds[field];
        set | u64::from((low <= value) & (value <= high)) << k
    })
}

/// The least value after this one, up to `high`, that is a low of a box or comes after a high.
fn next_cut(boxes: &[Bounds], field: usize, value: Number, high: Number) -> Option<Number> {
    let cuts = boxes
        .iter()
        .flat_map(|bounds| [bounds[field].0, bounds[field].1 + 1]);
    cuts.filter(|&cut| value < cut && cut <= high).min()
}

/// The value that this interval of the row's field begins with.
fn nth_cut(row: &Bounds, boxes: &[Bounds], field: usize, place: usize) -> Number {
    let (low, high) = row[field];
    let next = |value, _| next_cut(boxes, field, value, high).unwrap_or(value);
    (0..place).fold(low, next)
}
