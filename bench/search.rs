//! The product's walks through the fields of a row written once more in Rust, for the same pace in the same run, and to count the
//! values that are tried.

/// A field's number, as wide as the product's.
pub type Number = u128;
/// Low and high of each field.
pub type Bounds = [(Number, Number); FIELDS];

const FIELDS: usize = 5;
/// How many covers are kept for a field.
const KEPT: usize = 16;
/// The place in a walk of the field whose values are counted against the limit.
const COUNTED: usize = 3;
/// The limit of the first of the walks that begin with each field in turn, and the one from which on there is none.
const FIRST_LIMIT: u64 = 64;
const LAST_LIMIT: u64 = 1 << 20;

/// Why a walk ends before all packets are known to be in a box.
#[derive(PartialEq, Eq)]
enum End {
    /// At a packet that no box has.
    Free,
    /// At its limit.
    Stopped,
}

/// A walk through a row's fields. Sets of boxes are bits, the one at place k for box k.
struct Walk<'b> {
    row: &'b Bounds,
    boxes: &'b [Bounds],
    /// The field that it begins with.
    lead: usize,
    /// How many values of the counted field may be tried, if there is a limit.
    limit: Option<u64>,
    /// The covers of values of the fields but the last, by their places in the walk, the one that served last first; 0 where there
    /// is none yet.
    kept: [[u64; KEPT]; FIELDS - 1],
    packet: [Number; FIELDS],
    tried: u64,
}

/// The least packet of the row that no box has, and how many values were tried. There are at most 63 boxes.
pub fn search(row: &Bounds, boxes: &[Bounds]) -> (Option<[Number; FIELDS]>, u64) {
    let mut walk = Walk::new(row, boxes, 0, None);
    let free = walk.covered() == Err(End::Free);
    (free.then_some(walk.packet), walk.tried)
}

/// Whether each packet of the row is in a box, and how many values were tried. There are at most 63 boxes.
pub fn hidden(row: &Bounds, boxes: &[Bounds]) -> (bool, u64) {
    let (mut lead, mut limit, mut tried) = (0, FIRST_LIMIT, 0);
    while limit < LAST_LIMIT {
        let mut walk = Walk::new(row, boxes, lead, Some(limit));
        let covered = walk.covered();
        tried += walk.tried;
        if covered != Err(End::Stopped) {
            return (covered.is_ok(), tried);
        }
        lead = (lead + 1) % FIELDS;
        limit += limit / 4;
    }
    let (packet, more) = search(row, boxes);
    (packet.is_none(), tried + more)
}

impl<'b> Walk<'b> {
    fn new(row: &'b Bounds, boxes: &'b [Bounds], lead: usize, limit: Option<u64>) -> Walk<'b> {
        Walk {
            row,
            boxes,
            lead,
            limit,
            kept: [[0; KEPT]; FIELDS - 1],
            packet: [0; FIELDS],
            tried: 0,
        }
    }

    /// Boxes that together hold every packet of the row.
    fn covered(&mut self) -> Result<u64, End> {
        self.walk(0, (1 << self.boxes.len()) - 1)
    }

    /// Walks the field at this place from the row's low, with the boxes that hold the packet so far. Gives some of them that together
    /// hold every packet that goes on from there.
    fn walk(&mut self, place: usize, held: u64) -> Result<u64, End> {
        let field = (self.lead + place) % FIELDS;
        let (mut value, high) = self.row[field];
        let mut cover = 0;
        loop {
            if place == COUNTED {
                self.count()?;
            }
            self.tried += 1;
            self.packet[field] = value;
            let of_value = if place == FIELDS - 1 {
                self.farthest(field, value, held)?
            } else {
                self.cover(place, self.holding(field, value, held))?
            };
            cover |= of_value;
            let reached = self.least_high(field, of_value);
            if reached >= high {
                return Ok(cover);
            }
            value = reached + 1;
        }
    }

    /// One value more that is counted.
    fn count(&mut self) -> Result<(), End> {
        match &mut self.limit {
            Some(1) => return Err(End::Stopped),
            Some(left) => *left -= 1,
            None => {}
        }
        Ok(())
    }

    /// The ones whose field holds the value.
    fn holding(&self, field: usize, value: Number, of: u64) -> u64 {
        bits(of).fold(0, |held, k| {
            let (low, high) = self.boxes[k][field];
            held | u64::from((low <= value) & (value <= high)) << k
        })
    }

    /// Of those whose field holds the value one with the greatest high, the last. Where there are none the packet is free.
    fn farthest(&self, field: usize, value: Number, of: u64) -> Result<u64, End> {
        let (mut best, mut top) = (0, value);
        for k in bits(of) {
            let (low, high) = self.boxes[k][field];
            if (low <= value) & (top <= high) {
                (best, top) = (1 << k, high);
            }
        }
        if best == 0 {
            Err(End::Free)
        } else {
            Ok(best)
        }
    }

    /// A cover of a value of the field at this place that these boxes hold: one that is kept, or what walking the next field gives. It
    /// is kept as the last that served.
    fn cover(&mut self, place: usize, here: u64) -> Result<u64, End> {
        let fits = |&cover: &u64| cover != 0 && cover & here == cover;
        let (cover, last) = match self.kept[place].iter().position(fits) {
            Some(k) => (self.kept[place][k], k),
            None => (self.walk(place + 1, here)?, KEPT - 1),
        };
        self.kept[place].copy_within(..last, 1);
        self.kept[place][0] = cover;
        Ok(cover)
    }

    /// The least high of these in the field.
    fn least_high(&self, field: usize, of: u64) -> Number {
        bits(of).fold(Number::MAX, |least, k| least.min(self.boxes[k][field].1))
    }
}

/// The places of the bits that are set, ascending.
fn bits(mut set: u64) -> impl Iterator<Item = usize> {
    std::iter::from_fn(move || {
        let place = set.trailing_zeros() as usize;
        set &= set.wrapping_sub(1);
        (place < 64).then_some(place)
    })
}
