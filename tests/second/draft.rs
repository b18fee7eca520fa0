//! A lawful table in the making: its entities and bounds, and draws of rows and their parts.

use crate::parts::cut;
use crate::random::Random;
use crate::reader::{MOST_ENTITIES, MOST_GATEWAYS, TECHNOLOGIES};
use crate::relations::{above, lineage, root};
use crate::table::{Coefficients, Entity, Range, Row, Selector, Table};
use crate::table::{FIELDS, NONE, WIDTHS};

/// How many roots most ends and gateways are drawn from, so that rows meet.
pub const BUSY_ROOTS: usize = 5;

/// How many entities are drawn to find kin.
const KIN_DRAWS: usize = 4;

/// How large a table is.
#[derive(Clone, Copy, PartialEq, Eq)]
pub enum Scale {
    /// Few entities and few values in each field, so that every probe can be tried.
    Tiny,
    Usual,
    /// Every limit is used up.
    Full,
}

/// A table in the making.
pub struct Draft<'r> {
    pub random: &'r mut Random,
    pub table: Table,
    pub roots: Vec<u8>,
    /// The packets that all rows and filters keep to.
    pub whole: Selector,
    /// The values that bounds of each field are drawn from; none for a field that stays whole.
    bounds: [Vec<u32>; FIELDS],
    pub scale: Scale,
}

/// A table with entities, caps and floor, and the bounds for its selectors.
pub fn draft(random: &mut Random, scale: Scale) -> Draft<'_> {
    let entities = entities(random, scale);
    let roots = (0..entities.len())
        .filter(|&e| entities[e].parent == NONE)
        .map(|e| e as u8)
        .collect();
    let whole = match scale {
        Scale::Tiny => windows(random),
        _ => everything(),
    };
    let bounds = whole.map(|range| match scale {
        Scale::Tiny => (range.low..=range.high).collect(),
        _ => bounds(random, range.high),
    });
    let strict = random.chance(20);
    let caps = (0..TECHNOLOGIES)
        .map(|_| if strict { few(random) } else { [255; 3] })
        .collect();
    let floor = if random.chance(25) {
        [0; 3].map(|_: u8| random.pick(&[0, 0, 0, 1, 1, 2, 2, 10, 255]))
    } else {
        [0; 3]
    };
    let table = Table {
        entities,
        caps,
        floor: Some(floor),
        ..Table::default()
    };
    Draft {
        random,
        table,
        roots,
        whole,
        bounds,
        scale,
    }
}

/// Lawful entities: roots alone, bushes, deep trees, or forks among them.
fn entities(random: &mut Random, scale: Scale) -> Vec<Entity> {
    let count = match random.below(10) {
        _ if scale == Scale::Tiny => random.between(2, 5),
        _ if scale == Scale::Full => MOST_ENTITIES,
        0 => random.between(1, 3),
        1..=6 => random.between(4, 14),
        7..=8 => random.between(15, 40),
        _ => random.between(100, MOST_ENTITIES),
    };
    let root_percent = random.pick(&[15, 30, 30, 60, 100]);
    let deep_percent = random.pick(&[20, 60, 95]);
    let sound_percent = random.pick(&[60, 100, 100]);
    let mut entities = if random.chance(30) {
        forks()
    } else {
        Vec::new()
    };
    while entities.len() < count {
        let last = entities.len().checked_sub(1);
        let parent = match last {
            Some(last) if !random.chance(root_percent) => Some(if random.chance(deep_percent) {
                last
            } else {
                random.below(last + 1)
            }),
            _ => None,
        };
        let entity = match parent {
            Some(parent) if entities[parent].layer < 7 => Entity {
                parent: parent as u8,
                layer: layer_below(random, entities[parent].layer),
                mask: 0,
            },
            _ => {
                let mask = if random.chance(sound_percent) {
                    0x7E
                } else {
                    random.byte() & 0x7E
                };
                Entity {
                    parent: NONE,
                    layer: 0,
                    mask,
                }
            }
        };
        entities.push(entity);
    }
    entities
}

/// Two roots, one of them with a fork at it and another below that.
fn forks() -> Vec<Entity> {
    let parents_and_layers = [(NONE, 0), (0, 2), (1, 3), (1, 5), (0, 3), (NONE, 0)];
    parents_and_layers
        .map(|(parent, layer)| Entity {
            parent,
            layer,
            mask: if parent == NONE { 0x7E } else { 0 },
        })
        .to_vec()
}

/// A layer greater than the parent's, mostly the next.
fn layer_below(random: &mut Random, parent: u8) -> u8 {
    let greater: Vec<u8> = [2, 3, 5, 7]
        .into_iter()
        .filter(|&layer| layer > parent)
        .collect();
    if random.chance(60) {
        greater[0]
    } else {
        random.pick(&greater)
    }
}

/// The greatest value of a field of so many bytes.
pub fn greatest(width: usize) -> u32 {
    u32::MAX >> (32 - 8 * width)
}

/// The selector of all packets.
pub fn everything() -> Selector {
    WIDTHS.map(|width| Range {
        low: 0,
        high: greatest(width),
    })
}

/// Two to four neighbouring values for each field, the same for both addresses and for both ports.
fn windows(random: &mut Random) -> Selector {
    let [address, port, protocol] = [4, 2, 1].map(|width| {
        let more = random.between(1, 3) as u32;
        let low = random.pick(&[0, greatest(width) / 2, greatest(width) - more]);
        Range {
            low,
            high: low + more,
        }
    });
    [address, address, port, port, protocol]
}

/// Values that the bounds of a field are drawn from, up to `most`; none for a field that stays whole.
fn bounds(random: &mut Random, most: u32) -> Vec<u32> {
    if random.chance(35) {
        return Vec::new();
    }
    let mut values = vec![0, most];
    for _ in 0..random.between(1, 3) {
        values.extend(match random.below(5) {
            0 => [1, most - 1],
            1 => [most / 2, most / 2 + 1],
            2 => [(); 2].map(|()| random.below(16) as u32),
            3 => block(random, most),
            _ => [(); 2].map(|()| random.below(most as usize + 1) as u32),
        });
    }
    values
}

/// The first and the last value of a block: those up to `most` that have some first bits in common.
fn block(random: &mut Random, most: u32) -> [u32; 2] {
    let first = random.below(most as usize + 1) as u32;
    let past = most >> random.below(most.count_ones() as usize);
    [first & !past, first | past]
}

/// Coefficients of few values, so that equal and unordered ones are frequent.
pub fn few(random: &mut Random) -> Coefficients {
    [0; 3].map(|_: u8| random.pick(&[0, 1, 1, 2, 2, 3, 255]))
}

impl Draft<'_> {
    /// Adds the row, made lawful and, in a full table, with eight gateways.
    pub fn push(&mut self, mut row: Row) {
        if row.technology == 0 {
            row.coefficients = [0; 3];
        }
        while self.scale == Scale::Full && row.gateways.len() < MOST_GATEWAYS {
            row.gateways
                .push(self.roots[row.gateways.len() % self.roots.len()]);
        }
        row.gateways.truncate(MOST_GATEWAYS);
        self.table.rows.push(row);
    }

    /// One of the rows there are, mostly a late one.
    pub fn earlier(&mut self) -> Option<Row> {
        let rows = &self.table.rows;
        let late = if self.random.chance(60) {
            rows.len().saturating_sub(6)
        } else {
            0
        };
        if rows.is_empty() {
            None
        } else {
            Some(rows[self.random.between(late, rows.len() - 1)].clone())
        }
    }

    /// A row between two roots drawn at random.
    pub fn row(&mut self) -> Row {
        let (from, to) = (self.root(), self.root());
        self.row_between(from, to)
    }

    /// A row between entities of the two roots.
    pub fn row_between(&mut self, from: u8, to: u8) -> Row {
        Row {
            holder: if self.random.chance(90) {
                from
            } else {
                self.root()
            },
            source: self.under(from),
            destination: self.under(to),
            technology: self.technology(),
            coefficients: few(self.random),
            selector: self.selector(),
            gateways: self.gateways(),
        }
    }

    /// Changes one thing of the row.
    pub fn alter(&mut self, row: &mut Row) {
        match self.random.below(9) {
            0 => row.technology = self.technology(),
            1 => row.coefficients[self.random.below(3)] = self.random.pick(&[0, 1, 2, 3]),
            2 => row.coefficients = few(self.random),
            3 => row.source = self.near(row.source),
            4 => row.destination = self.near(row.destination),
            5 => {
                let field = self.random.below(FIELDS);
                row.selector[field] = self.range(field);
            }
            6 => row.selector = self.cut(&row.selector, 2)[0],
            7 => row.gateways = self.gateways(),
            _ => row.holder = self.root(),
        }
    }

    /// A root, mostly a busy one.
    pub fn root(&mut self) -> u8 {
        let busy = self.roots.len().min(BUSY_ROOTS);
        if self.random.chance(85) {
            self.random.pick(&self.roots[..busy])
        } else {
            self.random.pick(&self.roots)
        }
    }

    /// A root other than the entity's, if there is one.
    pub fn other_root(&mut self, entity: u8) -> u8 {
        let top = root(&self.table, entity);
        let others: Vec<u8> = self.roots.iter().copied().filter(|&r| r != top).collect();
        if others.is_empty() {
            top
        } else {
            self.random.pick(&others)
        }
    }

    /// An entity of the root.
    pub fn under(&mut self, top: u8) -> u8 {
        let members: Vec<u8> = (0..self.table.entities.len() as u8)
            .filter(|&e| root(&self.table, e) == top)
            .collect();
        if self.random.chance(25) {
            top
        } else {
            self.random.pick(&members)
        }
    }

    /// The entity or one of its parents upward.
    pub fn upward(&mut self, entity: u8) -> u8 {
        self.random.pick(&lineage(&self.table, entity))
    }

    /// An entity of the same root.
    pub fn near(&mut self, entity: u8) -> u8 {
        match self.random.below(3) {
            0 => entity,
            1 => self.upward(entity),
            _ => self.under(root(&self.table, entity)),
        }
    }

    /// Two entities of one root, neither above the other, if some drawn at random are so.
    pub fn kin(&mut self) -> Option<(u8, u8)> {
        let count = self.table.entities.len();
        let drawn = [(); KIN_DRAWS].map(|()| self.random.below(count) as u8);
        let table = &self.table;
        let pairs: Vec<(u8, u8)> = drawn
            .iter()
            .flat_map(|&one| (0..count as u8).map(move |other| (one, other)))
            .filter(|&(one, other)| root(table, one) == root(table, other))
            .filter(|&(one, other)| !above(table, one, other) && !above(table, other, one))
            .collect();
        if pairs.is_empty() {
            None
        } else {
            Some(self.random.pick(&pairs))
        }
    }

    /// A technology, IPsec most often.
    pub fn technology(&mut self) -> u8 {
        self.random.pick(&[0, 1, 2, 3, 3, 3, 4, 5, 6])
    }

    /// No, few, many or eight gateways.
    fn gateways(&mut self) -> Vec<u8> {
        let count = match self.random.below(20) {
            0..=11 => 0,
            12..=17 => self.random.between(1, 3),
            18 => self.random.between(4, MOST_GATEWAYS - 1),
            _ => MOST_GATEWAYS,
        };
        (0..count).map(|_| self.root()).collect()
    }

    /// A selector with the table's bounds.
    pub fn selector(&mut self) -> Selector {
        [0, 1, 2, 3, 4].map(|field| self.range(field))
    }

    /// A range with the table's bounds for the field.
    fn range(&mut self, field: usize) -> Range {
        if self.bounds[field].is_empty() || self.random.chance(25) {
            return self.whole[field];
        }
        let one = self.random.pick(&self.bounds[field]);
        let other = self.random.pick(&self.bounds[field]);
        Range {
            low: one.min(other),
            high: one.max(other),
        }
    }

    /// Disjoint parts of the selector, at most so many, that hold all its packets.
    pub fn cut(&mut self, selector: &Selector, pieces: usize) -> Vec<Selector> {
        cut(self.random, selector, pieces)
    }
}
