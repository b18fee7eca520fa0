//! The prefixes of a range of addresses, by halving the address space.

use crate::table::Range;

/// How many bits an address has.
pub const ADDRESS_BITS: u32 = 32;
/// How many bytes a written prefix has.
pub const PREFIX_BYTES: usize = 5;

/// The addresses that have the first `length` bits of this one, whose other bits are 0.
#[derive(Clone, Copy, Debug, PartialEq, Eq, PartialOrd, Ord)]
pub struct Prefix {
    pub address: u32,
    pub length: u8,
}

impl Prefix {
    /// The address, most significant byte first, and the length.
    pub fn bytes(&self) -> [u8; PREFIX_BYTES] {
        let [a, b, c, d] = self.address.to_be_bytes();
        [a, b, c, d, self.length]
    }
}

/// The fewest prefixes that hold just the addresses of the range, ascending, where addresses have so many bits.
pub fn prefixes(range: Range, bits: u32) -> Vec<Prefix> {
    let space = Range {
        low: 0,
        high: u32::MAX >> (u32::BITS - bits),
    };
    halved(space, 0, range)
}

/// The prefixes of the range in the block of a prefix of this length: that prefix if the block is inside the range, none if it is
/// apart from it, else those in its two halves.
fn halved(block: Range, length: u8, range: Range) -> Vec<Prefix> {
    if range.low <= block.low && block.high <= range.high {
        let address = block.low;
        return vec![Prefix { address, length }];
    }
    if block.high < range.low || range.high < block.low {
        return Vec::new();
    }
    let middle = block.low + (block.high - block.low) / 2;
    let lower = Range {
        low: block.low,
        high: middle,
    };
    let upper = Range {
        low: middle + 1,
        high: block.high,
    };
    [lower, upper]
        .into_iter()
        .flat_map(|half| halved(half, length + 1, range))
        .collect()
}

#[cfg(test)]
mod tests {
    use super::*;
    use std::collections::BTreeMap;

    /// All ranges of addresses of so many bits.
    fn ranges(bits: u32) -> impl Iterator<Item = Range> {
        let addresses = 1 << bits;
        (0..addresses).flat_map(move |low| (low..addresses).map(move |high| Range { low, high }))
    }

    /// Whether the address begins with the prefix, where addresses have so many bits.
    fn begins(address: u32, prefix: &Prefix, bits: u32) -> bool {
        let past = bits - u32::from(prefix.length);
        address >> past == prefix.address >> past
    }

    /// All prefixes of addresses of so many bits, ascending.
    fn every_prefix(bits: u32) -> Vec<Prefix> {
        let mut every: Vec<Prefix> = (0..=bits)
            .flat_map(|length| {
                (0..1 << length).map(move |first| Prefix {
                    address: first << (bits - length),
                    length: length as u8,
                })
            })
            .collect();
        every.sort_unstable();
        every
    }

    #[test]
    fn no_other_set_of_prefixes_of_three_bits_is_as_small() {
        let every = every_prefix(3);
        assert_eq!(every.len(), 15);
        // The smallest sets by the addresses that they hold.
        let mut smallest: BTreeMap<Vec<u32>, Vec<Vec<Prefix>>> = BTreeMap::new();
        for chosen in 0..1 << every.len() {
            let set: Vec<Prefix> = (0..every.len())
                .filter(|k| chosen >> k & 1 == 1)
                .map(|k| every[k])
                .collect();
            let held = (0..8)
                .filter(|&address| set.iter().any(|prefix| begins(address, prefix, 3)))
                .collect();
            let sets = smallest.entry(held).or_default();
            if sets.first().is_some_and(|other| set.len() < other.len()) {
                sets.clear();
            }
            if sets.first().is_none_or(|other| set.len() == other.len()) {
                sets.push(set);
            }
        }
        for range in ranges(3) {
            let addresses: Vec<u32> = (range.low..=range.high).collect();
            assert_eq!(smallest[&addresses], [prefixes(range, 3)], "{range:?}");
        }
    }

    /// The fewest blocks that lead from each address up to `high` to the one past it. A block has a power of two of addresses,
    /// begins at a multiple of their number and ends at `high` or before.
    fn fewest_blocks(high: usize) -> Vec<usize> {
        let mut fewest = vec![0; high + 2];
        for from in (0..=high).rev() {
            let behind = (0..)
                .map(|power| from + (1 << power))
                .take_while(|behind| *behind <= high + 1)
                .filter(|behind| from % (behind - from) == 0);
            fewest[from] = 1 + behind.map(|at| fewest[at]).min().unwrap_or_default();
        }
        fewest
    }

    #[test]
    fn prefixes_of_eight_bits_are_the_fewest_that_hold_just_the_range() {
        let fewest: Vec<Vec<usize>> = (0..256).map(fewest_blocks).collect();
        let mut most = 0;
        for range in ranges(8) {
            let list = prefixes(range, 8);
            let count = fewest[range.high as usize][range.low as usize];
            assert_eq!(list.len(), count, "{range:?}");
            most = most.max(count);
            assert!(list.windows(2).all(|pair| pair[0] < pair[1]), "{range:?}");
            for prefix in &list {
                assert_eq!(prefix.address & 0xFF >> prefix.length, 0, "{range:?}");
            }
            for address in 0..256 {
                let held = list.iter().any(|prefix| begins(address, prefix, 8));
                let inside = range.low <= address && address <= range.high;
                assert_eq!(held, inside, "{range:?} {address}");
            }
        }
        assert_eq!(most, 2 * 8 - 2);
    }

    /// The prefixes of a range of addresses of 32 bits, as addresses and lengths.
    fn pairs(low: u32, high: u32) -> Vec<(u32, u8)> {
        prefixes(Range { low, high }, ADDRESS_BITS)
            .iter()
            .map(|prefix| (prefix.address, prefix.length))
            .collect()
    }

    #[test]
    fn prefixes_of_single_addresses_and_aligned_blocks() {
        for address in [0, 1, 0x0A01_000A, 0x7FFF_FFFF, 0x8000_0000, u32::MAX] {
            assert_eq!(pairs(address, address), [(address, 32)]);
        }
        assert_eq!(pairs(0, u32::MAX), [(0, 0)]);
        assert_eq!(pairs(0, 0x7FFF_FFFF), [(0, 1)]);
        assert_eq!(pairs(0x8000_0000, u32::MAX), [(0x8000_0000, 1)]);
        assert_eq!(pairs(0x0A01_0000, 0x0A01_FFFF), [(0x0A01_0000, 16)]);
        assert_eq!(pairs(0xFFFF_FFFE, u32::MAX), [(0xFFFF_FFFE, 31)]);
    }

    #[test]
    fn prefixes_of_ranges_next_to_an_edge() {
        let from_zero = |length: u8| (!(u32::MAX >> (length - 1)), length);
        let to_the_end = |length: u8| (1 << (32 - length), length);
        let but_the_last: Vec<_> = (1..=32).map(from_zero).collect();
        let but_the_first: Vec<_> = (1..=32).rev().map(to_the_end).collect();
        assert_eq!(but_the_last[..2], [(0, 1), (0x8000_0000, 2)]);
        assert_eq!(but_the_last[31], (0xFFFF_FFFE, 32));
        assert_eq!(but_the_first[..2], [(1, 32), (2, 31)]);
        assert_eq!(but_the_first[31], (0x8000_0000, 1));
        assert_eq!(pairs(0, u32::MAX - 1), but_the_last);
        assert_eq!(pairs(1, u32::MAX), but_the_first);
        let but_both = [&but_the_first[..31], &but_the_last[1..]].concat();
        assert_eq!(but_both.len(), 62);
        assert_eq!(pairs(1, u32::MAX - 1), but_both);
        assert_eq!(
            pairs(0x7FFF_FFFF, 0x8000_0000),
            [(0x7FFF_FFFF, 32), (0x8000_0000, 32)]
        );
    }

    #[test]
    fn prefixes_of_odd_and_even_ends() {
        let middle = [(0x0A01_000C, 30), (0x0A01_0010, 29), (0x0A01_0018, 30)];
        let [even_low, odd_low] = [(0x0A01_000A, 31), (0x0A01_000B, 32)];
        let [even_high, odd_high] = [(0x0A01_001C, 32), (0x0A01_001C, 31)];
        for (low, first) in [(0x0A01_000A, even_low), (0x0A01_000B, odd_low)] {
            for (high, last) in [(0x0A01_001C, even_high), (0x0A01_001D, odd_high)] {
                let list = [&[first], &middle[..], &[last]].concat();
                assert_eq!(pairs(low, high), list);
            }
        }
    }

    #[test]
    fn bytes_of_a_prefix() {
        let prefix = Prefix {
            address: 0x0A01_0203,
            length: 32,
        };
        assert_eq!(prefix.bytes(), [10, 1, 2, 3, 32]);
    }
}
