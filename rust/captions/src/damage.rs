//! Damage by seed: places of a store's lines and parity lines turned over.

use sudoku::{LINE_BYTES, Store};

use crate::random::Random;
use crate::sides::root;

/// Places of one line: 512 of data, 31 of the CRC and 10 Hamming bits.
const PLACES: u64 = 553;

/// In a cluster so many bits fall on each line on the average, as long as the
/// store has lines enough.
const CLUSTER_BITS: u64 = 4;

/// What is to be turned over.
#[derive(Clone, Copy, Debug)]
pub struct Damage {
    /// So many bits.
    pub bits: u64,
    /// Chosen by this seed.
    pub seed: u64,
    /// In a patch of lines next to each other.
    pub cluster: bool,
}

/// What was turned over.
#[derive(Clone, Copy, Debug, PartialEq, Eq)]
pub struct Hurt {
    /// Lines with a bit turned over.
    pub lines: u64,
    /// Parity lines with one.
    pub parity_lines: u64,
}

/// How many places a store has in all.
pub fn places(store: &Store) -> u64 {
    PLACES * (store.count() + store.rows() + store.columns()) as u64
}

impl Damage {
    /// Turns the bits over. There are no more of them than places.
    pub fn strike(self, store: &mut Store) -> Hurt {
        let mut random = Random::new(self.seed);
        let spots = self.spots(store, &mut random);
        let mut mask = vec![[0; LINE_BYTES]; store.count() + store.rows() + store.columns()];
        choose(self.bits, &spots, &mut mask, &mut random);
        let (lines, tables) = mask.split_at(store.count().min(mask.len()));
        let (rows, columns) = tables.split_at(store.rows().min(tables.len()));
        let hit = turn(store.line_bytes_mut(), lines);
        let hit_rows = turn(store.row_table_mut(), rows);
        let hit_columns = turn(store.column_table_mut(), columns);
        Hurt {
            lines: hit,
            parity_lines: hit_rows + hit_columns,
        }
    }

    /// The lines on which bits may fall, by their numbers; row and column parity
    /// lines are numbered on from the lines.
    fn spots(self, store: &Store, random: &mut Random) -> Vec<usize> {
        let all = store.count() + store.rows() + store.columns();
        if !self.cluster || self.bits > PLACES * store.count() as u64 {
            return (0..all).collect();
        }
        let (rows, columns) = patch(self.bits, store.rows(), store.columns());
        let mut start = |side: usize, part: usize| {
            let choices = side.saturating_sub(part) + 1;
            random.below(choices as u64) as usize
        };
        let (top, left) = (start(store.rows(), rows), start(store.columns(), columns));
        let lines = (top..top + rows).flat_map(|row| {
            let first = row * store.columns() + left;
            first..first + columns
        });
        lines.collect()
    }
}

/// The sides of the patch on which so many bits fall: a square, where the store
/// has room for it.
fn patch(bits: u64, rows: usize, columns: usize) -> (usize, usize) {
    let lines = usize::try_from(bits.div_ceil(CLUSTER_BITS)).unwrap_or(usize::MAX);
    let side = root(lines).max(1);
    let width = lines.div_ceil(side.min(rows)).max(side).min(columns);
    (lines.div_ceil(width).max(side).min(rows), width)
}

/// Chooses so many different places of these lines and sets them in the mask. If
/// they are more than half, the others are chosen.
fn choose(bits: u64, spots: &[usize], mask: &mut [[u8; LINE_BYTES]], random: &mut Random) {
    let places = PLACES * spots.len() as u64;
    let bits = bits.min(places);
    let most = bits > places / 2;
    if most {
        for &spot in spots {
            mask.get_mut(spot).into_iter().for_each(fill);
        }
    }
    let mut left = if most { places - bits } else { bits };
    while left > 0 {
        let place = random.below(places);
        let spot = spots.get((place / PLACES) as usize);
        let Some(line) = spot.and_then(|&spot| mask.get_mut(spot)) else {
            return;
        };
        let (byte, bit) = address(place % PLACES);
        let Some(byte) = line.get_mut(byte) else {
            return;
        };
        if (*byte & bit == 0) != most {
            *byte ^= bit;
            left -= 1;
        }
    }
}

/// Where a place stands: bit 7 of byte 67 is spare, so that the Hamming bits
/// begin a byte.
fn address(place: u64) -> (usize, u8) {
    let bit = if place < 543 { place } else { place + 1 };
    ((bit / 8) as usize, 1 << (bit % 8))
}

/// Sets all places of a line.
fn fill(line: &mut [u8; LINE_BYTES]) {
    for place in 0..PLACES {
        let (byte, bit) = address(place);
        if let Some(byte) = line.get_mut(byte) {
            *byte |= bit;
        }
    }
}

/// Turns the bits of a mask over, and counts the lines that it hits.
fn turn(bytes: &mut [u8], mask: &[[u8; LINE_BYTES]]) -> u64 {
    let mut hit = 0;
    for (line, mask) in bytes.chunks_exact_mut(LINE_BYTES).zip(mask) {
        if *mask != [0; LINE_BYTES] {
            hit += 1;
            line.iter_mut()
                .zip(mask)
                .for_each(|(byte, mask)| *byte ^= mask);
        }
    }
    hit
}

#[cfg(test)]
mod tests {
    use super::*;
    use sudoku::Refusal;

    /// The bits that two stores differ in, in lines and in all.
    fn differing(one: &Store, other: &Store) -> (u32, u32) {
        let bits = |one: &[u8], other: &[u8]| {
            let pairs = one.iter().zip(other);
            pairs.map(|(one, other)| (one ^ other).count_ones()).sum()
        };
        (
            bits(one.line_bytes(), other.line_bytes()),
            bits(one.as_bytes(), other.as_bytes()),
        )
    }

    fn struck(rows: usize, columns: usize, damage: Damage) -> Result<(Store, Hurt), Refusal> {
        let mut store = Store::new(rows, columns)?;
        let hurt = damage.strike(&mut store);
        Ok((store, hurt))
    }

    fn damage(bits: u64, seed: u64, cluster: bool) -> Damage {
        Damage {
            bits,
            seed,
            cluster,
        }
    }

    #[test]
    fn so_many_bits_are_turned_over() -> Result<(), Refusal> {
        let written = Store::new(4, 5)?;
        // 29 lines and parity lines.
        assert_eq!(places(&written), 29 * 553);
        for bits in [1, 2, 40, 8018, 8019, 16_036, 16_037] {
            for cluster in [false, true] {
                let (store, hurt) = struck(4, 5, damage(bits, 7, cluster))?;
                let (_, all) = differing(&store, &written);
                assert_eq!(u64::from(all), bits, "{cluster}");
                assert!(hurt.lines <= 20 && hurt.parity_lines <= 9);
                assert!(hurt.lines + hurt.parity_lines > 0);
            }
        }
        Ok(())
    }

    #[test]
    fn spare_bits_stay() -> Result<(), Refusal> {
        let (store, hurt) = struck(2, 2, damage(8 * 553, 1, false))?;
        let mut line = [0xFF; LINE_BYTES];
        line[67] = 0x7F;
        line[69] = 0x03;
        assert!(store.lines().all(|found| *found == line));
        assert_eq!((hurt.lines, hurt.parity_lines), (4, 4));
        Ok(())
    }

    #[test]
    fn a_seed_gives_its_own_damage() -> Result<(), Refusal> {
        let once = struck(6, 6, damage(40, 3, false))?;
        assert_eq!(struck(6, 6, damage(40, 3, false))?, once);
        assert_ne!(struck(6, 6, damage(40, 4, false))?, once);
        Ok(())
    }

    #[test]
    fn a_cluster_is_a_patch() -> Result<(), Refusal> {
        for seed in 0..50 {
            let (store, hurt) = struck(20, 30, damage(36, seed, true))?;
            // 36 bits make a patch of three by three.
            let hit = |n: &usize| store.line(*n).is_ok_and(|line| *line != [0; LINE_BYTES]);
            let hit: Vec<usize> = (0..600).filter(hit).collect();
            let spread = |of: &dyn Fn(usize) -> usize| {
                let all = hit.iter().map(|&n| of(n));
                all.clone()
                    .max()
                    .zip(all.min())
                    .map(|(most, least)| most - least)
            };
            assert!(spread(&|n| n / 30) <= Some(2), "{hit:?}");
            assert!(spread(&|n| n % 30) <= Some(2), "{hit:?}");
            assert_eq!((hurt.lines, hurt.parity_lines), (hit.len() as u64, 0));
        }
        Ok(())
    }

    #[test]
    fn a_patch_is_square_where_it_can_be() {
        assert_eq!(patch(1, 6, 6), (1, 1));
        assert_eq!(patch(4, 6, 6), (1, 1));
        assert_eq!(patch(5, 6, 6), (2, 2));
        assert_eq!(patch(16, 6, 6), (2, 2));
        assert_eq!(patch(40, 6, 6), (4, 4));
        assert_eq!(patch(400, 2, 512), (2, 50));
        assert_eq!(patch(400, 512, 2), (50, 2));
        assert_eq!(patch(u64::MAX, 512, 512), (512, 512));
    }
}
