//! The blocks P and S with their numbers of rows and wires, and calls of the block library that it
//! does not refuse.

use super::permutation::random_permutation;
use super::selection::random_wanted;
use crate::random::Random;

/// Every size N of P.
pub const SIZES: [u32; 10] = [1, 2, 4, 8, 16, 32, 64, 128, 256, 512];

/// Wires that a fabric may have, numbered from 0.
pub const MOST_WIRES: u32 = 65_536;

/// P(n) or S(m, n). The sizes of a call may be out of range; what `Block` says of rows, wires and
/// bits is for those in range.
#[derive(Clone, Copy, Debug)]
pub enum Block {
    P(u32),
    S(u32, u32),
}

impl Block {
    /// Input wires: n or m.
    pub fn inputs(self) -> u32 {
        match self {
            Block::P(n) => n,
            Block::S(m, _) => m,
        }
    }

    /// Output wires: n.
    pub fn outputs(self) -> u32 {
        match self {
            Block::P(n) | Block::S(_, n) => n,
        }
    }

    /// N: of P its size, of S the size of its two networks.
    pub fn network_size(self) -> u32 {
        self.inputs().max(self.outputs()).next_power_of_two()
    }

    /// N log N - N + 1 rows of P, 2 N log N - N + 1 of S.
    pub fn rows(self) -> u32 {
        let size = self.network_size();
        let networks = match self {
            Block::P(_) => 1,
            Block::S(..) => 2,
        };
        networks * size * size.ilog2() + 1 - size
    }

    /// Wires that the rows make: two each, but one each in S's chain of N - 1.
    pub fn wires_made(self) -> u32 {
        let chain = match self {
            Block::P(_) => 0,
            Block::S(..) => self.network_size() - 1,
        };
        2 * self.rows() - chain
    }

    /// The highest next unmade wire with which the block can be written. P(1) and S(1, 1) make no
    /// wire.
    pub fn last_next(self) -> u32 {
        match self.wires_made() {
            0 => u32::MAX,
            made => MOST_WIRES - made,
        }
    }

    /// Bytes of the program, one bit a row.
    pub fn program_bytes(self) -> usize {
        self.rows().div_ceil(8) as usize
    }
}

/// A call that writes a block into two lent buffers of these lengths.
#[derive(Clone)]
pub struct Writing {
    pub block: Block,
    pub inputs: Vec<u16>,
    pub next: u32,
    pub rows_len: usize,
    pub outputs_len: usize,
}

impl Writing {
    /// A call with made input wires, a next wire that leaves room and buffers of exact lengths.
    pub fn sound(random: &mut Random, block: Block) -> Writing {
        let next = sound_next(random, block);
        Writing::with_next(random, block, next)
    }

    /// The call with a given next wire above 0.
    pub fn with_next(random: &mut Random, block: Block, next: u32) -> Writing {
        Writing {
            block,
            inputs: made_wires(random, block.inputs(), next),
            next,
            rows_len: 3 * block.rows() as usize,
            outputs_len: block.outputs() as usize,
        }
    }
}

/// A next wire, many at a limit or beside it, that leaves room for the block's wires.
fn sound_next(random: &mut Random, block: Block) -> u32 {
    let most = block.last_next();
    let any = 1 + (random.word() % u64::from(most)) as u32;
    let near = most - u32::from(random.between(0, 9));
    let within = u32::from(random.between(1, u16::MAX)).min(most);
    let least = block.inputs() + 1;
    random.choose(&[1, 2, least, within, within, any, near, most])
}

/// So many wires below `next`: neighbours, all the same, many at a limit, or any.
fn made_wires(random: &mut Random, count: u32, next: u32) -> Vec<u16> {
    let count = count as u16;
    let highest = (next.min(MOST_WIRES) - 1) as u16;
    let form = random.between(1, 6);
    if form <= 2 && highest >= count {
        let first = random.between(0, highest - count);
        return (first..first + count).collect();
    }
    let same = random.between(0, highest);
    let mut wire = || {
        let any = random.between(0, highest);
        match form {
            3 => same,
            4 => random.choose(&[0, highest, any]),
            _ => any,
        }
    };
    (0..count).map(|_| wire()).collect()
}

/// A call that programs a block into a lent buffer of this length.
#[derive(Clone)]
pub struct Programming {
    pub block: Block,
    pub wanted: Vec<u16>,
    pub program_len: usize,
}

impl Programming {
    /// The call for these wanted inputs, with a buffer of exact length.
    pub fn of(block: Block, wanted: &[u16]) -> Programming {
        Programming {
            block,
            wanted: wanted.to_vec(),
            program_len: block.program_bytes(),
        }
    }

    /// The call for a random permutation or selection.
    pub fn sound(random: &mut Random, block: Block) -> Programming {
        let wanted = match block {
            Block::P(n) => random_permutation(random, n),
            Block::S(m, n) => random_wanted(random, m, n),
        };
        Programming::of(block, &wanted)
    }
}

/// The first inputs in rising order, so many of them: each once for P, again from 1 on for S.
pub fn plain_wanted(block: Block, count: usize) -> Vec<u16> {
    let inputs = 1..=u16::MAX;
    match block {
        Block::P(_) => inputs.take(count).collect(),
        Block::S(m, _) => {
            let inputs = inputs.take(m.max(1) as usize);
            inputs.cycle().take(count).collect()
        }
    }
}

#[cfg(test)]
mod tests {
    use super::super::selection::CORNERS;
    use super::*;

    #[test]
    fn sound_writings_leave_room() {
        let mut random = Random::new(1);
        let selections = CORNERS.map(|(m, n)| Block::S(m, n));
        for block in SIZES.map(Block::P).into_iter().chain(selections) {
            for _ in 0..1_000 {
                let Writing { inputs, next, .. } = Writing::sound(&mut random, block);
                assert_eq!(inputs.len(), block.inputs() as usize);
                assert!(inputs.iter().all(|&wire| u32::from(wire) < next));
                let made = block.wires_made();
                assert!(made == 0 || next + made <= MOST_WIRES, "{block:?}");
            }
        }
    }
}
