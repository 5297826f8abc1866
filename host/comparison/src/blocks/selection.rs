//! S: every selection of few, random ones of all sizes and at their corners; sizes that S does not
//! have, and wanted inputs that are none.

use mukdalis::Fault;

use super::super::{first_failing, Comparison, Outcome};
use super::{compare_programming, deliver, limits, refusals};
use crate::random::Random;
use crate::samples::blocks::{Block, Programming, SIZES};
use crate::samples::selection::{
    beside_sizes, every_selection, random_sizes, random_wanted, CORNERS,
};

/// The most inputs and outputs of the sizes of which every selection is compared.
const FEW: u32 = 5;

pub fn compare(comparison: &mut Comparison, random: &mut Random, values: &[u64]) -> Outcome {
    every_small_one(comparison, random, values)?;
    random_ones(comparison, random, values)?;
    beside_networks(comparison, random, values)?;
    corners(comparison, random, values)?;
    sizes(comparison, random)?;
    every_small_list(comparison, random)?;
    changed_lists(comparison, random)?;
    let blocks = CORNERS.map(|(m, n)| Block::S(m, n));
    limits::compare(comparison, random, &blocks)?;
    refusals::compare(comparison, random, &blocks, 40)
}

fn every_small_one(comparison: &mut Comparison, random: &mut Random, values: &[u64]) -> Outcome {
    comparison.begin("every selection of m, n up to 5");
    for m in 1..=FEW {
        for n in 1..=FEW {
            for wanted in every_selection(m, n) {
                deliver(comparison, random, Block::S(m, n), &wanted, values)?;
            }
        }
    }
    Ok(())
}

/// A random selection of these sizes.
fn deliver_random(
    comparison: &mut Comparison,
    random: &mut Random,
    (m, n): (u32, u32),
    values: &[u64],
) -> Outcome {
    let wanted = random_wanted(random, m, n);
    deliver(comparison, random, Block::S(m, n), &wanted, values)
}

fn random_ones(comparison: &mut Comparison, random: &mut Random, values: &[u64]) -> Outcome {
    comparison.begin("random selections, every N");
    for size in SIZES {
        for _ in 0..1_500 {
            let sizes = random_sizes(random, size);
            deliver_random(comparison, random, sizes, values)?;
        }
    }
    Ok(())
}

fn beside_networks(comparison: &mut Comparison, random: &mut Random, values: &[u64]) -> Outcome {
    comparison.begin("m and n at and beside powers of two");
    for m in beside_sizes() {
        for n in beside_sizes() {
            for _ in 0..3 {
                deliver_random(comparison, random, (m, n), values)?;
            }
        }
    }
    Ok(())
}

fn corners(comparison: &mut Comparison, random: &mut Random, values: &[u64]) -> Outcome {
    comparison.begin("m and n at their corners");
    for sizes in CORNERS {
        for _ in 0..100 {
            deliver_random(comparison, random, sizes, values)?;
        }
    }
    Ok(())
}

/// Each of m and n at and beside its limits, while the other is good or not.
fn sizes(comparison: &mut Comparison, random: &mut Random) -> Outcome {
    comparison.begin("sizes m, n at and beside their limits");
    let is_bad = |size: u32| !(1..=512).contains(&size);
    for tried in (500..=530).chain(limits::tried_sizes()) {
        for other in [0, 1, 3, 512, 513] {
            for (m, n) in [(tried, other), (other, tried)] {
                let checks = [(Fault::Inputs, is_bad(m)), (Fault::Outputs, is_bad(n))];
                limits::sizes(comparison, random, Block::S(m, n), &checks)?;
            }
        }
    }
    Ok(())
}

/// Every list of n entries from 0 to m + 1, for m and n up to 4. Dummies are no inputs.
fn every_small_list(comparison: &mut Comparison, random: &mut Random) -> Outcome {
    comparison.begin("every list of up to 4 wanted inputs");
    for m in 1..=4 {
        for n in 1..=4 {
            for list in every_selection(m + 2, n) {
                let wanted: Vec<u16> = list.into_iter().map(|entry| entry - 1).collect();
                let inputs = 1..=m as u16;
                let is_wrong = !wanted.iter().all(|input| inputs.contains(input));
                let programming = Programming::of(Block::S(m, n), &wanted);
                let due = first_failing(&[(Fault::Source, is_wrong)]);
                compare_programming(comparison, random, &programming, due)?;
            }
        }
    }
    Ok(())
}

/// Selections with one entry that is no input, among them the first dummy.
fn changed_lists(comparison: &mut Comparison, random: &mut Random) -> Outcome {
    comparison.begin("one wanted input changed");
    for size in SIZES {
        for _ in 0..600 {
            let (m, n) = random_sizes(random, size);
            let mut programming = Programming::sound(random, Block::S(m, n));
            refusals::spoil_wanted(random, &mut programming);
            compare_programming(comparison, random, &programming, Fault::Source.number())?;
        }
    }
    Ok(())
}
