//! P: every permutation of few, random and plain ones of every size; sizes that P does not have,
//! and wanted inputs that are no permutation.

use mukdalis::Fault;

use super::super::{first_failing, Comparison, Outcome};
use super::{compare_programming, deliver, limits, refusals};
use crate::random::Random;
use crate::samples::blocks::{Block, Programming, SIZES};
use crate::samples::permutation::{
    every_permutation, is_permutation, plain_permutations, random_permutation,
};

pub fn compare(comparison: &mut Comparison, random: &mut Random, values: &[u64]) -> Outcome {
    every_small_one(comparison, random, values)?;
    random_ones(comparison, random, values)?;
    plain_ones(comparison, random, values)?;
    sizes(comparison, random)?;
    every_small_list(comparison, random)?;
    changed_lists(comparison, random)?;
    random_lists(comparison, random)?;
    let blocks = SIZES.map(Block::P);
    limits::compare(comparison, random, &blocks)?;
    refusals::compare(comparison, random, &blocks, 150)
}

fn every_small_one(comparison: &mut Comparison, random: &mut Random, values: &[u64]) -> Outcome {
    comparison.begin("every permutation of N up to 8");
    for size in [1, 2, 4, 8] {
        for wanted in every_permutation(size) {
            deliver(comparison, random, Block::P(size), &wanted, values)?;
        }
    }
    Ok(())
}

fn random_ones(comparison: &mut Comparison, random: &mut Random, values: &[u64]) -> Outcome {
    comparison.begin("random permutations, every N");
    for size in SIZES {
        for _ in 0..3_000 {
            let wanted = random_permutation(random, size);
            deliver(comparison, random, Block::P(size), &wanted, values)?;
        }
    }
    Ok(())
}

fn plain_ones(comparison: &mut Comparison, random: &mut Random, values: &[u64]) -> Outcome {
    comparison.begin("rotations, swaps and the like, every N");
    for size in SIZES {
        for wanted in plain_permutations(size) {
            deliver(comparison, random, Block::P(size), &wanted, values)?;
        }
    }
    Ok(())
}

fn sizes(comparison: &mut Comparison, random: &mut Random) -> Outcome {
    comparison.begin("sizes N at and beside their limits");
    for n in (0..=1_100).chain(limits::tried_sizes()) {
        let size = (Fault::Inputs, !SIZES.contains(&n));
        limits::sizes(comparison, random, Block::P(n), &[size])?;
    }
    Ok(())
}

/// Compares the programming of a list that may be no permutation.
fn program_list(comparison: &mut Comparison, random: &mut Random, wanted: &[u16]) -> Outcome {
    let programming = Programming::of(Block::P(wanted.len() as u32), wanted);
    let due = first_failing(&[(Fault::Source, !is_permutation(wanted))]);
    compare_programming(comparison, random, &programming, due)?;
    Ok(())
}

/// Every list of N entries from 0 to N + 1, for N up to 4.
fn every_small_list(comparison: &mut Comparison, random: &mut Random) -> Outcome {
    comparison.begin("every list of up to 4 wanted inputs");
    for size in [1, 2, 4] {
        let entries: u32 = size + 2;
        for list in 0..entries.pow(size) {
            let entry = |place| (list / entries.pow(place) % entries) as u16;
            let wanted: Vec<u16> = (0..size).map(entry).collect();
            program_list(comparison, random, &wanted)?;
        }
    }
    Ok(())
}

/// Permutations with one entry out of range, or with the entry of another place.
fn changed_lists(comparison: &mut Comparison, random: &mut Random) -> Outcome {
    comparison.begin("one wanted input changed");
    for size in SIZES {
        for _ in 0..600 {
            let mut programming = Programming::sound(random, Block::P(size));
            refusals::spoil_wanted(random, &mut programming);
            compare_programming(comparison, random, &programming, Fault::Source.number())?;
        }
    }
    Ok(())
}

/// Lists of random entries, most of them in range, which are seldom permutations.
fn random_lists(comparison: &mut Comparison, random: &mut Random) -> Outcome {
    comparison.begin("random lists of wanted inputs");
    for size in SIZES {
        for _ in 0..600 {
            let low = random.choose(&[0, 1, 1]);
            let entry = |_| random.between(low, size as u16);
            let wanted: Vec<u16> = (0..size).map(entry).collect();
            program_list(comparison, random, &wanted)?;
        }
    }
    Ok(())
}
