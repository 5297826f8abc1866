//! Fabrics of every K, many u and v, with their rows by kind; counts that have none; table buffers
//! short to long.

use mukdalis::Fault;

use super::super::buffer::{buffer_lengths, shorter};
use super::super::{first_failing, Comparison, Outcome};
use super::{compare_kinds, compare_table, count_checks, limit_counts};
use crate::random::Random;
use crate::samples::fabric::{gates_of, table_len, UNIVERSAL_SIZES};
use crate::samples::Counts;

pub fn compare(comparison: &mut Comparison, random: &mut Random) -> Outcome {
    every_universal_size(comparison, random)?;
    every_gate_count(comparison, random)?;
    limits(comparison, random)?;
    table_lengths(comparison, random)?;
    failing_checks(comparison, random)
}

/// The fabric, into a buffer that may be longer, and the kinds of its rows there.
fn write(comparison: &mut Comparison, random: &mut Random, counts: [u32; 3]) -> Outcome {
    let [u, k, v] = counts;
    let len = table_len(u, k, v) + random.choose(&[0, 0, 1, 7]);
    let table = compare_table(comparison, random, counts, len, 0)?.library;
    compare_kinds(comparison, counts, &table)
}

/// For every K every u with some v and every v with some u.
fn every_universal_size(comparison: &mut Comparison, random: &mut Random) -> Outcome {
    comparison.begin("every K, every u, every v");
    for size in UNIVERSAL_SIZES {
        for every in 1..=64 {
            for some in [1, 2, 3, 32, 33, 64] {
                let k = gates_of(random, size);
                write(comparison, random, [every, k, some])?;
                let k = gates_of(random, size);
                write(comparison, random, [some, k, every])?;
            }
        }
    }
    Ok(())
}

fn every_gate_count(comparison: &mut Comparison, random: &mut Random) -> Outcome {
    comparison.begin("every k");
    for k in 1..=256 {
        for _ in 0..2 {
            let Counts(u, _, v) = Counts::random(random);
            write(comparison, random, [u.into(), k, v.into()])?;
        }
    }
    Ok(())
}

/// Counts at and beside their limits, with a table buffer of exact length, or none.
fn limits(comparison: &mut Comparison, random: &mut Random) -> Outcome {
    comparison.begin("u, k, v at and beside their limits");
    for u in limit_counts() {
        for k in limit_counts() {
            for v in limit_counts() {
                let counts = [u, k, v];
                let checks = count_checks(counts);
                let exact = match first_failing(&checks) {
                    0 => table_len(u, k, v),
                    _ => 100,
                };
                for len in [exact, 0] {
                    let short = [(Fault::Short, len == 0)];
                    let due = first_failing(&[&checks[..], &short].concat());
                    compare_table(comparison, random, counts, len, due)?;
                }
            }
        }
    }
    Ok(())
}

fn table_lengths(comparison: &mut Comparison, random: &mut Random) -> Outcome {
    comparison.begin("table buffers short to long");
    for k in [1, 2, 7, 30, 256] {
        for (u, v) in [(1, 1), (1, 64), (64, 1), (64, 64), (9, 5)] {
            let stated = table_len(u, k, v);
            for len in buffer_lengths(stated) {
                let due = first_failing(&[(Fault::Short, len < stated)]);
                compare_table(comparison, random, [u, k, v], len, due)?;
            }
        }
    }
    Ok(())
}

/// Calls in which any of the checks 2, 3, 4 and 11 fail.
fn failing_checks(comparison: &mut Comparison, random: &mut Random) -> Outcome {
    comparison.begin("every choice of failing checks");
    for choice in (0..16).cycle().take(16 * 40) {
        let Counts(u, k, v) = Counts::random(random);
        let mut counts = [u, k, v].map(u32::from);
        let mut len = table_len(counts[0], counts[1], counts[2]);
        for (check, count) in counts.iter_mut().enumerate() {
            if choice >> check & 1 == 1 {
                *count = random.choose(&[0, 257, *count + (1 << 8), *count + (1 << 16), u32::MAX]);
            }
        }
        let room_fails = choice >> 3 & 1 == 1;
        if room_fails {
            len = shorter(random, len);
        }
        let short = [(Fault::Short, room_fails)];
        let due = first_failing(&[&count_checks(counts)[..], &short].concat());
        compare_table(comparison, random, counts, len, due)?;
    }
    Ok(())
}
