//! Runs of our own fabrics with any program, and of well-formed tables of any shape, up to the most
//! wires and just above.

use mukdalis::Fault;

use super::super::buffer::buffer_lengths;
use super::super::{first_failing, Comparison, Outcome};
use super::{compare_run, compare_table};
use crate::random::Random;
use crate::samples::blocks::MOST_WIRES;
use crate::samples::fabric::{gates_of, table_len, Run, Shape, Table, UNIVERSAL_SIZES};
use crate::samples::Counts;

pub fn compare(comparison: &mut Comparison, random: &mut Random) -> Outcome {
    own_fabrics(comparison, random)?;
    few_rows(comparison, random)?;
    many_rows(comparison, random)?;
    most_wires(comparison, random)?;
    too_many_wires(comparison, random)?;
    work_and_result_lengths(comparison, random)
}

/// The run with buffers that may be longer.
fn run(comparison: &mut Comparison, random: &mut Random, mut case: Run) -> Outcome {
    for len in [&mut case.work_len, &mut case.result_len] {
        *len += random.choose(&[0, 0, 1, 7]);
    }
    compare_run(comparison, random, &case, Some(0))
}

/// Fabrics of every K as the library writes them, with random programs.
fn own_fabrics(comparison: &mut Comparison, random: &mut Random) -> Outcome {
    comparison.begin("fabrics with random programs");
    for size in UNIVERSAL_SIZES {
        for _ in 0..40 {
            let Counts(u, _, v) = Counts::random(random);
            let counts = [u.into(), gates_of(random, size), v.into()];
            let len = table_len(counts[0], counts[1], counts[2]);
            let table = compare_table(comparison, random, counts, len, 0)?.library;
            for _ in 0..6 {
                let case = Run::of(random, &table);
                run(comparison, random, case)?;
            }
        }
    }
    Ok(())
}

/// Tables of no rows or few, each with some programs and rows.
fn few_rows(comparison: &mut Comparison, random: &mut Random) -> Outcome {
    comparison.begin("tables of up to 12 rows");
    for shape in Shape::ALL {
        for rows in (0..=12).cycle().take(13 * 100) {
            let table = Table::of_rows(random, shape, rows).entries();
            for _ in 0..5 {
                let case = Run::of(random, &table);
                run(comparison, random, case)?;
            }
        }
    }
    Ok(())
}

fn many_rows(comparison: &mut Comparison, random: &mut Random) -> Outcome {
    comparison.begin("tables of up to 40,000 rows");
    for shape in Shape::ALL {
        for most in [100, 1_000, 1_000, 40_000] {
            for _ in 0..20 {
                let rows = random.between(13, most);
                let table = Table::of_rows(random, shape, rows).entries();
                let case = Run::of(random, &table);
                run(comparison, random, case)?;
            }
        }
    }
    Ok(())
}

/// Tables of 65,536 wires or a few less; the last row makes two wires or one.
fn most_wires(comparison: &mut Comparison, random: &mut Random) -> Outcome {
    comparison.begin("tables of up to 65,536 wires");
    for shape in Shape::ALL {
        for wires in MOST_WIRES - 3..=MOST_WIRES {
            for ends_in_pair in [false, true] {
                let table = Table::of_wires(random, shape, wires, ends_in_pair).entries();
                let case = Run::of(random, &table);
                run(comparison, random, case)?;
            }
        }
    }
    Ok(())
}

/// Tables with more wires, all else being as it should.
fn too_many_wires(comparison: &mut Comparison, random: &mut Random) -> Outcome {
    comparison.begin("tables of more wires");
    let mut cases = Vec::new();
    for shape in Shape::ALL {
        cases.push((shape, MOST_WIRES + 1, false));
        cases.push((shape, MOST_WIRES + 1, true));
        cases.push((shape, MOST_WIRES + 2, true));
    }
    cases.push((Shape::Any, MOST_WIRES + 15_000, false));
    cases.push((Shape::OneKind(1), 2 * MOST_WIRES - 70, true));
    cases.push((Shape::OneKind(1), 2 * MOST_WIRES, true));
    for (shape, wires, ends_in_pair) in cases {
        let table = Table::of_wires(random, shape, wires, ends_in_pair).entries();
        let case = Run::of(random, &table);
        let due = first_failing(&[(Fault::Fabric, true)]);
        compare_run(comparison, random, &case, Some(due))?;
    }
    Ok(())
}

fn work_and_result_lengths(comparison: &mut Comparison, random: &mut Random) -> Outcome {
    comparison.begin("work and result buffers short to long");
    let mut tables = vec![Table::of_wires(random, Shape::Any, MOST_WIRES, true)];
    tables.extend([0, 1, 5, 300].map(|rows| Table::of_rows(random, Shape::Any, rows)));
    for table in tables.iter().map(Table::entries) {
        let sound = Run::of(random, &table);
        for work_len in buffer_lengths(sound.work_len) {
            for result_len in buffer_lengths(sound.result_len) {
                let mut case = Run::of(random, &table);
                case.work_len = work_len;
                case.result_len = result_len;
                let is_short = work_len < sound.work_len || result_len < sound.result_len;
                let due = first_failing(&[(Fault::Short, is_short)]);
                compare_run(comparison, random, &case, Some(due))?;
            }
        }
    }
    Ok(())
}
