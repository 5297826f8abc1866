//! Drawings with a ring: number 15, at the map byte of the lowest gate left over, and only where no
//! other check fails.

use mukdalis::{raw, Fault, Plan};

use super::compare_reading;
use crate::random::Random;
use crate::reference::plan::used_gates;
use crate::samples::drawings::{Cycle, Feed};
use crate::samples::{Counts, Field, PlanFile};
use crate::show::{hex, show_drawn, show_plan};
use crate::{Comparison, Difference, Outcome};

const MAX_GATES: u16 = Plan::MAX_GATES as u16;

pub fn compare(comparison: &mut Comparison, random: &mut Random) -> Outcome {
    let mut seen = Seen::default();
    every_size(comparison, random, &mut seen)?;
    fed_forward(comparison, random, &mut seen)?;
    seen.check()?;
    with_other_faults(comparison, random)?;
    cut_cycles(comparison, random)
}

/// What the refused rings were.
#[derive(Default)]
struct Seen {
    /// Their sizes, one entry a ring.
    sizes: Vec<usize>,
    /// Where the lowest gate left over was one of the ring.
    inside: u64,
    /// Where it only draws from the ring.
    outside: u64,
    /// Where every gate of the ring ignores what feeds it.
    ignored: u64,
}

impl Seen {
    fn count(&mut self, cycle: &Cycle, lowest_left: u16) {
        self.sizes.push(cycle.gates.len());
        match cycle.gates.contains(&lowest_left) {
            true => self.inside += 1,
            false => self.outside += 1,
        }
        self.ignored += u64::from(cycle.feed == Feed::Ignored);
    }

    /// Fails if a kind of ring was never compared.
    fn check(&self) -> Outcome {
        let missing = (1..=Plan::MAX_GATES).find(|size| !self.sizes.contains(size));
        if let Some(size) = missing {
            return Err(Difference(format!("no ring had {size} gates\n")));
        }
        for (what, seen) in [
            ("held the lowest gate left over", self.inside),
            ("lay behind the lowest gate left over", self.outside),
            ("was fed by ignored operands", self.ignored),
        ] {
            if seen == 0 {
                return Err(Difference(format!("no ring {what}\n")));
            }
        }
        Ok(())
    }
}

/// Fails if the answer to the file of a drawing is not 15 at the map byte of gate g.
pub fn check_cycle(
    comparison: &Comparison,
    file: &PlanFile,
    g: u16,
    found: &raw::Drawn,
) -> Outcome {
    let due = (Fault::Ring, file.map_offset(g));
    check_due(comparison, &file.bytes, due, found)
}

/// Fails if the answer to a file is not this fault at this offset.
fn check_due(
    comparison: &Comparison,
    file: &[u8],
    (fault, at): (Fault, usize),
    found: &raw::Drawn,
) -> Outcome {
    if (found.number, found.at) == (fault.number(), at as u64) {
        return Ok(());
    }
    Err(comparison.difference(&[
        ("drawn file", hex(file)),
        ("due", format!("{fault} at {at}")),
        ("both say", show_drawn(found)),
    ]))
}

/// The lowest gate of all sets of gates that each draw from a gate of the same set, by trying every
/// set.
pub fn lowest_of_all(drawing: &Plan) -> Option<u16> {
    let u = drawing.inputs;
    let sets = 1..1_u32 << drawing.gate_count;
    let has = |set: u32, wire: u16| wire > u && set >> (wire - u - 1) & 1 == 1;
    let is_cycle = |set: &u32| {
        let gates = (0..).zip(used_gates(drawing));
        let mut gates = gates.filter(|&(g, _)| set >> g & 1 == 1);
        gates.all(|(_, gate)| has(*set, gate.first) || has(*set, gate.second))
    };
    let cycles = sets.filter(is_cycle);
    cycles.map(|set| set.trailing_zeros() as u16 + 1).min()
}

/// Compares the file of a ring, which is refused at its lowest gate left over.
fn compare_cycle(
    comparison: &mut Comparison,
    random: &mut Random,
    seen: &mut Seen,
    cycle: &Cycle,
) -> Outcome {
    let file = PlanFile::random(random, &cycle.drawing);
    let found = compare_reading(comparison, &file.bytes)?;
    let left = cycle.lowest_left();
    check_cycle(comparison, &file, left, &found)?;
    seen.count(cycle, left);
    Ok(())
}

/// Rings of every size whose gates look at what feeds them or not, then of gates that ignore it.
fn every_size(comparison: &mut Comparison, random: &mut Random, seen: &mut Seen) -> Outcome {
    comparison.begin("rings of every size");
    for size in 1..=MAX_GATES {
        for _ in 0..10 {
            for feed in [Feed::First, Feed::Second, Feed::Both] {
                compare_size(comparison, random, seen, size, feed)?;
            }
        }
    }
    comparison.begin("rings by ignored operands, every size");
    for size in 1..=MAX_GATES {
        for _ in 0..10 {
            compare_size(comparison, random, seen, size, Feed::Ignored)?;
        }
    }
    Ok(())
}

/// A ring of this size in a drawing of as many gates or of more.
fn compare_size(
    comparison: &mut Comparison,
    random: &mut Random,
    seen: &mut Seen,
    size: u16,
    feed: Feed,
) -> Outcome {
    let Counts(u, _, v) = Counts::random(random);
    let any = random.between(size, MAX_GATES);
    let k = random.choose(&[size, any, any, MAX_GATES]);
    let cycle = Cycle::random(random, Counts(u, k, v), size, feed);
    compare_cycle(comparison, random, seen, &cycle)
}

/// Rings of the last gates, and an earlier gate that draws from them: it is left over too.
fn fed_forward(comparison: &mut Comparison, random: &mut Random, seen: &mut Seen) -> Outcome {
    comparison.begin("a gate before a ring draws from it");
    for _ in 0..5_000 {
        let Counts(u, k, v) = Counts::random(random);
        let k = k.max(2);
        let size = random.between(1, k - 1);
        let cycle = Cycle::fed_forward(random, Counts(u, k, v), size);
        let inside = seen.inside;
        compare_cycle(comparison, random, seen, &cycle)?;
        if seen.inside != inside {
            let drawing = show_plan(&cycle.drawing);
            return Err(comparison.difference(&[("no gate draws from the ring", drawing)]));
        }
    }
    Ok(())
}

/// A ring of any size in a small drawing.
fn small_cycle(random: &mut Random) -> Cycle {
    let counts = Counts::small(random);
    let size = random.between(1, counts.1);
    let feed = Feed::random(random);
    Cycle::random(random, counts, size, feed)
}

/// Rings whose file has another fault too: bytes behind the end, a bad output, any field at or beside
/// its limits. What fails before 15 is answered.
fn with_other_faults(comparison: &mut Comparison, random: &mut Random) -> Outcome {
    comparison.begin("rings with another fault");
    for _ in 0..2_000 {
        let cycle = small_cycle(random);
        let file = PlanFile::random(random, &cycle.drawing);
        compare_tail(comparison, random, &file)?;
        for ((at, field), value, damaged) in file.at_limits() {
            let found = compare_reading(comparison, &damaged.bytes)?;
            if let Some(fault) = fault_of(field, value) {
                check_due(comparison, &damaged.bytes, (fault, at), &found)?;
            }
        }
    }
    Ok(())
}

/// Bytes behind the last output come before the ring.
fn compare_tail(comparison: &mut Comparison, random: &mut Random, file: &PlanFile) -> Outcome {
    let extra = random.choose(&[1, 2, 300]);
    let longer = file.with_tail(random, extra);
    let found = compare_reading(comparison, &longer)?;
    let due = (Fault::Tail, file.bytes.len());
    check_due(comparison, &longer, due, &found)
}

/// The fault of this value of an operand, a table or an output in a drawing. Counts and map bytes
/// decide what comes behind them: what is then due is left to the reference.
fn fault_of(field: Field, value: u16) -> Option<Fault> {
    let (is_bad, fault) = match field {
        Field::Operand { last, .. } => (value == 0 || value > last, Fault::Operand),
        Field::Table { most } => (value > most, Fault::Table),
        Field::Output { first, last } => (value < first || value > last, Fault::Source),
        Field::Count { .. } | Field::Map => return None,
    };
    is_bad.then_some(fault)
}

/// Files of rings cut at every byte.
fn cut_cycles(comparison: &mut Comparison, random: &mut Random) -> Outcome {
    comparison.begin("rings cut at every byte");
    for _ in 0..1_000 {
        let cycle = small_cycle(random);
        for cut in PlanFile::random(random, &cycle.drawing).cuts() {
            compare_reading(comparison, cut)?;
        }
    }
    Ok(())
}

#[cfg(test)]
mod tests {
    use super::super::drawn_record;
    use super::*;
    use crate::reference;
    use crate::samples::accepted_plan;

    #[test]
    fn no_plan_has_a_cycle() {
        let mut random = Random::new(1);
        for _ in 0..200 {
            let counts = Counts::small(&mut random);
            let plan = accepted_plan(&mut random, counts);
            assert_eq!(lowest_of_all(&plan), None);
        }
    }

    /// Trying every set finds what spreading from the ring finds.
    #[test]
    fn the_sets_of_a_cycle_have_its_lowest_gate_left_over() {
        let mut random = Random::new(2);
        for _ in 0..500 {
            let cycle = small_cycle(&mut random);
            assert_eq!(lowest_of_all(&cycle.drawing), Some(cycle.lowest_left()));
        }
    }

    #[test]
    fn cycles_that_were_not_seen_are_missed() {
        let mut random = Random::new(3);
        let mut seen = Seen::default();
        for size in 1..=MAX_GATES {
            assert!(seen.check().is_err());
            let counts = Counts(1, MAX_GATES, 1);
            let cycle = Cycle::random(&mut random, counts, size, Feed::Ignored);
            seen.count(&cycle, cycle.gates[0]);
        }
        assert!(seen.check().is_err());
        let cycle = Cycle::fed_forward(&mut random, Counts(1, 2, 1), 1);
        seen.count(&cycle, cycle.lowest_left());
        assert!(seen.check().is_ok());
    }

    #[test]
    fn another_answer_than_the_due_one_fails() {
        let mut random = Random::new(4);
        let cycle = small_cycle(&mut random);
        let file = PlanFile::random(&mut random, &cycle.drawing);
        let comparison = Comparison::default();
        let left = cycle.lowest_left();
        let mut found = drawn_record(&reference::drawn::read(&file.bytes));
        assert!(check_cycle(&comparison, &file, left, &found).is_ok());
        found.at += 1;
        assert!(check_cycle(&comparison, &file, left, &found).is_err());
    }
}
