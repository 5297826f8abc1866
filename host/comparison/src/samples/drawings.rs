//! Drawings: records whose operands may be any of their wires. Some are plans drawn in another order,
//! others have a ring.

use mukdalis::{Gate, Plan};

use super::permutation::random_permutation;
use super::{accepted_plan, Counts};
use crate::random::Random;
use crate::reference::plan::used_gates;

/// Tables that look at no operand, at the first alone, at the second alone.
const LOOKING_AT_NONE: [u16; 2] = [0, 15];
const LOOKING_AT_FIRST: [u16; 2] = [3, 12];
const LOOKING_AT_SECOND: [u16; 2] = [5, 10];

/// The plan drawn so that the gate at place p has the drawn number `numbers[p - 1]`. The numbers are
/// a permutation of its gates. The drawing gives what the plan gives.
pub fn drawn_as(plan: &Plan, numbers: &[u16]) -> Plan {
    let u = plan.inputs;
    let renumbered = |wire: u16| match wire.checked_sub(u + 1) {
        Some(place) => u + numbers[usize::from(place)],
        None => wire,
    };
    let mut drawing = *plan;
    for (&g, gate) in numbers.iter().zip(used_gates(plan)) {
        drawing.gates[usize::from(g) - 1] = Gate {
            first: renumbered(gate.first),
            second: renumbered(gate.second),
            table: gate.table,
        };
    }
    for output in &mut drawing.outputs[..usize::from(plan.output_count)] {
        *output = renumbered(*output);
    }
    drawing
}

/// A random accepted plan drawn in a random order.
pub fn shuffled_plan(random: &mut Random, counts: Counts) -> Plan {
    let plan = accepted_plan(random, counts);
    shuffled(random, &plan)
}

/// The plan drawn in a random order.
pub fn shuffled(random: &mut Random, plan: &Plan) -> Plan {
    let numbers = random_permutation(random, plan.gate_count.into());
    drawn_as(plan, &numbers)
}

/// A drawing of random operands, any of its wires; few have an order.
pub fn any_drawing(random: &mut Random, counts: Counts) -> Plan {
    let Counts(u, k, _) = counts;
    let mut drawing = accepted_plan(random, counts);
    for gate in &mut drawing.gates[..usize::from(k)] {
        let mut operand = || {
            let (input, any) = (random.between(1, u), random.between(1, u + k));
            random.choose(&[input, any])
        };
        (gate.first, gate.second) = (operand(), operand());
    }
    drawing
}

/// Gate g draws from gate g + 1 and an input, the last gate from inputs: each search goes through all
/// gates that are left.
pub fn backwards(random: &mut Random, counts: Counts) -> Plan {
    let Counts(u, k, _) = counts;
    let mut drawing = accepted_plan(random, counts);
    for g in 1..=k {
        let gate = &mut drawing.gates[usize::from(g) - 1];
        gate.first = match g {
            last if last == k => random.between(1, u),
            _ => u + g + 1,
        };
        gate.second = random.between(1, u);
    }
    drawing
}

/// How the gates of a ring draw from each other.
#[derive(Clone, Copy, Debug, PartialEq)]
pub enum Feed {
    First,
    Second,
    Both,
    /// By operands that the tables ignore.
    Ignored,
}

impl Feed {
    pub const ALL: [Feed; 4] = [Feed::First, Feed::Second, Feed::Both, Feed::Ignored];

    pub fn random(random: &mut Random) -> Feed {
        random.choose(&Feed::ALL)
    }

    /// A gate fed by this wire, and by an input where it has another operand.
    fn gate(self, random: &mut Random, wire: u16, input: u16) -> Gate {
        let (first, second) = match self {
            Feed::First => (wire, input),
            Feed::Second => (input, wire),
            Feed::Both => (wire, wire),
            Feed::Ignored => random.choose(&[(wire, input), (input, wire), (wire, wire)]),
        };
        let blind = match (first == wire, second == wire) {
            (true, true) => LOOKING_AT_NONE,
            (true, false) => LOOKING_AT_SECOND,
            _ => LOOKING_AT_FIRST,
        };
        let table = match self {
            Feed::Ignored => random.choose(&[blind, LOOKING_AT_NONE].concat()),
            _ => random.between(0, 15),
        };
        Gate {
            first,
            second,
            table,
        }
    }
}

/// A drawing with a ring: some gates feed each other in one loop. Every other loop goes through
/// gates of this one.
pub struct Cycle {
    pub drawing: Plan,
    /// The gates, from 1, each fed by the one behind it, the last by the first.
    pub gates: Vec<u16>,
    pub feed: Feed,
}

impl Cycle {
    /// A plan drawn in a random order, with a ring of so many of its gates.
    pub fn random(random: &mut Random, counts: Counts, size: u16, feed: Feed) -> Cycle {
        let mut gates: Vec<u16> = (1..=counts.1).collect();
        random.shuffle(&mut gates);
        gates.truncate(size.into());
        Cycle::among(random, counts, gates, feed)
    }

    /// The same with a ring of the last gates, from which an earlier gate draws.
    pub fn fed_forward(random: &mut Random, counts: Counts, size: u16) -> Cycle {
        let Counts(u, k, _) = counts;
        let mut gates: Vec<u16> = (k - size + 1..=k).collect();
        random.shuffle(&mut gates);
        let feed = Feed::random(random);
        let mut cycle = Cycle::among(random, counts, gates, feed);
        let g = random.between(1, k - size);
        let wire = u + random.choose(&cycle.gates);
        let gate = &mut cycle.drawing.gates[usize::from(g) - 1];
        match random.one_in(2) {
            true => gate.first = wire,
            false => gate.second = wire,
        }
        cycle
    }

    fn among(random: &mut Random, counts: Counts, gates: Vec<u16>, feed: Feed) -> Cycle {
        let u = counts.0;
        let mut drawing = shuffled_plan(random, counts);
        let next = gates.iter().cycle().skip(1);
        for (&g, &next) in gates.iter().zip(next) {
            let input = random.between(1, u);
            drawing.gates[usize::from(g) - 1] = feed.gate(random, u + next, input);
        }
        Cycle {
            drawing,
            gates,
            feed,
        }
    }

    /// The lowest gate left over: those of the ring are, and those that draw from one that is.
    pub fn lowest_left(&self) -> u16 {
        let mut left = self.gates.clone();
        let mut next = 0;
        while let Some(&from) = left.get(next) {
            let wire = self.drawing.inputs + from;
            for (g, gate) in (1..).zip(used_gates(&self.drawing)) {
                let draws = gate.first == wire || gate.second == wire;
                if draws && !left.contains(&g) {
                    left.push(g);
                }
            }
            next += 1;
        }
        left.into_iter().min().expect("a ring has a gate")
    }
}

#[cfg(test)]
mod tests {
    use super::super::{PlanFile, Standing};
    use super::*;
    use crate::reference::plan::gate_bit;
    use crate::reference::{drawn, plan};

    #[test]
    fn a_plan_drawn_in_its_own_order_is_itself() {
        let mut random = Random::new(1);
        let plan = accepted_plan(&mut random, Counts(3, 9, 4));
        let numbers: Vec<u16> = (1..=9).collect();
        assert_eq!(drawn_as(&plan, &numbers), plan);
    }

    /// Gate 1 an input, gate 2 on gate 1, drawn the other way round.
    #[test]
    fn operands_and_outputs_follow_the_drawn_numbers() {
        let gate = |first, second| Gate {
            first,
            second,
            table: 8,
        };
        let mut plan = Plan {
            inputs: 1,
            gate_count: 2,
            output_count: 2,
            ..Plan::ZERO
        };
        plan.gates[..2].copy_from_slice(&[gate(1, 1), gate(2, 1)]);
        plan.outputs[..2].copy_from_slice(&[2, 3]);
        let drawing = drawn_as(&plan, &[2, 1]);
        assert_eq!(drawing.gates[..2], [gate(3, 1), gate(1, 1)]);
        assert_eq!(drawing.outputs[..2], [3, 2]);
    }

    #[test]
    fn shuffled_plans_have_an_order() {
        let mut random = Random::new(2);
        for _ in 0..1_000 {
            let counts = Counts::random(&mut random);
            let drawing = shuffled_plan(&mut random, counts);
            let file = PlanFile::random(&mut random, &drawing).bytes;
            assert!(drawn::read(&file).is_ok());
        }
    }

    #[test]
    fn gates_drawn_backwards_are_taken_from_the_last() {
        let mut random = Random::new(3);
        for counts in [Counts::LEAST, Counts(2, 7, 1), Counts::MOST] {
            let drawing = backwards(&mut random, counts);
            let file = PlanFile::random(&mut random, &drawing).bytes;
            let drawn = drawn::read(&file).expect("the gates have an order");
            let falling = (1..=counts.1).rev();
            assert!(drawn.drawn_numbers().iter().copied().eq(falling));
        }
    }

    #[test]
    fn cycles_are_refused_at_the_lowest_gate_left_over() {
        let mut random = Random::new(4);
        for size in 1..=Plan::MAX_GATES as u16 {
            let k = random.between(size, Plan::MAX_GATES as u16);
            let feed = Feed::random(&mut random);
            let cycle = Cycle::random(&mut random, Counts(2, k, 1), size, feed);
            assert_eq!(cycle.gates.len(), usize::from(size));
            let file = PlanFile::random(&mut random, &cycle.drawing);
            let refusal = drawn::read(&file.bytes).expect_err("there is a ring");
            assert_eq!(refusal.fault.number(), 15);
            assert_eq!(refusal.at as usize, file.map_offset(cycle.lowest_left()));
        }
    }

    #[test]
    fn a_gate_before_a_cycle_draws_from_it() {
        let mut random = Random::new(5);
        for size in 1..20 {
            let k = random.between(size + 1, 30);
            let cycle = Cycle::fed_forward(&mut random, Counts(2, k, 1), size);
            assert!(!cycle.gates.contains(&cycle.lowest_left()));
        }
    }

    /// The gate's bit is the same whatever the ring's wire carries.
    #[test]
    fn ignored_operands_are_ignored() {
        let mut random = Random::new(6);
        for _ in 0..200 {
            let gate = Feed::Ignored.gate(&mut random, 9, 1);
            let bit = |cycle: u8, input: u8| {
                let value = |wire| if wire == 9 { cycle } else { input };
                gate_bit(gate.table, value(gate.first), value(gate.second))
            };
            assert!(gate.first == 9 || gate.second == 9);
            for input in [0, 1] {
                assert_eq!(bit(0, input), bit(1, input), "{gate:?}");
            }
        }
    }

    #[test]
    fn a_file_has_its_map_bytes() {
        let mut random = Random::new(7);
        let plan = accepted_plan(&mut random, Counts(2, 3, 1));
        let file = PlanFile::new(&mut random, &plan, Standing::All);
        assert_eq!([1, 2, 3].map(|g| file.map_offset(g)), [6, 12, 18]);
        assert!(plan::read(&file.bytes).is_ok());
    }
}
