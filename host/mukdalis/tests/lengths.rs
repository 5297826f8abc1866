//! The stated lengths: as many entries are enough, one less is refused. `lengths.c` has the same for
//! the header's, and its limits.

use mukdalis::*;

/// Sizes of S: 1 to 17, and at and beside the powers of two above.
fn sizes() -> Vec<u32> {
    let mut sizes: Vec<u32> = (1..=17).collect();
    for power in [32, 64, 128, 256, 512] {
        sizes.extend([power - 1, power, power + 1]);
    }
    sizes.retain(|&size| size <= MAX_SIZE);
    sizes
}

/// The highest next unmade wire from which so many wires can be made.
fn last_next(size: BlockSize) -> u32 {
    u32::from(u16::MAX) + 1 - size.wires
}

/// A block of this size with n outputs: the stated lengths and the highest next wire pass, one entry
/// or byte less is short, one wire more is too many. P(1) and S(1, 1) have no row to take away.
fn check_lengths(
    size: BlockSize,
    n: u32,
    write: impl Fn(u32, &mut [u16], &mut [u16]) -> Result<(), Fault>,
    program: impl Fn(&mut [u8]) -> Result<(), Fault>,
) {
    let write = |next, rows, outputs| write(next, &mut vec![0; rows], &mut vec![0; outputs]);
    let program = |bytes| program(&mut vec![0; bytes]);
    let (rows, outputs, bytes) = (size.rows_len(), n as usize, size.program_len());
    assert_eq!(write(last_next(size), rows, outputs), Ok(()));
    assert_eq!(write(1, rows, outputs - 1), Err(Fault::Short));
    assert_eq!(program(bytes), Ok(()));
    if size.rows > 0 {
        let past = write(last_next(size) + 1, rows, outputs);
        assert_eq!(past, Err(Fault::Fabric));
        assert_eq!(write(1, rows - 1, outputs), Err(Fault::Short));
        assert_eq!(program(bytes - 1), Err(Fault::Short));
    }
}

#[test]
fn lengths_of_permutations() {
    for level in 0..=MAX_SIZE.ilog2() {
        let n = 1 << level;
        let size = count_permutation(n).expect("n is a size of P");
        let wanted: Vec<u16> = (1..=n as u16).collect();
        check_lengths(
            size,
            n,
            |next, rows, outputs| write_permutation(n, &vec![0; n as usize], next, rows, outputs),
            |program| program_permutation(n, &wanted, program),
        );
    }
}

#[test]
fn lengths_of_selections() {
    for m in sizes() {
        for n in sizes() {
            let size = count_selection(m, n).expect("m and n are sizes of S");
            let (inputs, wanted) = (vec![0; m as usize], vec![1; n as usize]);
            check_lengths(
                size,
                n,
                |next, rows, outputs| write_selection(m, n, &inputs, next, rows, outputs),
                |program| program_selection(m, n, &wanted, program),
            );
        }
    }
}

/// The lists are empty: contact, which comes after the sizes' checks, says that the sizes pass.
#[test]
fn sizes_that_the_calls_refuse_have_no_length() {
    for n in [0, 3, 511, 513, 1024, 1 << 31, u32::MAX] {
        let refused = write_permutation(n, &[], 1, &mut [], &mut []);
        assert_eq!(count_permutation(n).err(), refused.err());
        for (m, n) in [(n, 1), (1, n), (n, n)] {
            let refused = match write_selection(m, n, &[], 1, &mut [], &mut []) {
                Err(Fault::Contact) => None,
                answer => answer.err(),
            };
            assert_eq!(count_selection(m, n).err(), refused);
        }
    }
}

/// A plan of these counts whose gates are all input 1 AND input 1.
fn plan_of(inputs: u16, gate_count: u16, output_count: u16) -> Plan {
    let gate = Gate {
        first: 1,
        second: 1,
        table: 8,
    };
    let mut plan = Plan {
        inputs,
        gate_count,
        output_count,
        gates: [gate; Plan::MAX_GATES],
        outputs: [inputs + 1; Plan::MAX_OUTPUTS],
        ..Plan::ZERO
    };
    plan.settle_figures();
    plan
}

/// u, k and v of small plans, of the largest, and between.
const COUNTS: [(u16, u16, u16); 8] = [
    (1, 1, 1),
    (2, 2, 1),
    (3, 3, 2),
    (64, 1, 1),
    (1, 2, 64),
    (33, 9, 17),
    (17, 129, 33),
    (64, 256, 64),
];

/// The plan's saved file has so many bytes: they are enough, one less is refused.
fn check_saved_length(plan: &Plan, len: usize) {
    let save = |len| {
        let raw::Saved { number, length } = raw::plan_save(plan, &mut vec![9; len]);
        (number, length as usize)
    };
    assert_eq!(save(len), (0, len));
    assert_eq!(save(len - 1), (Fault::Short.number(), 0));
    assert_eq!(mukdalis::save(plan).map(|file| file.len()), Ok(len));
}

/// Of a gate the first operand alone stands, unless it is the wire before.
#[test]
fn lengths_of_saved_plans() {
    for (u, k, v) in COUNTS {
        let absent = if u == 1 { 2 } else { 0 };
        let len = 6 + 3 * k - absent + 2 * v;
        check_saved_length(&plan_of(u, k, v), len.into());
    }
}

/// No field of any gate equals what its absence means.
#[test]
fn the_longest_saved_plan() {
    let gate = Gate {
        first: 1,
        second: 2,
        table: 6,
    };
    let mut plan = Plan {
        gates: [gate; Plan::MAX_GATES],
        ..plan_of(2, 256, 64)
    };
    plan.settle_figures();
    check_saved_length(&plan, Plan::MAX_FILE_LEN);
}

#[test]
fn lengths_of_fabrics() {
    for (u, k, v) in COUNTS {
        let plan = plan_of(u, k, v);
        let [u, k, v] = plan.counts();
        let size = count_fabric(u, k, v).expect("the counts are in range");

        let mut table = vec![0; size.table_len(v)];
        let last = table.len() - 1;
        assert_eq!(write_fabric(u, k, v, &mut table[..last]), Err(Fault::Short));
        assert_eq!(write_fabric(u, k, v, &mut table), Ok(()));

        let mut program = vec![0; size.program_len()];
        let last = program.len() - 1;
        assert_eq!(program_plan(&plan, &mut program[..last]), Err(Fault::Short));
        assert_eq!(program_plan(&plan, &mut program), Ok(()));

        let row = vec![1; u as usize];
        let run = |work_len, result_len| {
            let (mut work, mut result) = (vec![9; work_len], vec![9; result_len]);
            run_fabric(&table, &program, &row, &mut work, &mut result).map(|()| result)
        };
        let (work_len, result_len) = (size.work_len(), v as usize);
        assert_eq!(run(work_len, result_len), Ok(vec![1; result_len]));
        assert_eq!(run(work_len - 1, result_len), Err(Fault::Short));
        assert_eq!(run(work_len, result_len - 1), Err(Fault::Short));
    }
}

/// One gate more than the most is refused; with the most inputs they are the most wires.
#[test]
fn the_most_gates_of_a_plan() {
    let gate = Gate {
        first: Plan::MAX_WIRES as u16 - 1,
        second: 1,
        table: 8,
    };
    let plan = plan_of(64, 255, 64).append_gate(gate);
    let plan = plan.expect("there is room for a gate");
    assert_eq!(plan.uses_of(Plan::MAX_WIRES as u16), Some(0));
    assert_eq!(plan.append_gate(gate), Err(Fault::Gates));
}

type Answer = Result<(), Fault>;

/// A plan's series and its fabric's, on zeros.
struct PlanSeries {
    plan: Plan,
    table: Vec<u16>,
    program: Vec<u8>,
    hold: usize,
    intervals: usize,
}

impl PlanSeries {
    fn of(plan: Plan, hold: usize, intervals: usize) -> PlanSeries {
        let [u, k, v] = plan.counts();
        let size = count_fabric(u, k, v).expect("the counts are in range");
        let (mut table, mut program) = (vec![0; size.table_len(v)], vec![0; size.program_len()]);
        assert_eq!(write_fabric(u, k, v, &mut table), Ok(()));
        assert_eq!(program_plan(&plan, &mut program), Ok(()));
        PlanSeries {
            plan,
            table,
            program,
            hold,
            intervals,
        }
    }

    /// The lengths of fresh, start, results and end, and of the work, which the plan's has not.
    fn lengths(&self) -> [usize; 5] {
        let [u, k, v] = self.plan.counts();
        let size = count_fabric(u, k, v).expect("the counts are in range");
        let (fresh, results) = (u as usize - self.hold, v as usize);
        [
            self.intervals * fresh,
            self.hold,
            self.intervals * results,
            self.hold,
            size.work_len(),
        ]
    }

    fn by_plan(&self, lens: [usize; 5]) -> Answer {
        self.answer(lens, |series, results, end, _| {
            evaluate_series(&self.plan, series, results, end)
        })
    }

    fn by_fabric(&self, lens: [usize; 5]) -> Answer {
        self.answer(lens, |series, results, end, work| {
            run_series(&self.table, &self.program, series, work, results, end)
        })
    }

    fn answer(
        &self,
        lens: [usize; 5],
        call: impl Fn(Series, &mut [u8], &mut [u8], &mut [u8]) -> Answer,
    ) -> Answer {
        let [fresh, start, mut results, mut end, mut work] = lens.map(|len| vec![0; len]);
        let series = Series {
            hold: self.hold as u32,
            intervals: self.intervals as u32,
            fresh: &fresh,
            start: &start,
        };
        call(series, &mut results, &mut end, &mut work)
    }
}

/// The answers of the two series where one length is one less, or one more.
const LESS: [[Answer; 2]; 5] = [
    [Err(Fault::Contact); 2],
    [Err(Fault::Contact); 2],
    [Err(Fault::Short); 2],
    [Err(Fault::Short); 2],
    [Ok(()), Err(Fault::Short)],
];
const MORE: [[Answer; 2]; 5] = [
    [Err(Fault::Contact); 2],
    [Err(Fault::Contact); 2],
    [Ok(()); 2],
    [Ok(()); 2],
    [Ok(()); 2],
];

#[test]
fn lengths_of_series() {
    for (u, k, v) in COUNTS {
        for hold in [0, u.min(v).into()] {
            for intervals in [0, 1, 3] {
                let series = PlanSeries::of(plan_of(u, k, v), hold, intervals);
                let stated = series.lengths();
                let answers = |lens| [series.by_plan(lens), series.by_fabric(lens)];
                assert_eq!(answers(stated), [Ok(()); 2]);
                for place in 0..stated.len() {
                    let (mut less, mut more) = (stated, stated);
                    more[place] += 1;
                    assert_eq!(answers(more), MORE[place], "{more:?}");
                    if stated[place] > 0 {
                        less[place] -= 1;
                        assert_eq!(answers(less), LESS[place], "{less:?}");
                    }
                }
            }
        }
    }
}

/// The largest plan, and the fabric of the least.
#[test]
fn the_most_intervals_of_a_series() {
    let most = MAX_INTERVALS as usize;
    for (intervals, due) in [(most, Ok(())), (most + 1, Err(Fault::Hold))] {
        for hold in [0, 64] {
            let series = PlanSeries::of(plan_of(64, 256, 64), hold, intervals);
            assert_eq!(series.by_plan(series.lengths()), due);
        }
        for hold in [0, 1] {
            let series = PlanSeries::of(plan_of(1, 1, 1), hold, intervals);
            assert_eq!(series.by_fabric(series.lengths()), due);
        }
    }
}

/// One above u, or above v.
#[test]
fn the_most_held_outputs() {
    for (u, v) in [(3, 2), (2, 3), (64, 64), (1, 64)] {
        let least = u.min(v);
        for (hold, due) in [(least, Ok(())), (least + 1, Err(Fault::Hold))] {
            let mut series = PlanSeries::of(plan_of(u, 3, v), least.into(), 1);
            let lens = series.lengths();
            series.hold = hold.into();
            assert_eq!([series.by_plan(lens), series.by_fabric(lens)], [due; 2]);
        }
    }
}
