//! The safe calls beside their examples: which fault comes first, and that a call writes its stated
//! entries alone.

use mukdalis::*;

const NOT: [u8; 10] = [1, 0, 1, 0, 1, 0, 4, 1, 2, 0];

/// The bench sheet's fabric (1,1,1).
const FABRIC: [u16; 16] = [1, 1, 4, 1, 1, 0, 2, 2, 3, 1, 2, 4, 3, 5, 6, 7];

#[test]
fn refused_plans_have_their_words() {
    let mut plan = read(&NOT).expect("the file is a plan");
    assert_eq!(evaluate(&plan, &[0], &mut []), Err(Fault::Short));
    assert_eq!(evaluate(&plan, &[2], &mut []), Err(Fault::Contact));
    assert_eq!(program_plan(&plan, &mut []), Err(Fault::Short));
    let mut refused = |change: fn(&mut Plan), fault| {
        change(&mut plan);
        for answer in [
            check(&plan),
            evaluate(&plan, &[2], &mut []),
            save(&plan).map(drop),
            program_plan(&plan, &mut []),
            plan.replace_gate(0, Gate::ZERO).map(drop),
            plan.append_gate(Gate::ZERO).map(drop),
            plan.replace_output(0, 0).map(drop),
        ] {
            assert_eq!(answer, Err(fault));
        }
    };
    refused(|plan| plan.gate_places = 2, Fault::Tally);
    refused(|plan| plan.gates[0].first = 2, Fault::Operand);
    assert_eq!(check(&Plan::ZERO), Err(Fault::Inputs));
}

/// Three inputs and a gate of every choice of standing fields; the last is gate 8, wire 11.
fn plan_of_every_map() -> Plan {
    let gate = |first, second, table| Gate {
        first,
        second,
        table,
    };
    let mut plan = Plan {
        inputs: 3,
        gate_count: 8,
        output_count: 2,
        ..Plan::ZERO
    };
    plan.gates[..8].copy_from_slice(&[
        gate(3, 3, 8),
        gate(1, 1, 8),
        gate(5, 1, 8),
        gate(1, 2, 8),
        gate(7, 7, 9),
        gate(2, 2, 0),
        gate(9, 9, 10),
        gate(2, 9, 14),
    ]);
    plan.outputs[..2].copy_from_slice(&[11, 4]);
    plan.settle_figures();
    plan
}

/// The same by hand.
#[rustfmt::skip]
const EVERY_MAP: [u8; 38] = [
    3, 0, 8, 0, 2, 0,
    0,
    1, 1, 0,
    2, 1, 0,
    3, 1, 0, 2, 0,
    4, 3,
    5, 2, 0, 0,
    6, 9, 0, 10,
    7, 2, 0, 9, 0, 14,
    11, 0, 4, 0,
];

#[test]
fn a_plan_is_saved_without_needless_fields() {
    let mut plan = plan_of_every_map();
    assert_eq!(save(&plan), Ok(EVERY_MAP.to_vec()));
    assert_eq!(read(&EVERY_MAP), Ok(plan));

    // No call looks at an unused place.
    plan.gates[8].table = 99;
    plan.outputs[2] = 99;
    plan.uses[11] = 99;
    assert_eq!(save(&plan), Ok(EVERY_MAP.to_vec()));
}

/// The second operand of NOT's gate equals the first: it is left out with tables 0, 1, 8 and 9.
#[test]
fn an_equal_second_operand_stands_where_the_table_needs_it() {
    let mut plan = read(&NOT).expect("the file is a plan");
    for table in 0..16 {
        plan.gates[0].table = table.into();
        let gate = match table {
            0 => vec![4, 0],
            1 => vec![4, 1],
            8 => vec![0],
            9 => vec![4, 3],
            _ => vec![6, 1, 0, table],
        };
        let file = [&NOT[..6], &gate, &NOT[8..]].concat();
        assert_eq!(save(&plan), Ok(file), "table {table}");
    }
}

#[test]
fn a_saved_file_fills_its_bytes_alone() {
    let plan = read(&NOT).expect("the file is a plan");
    let saved = |len: usize| {
        let mut file = [9; 16];
        let raw::Saved { number, length } = raw::plan_save(&plan, &mut file[..len]);
        (number, length, file)
    };
    let short = Fault::Short.number();
    assert_eq!(saved(0), (short, 0, [9; 16]));
    assert_eq!(saved(9), (short, 0, [9; 16]));
    for len in [10, 11, 16] {
        let (number, length, file) = saved(len);
        assert_eq!((number, length), (0, 10));
        assert_eq!((&file[..10], &file[10..]), (&NOT[..], &[9; 6][..]));
    }
}

/// Every word of a saving: the plan faults in their order, and short after them.
#[test]
fn refused_savings_have_their_words() {
    let mut plan = plan_of_every_map();
    let mut refused = |change: &dyn Fn(&mut Plan), fault: Fault| {
        change(&mut plan);
        assert_eq!(save(&plan), Err(fault));
        for len in [0, 38] {
            let mut file = [9; 38];
            let saved = raw::plan_save(&plan, &mut file[..len]);
            assert_eq!((saved.number, saved.length), (fault.number(), 0));
            assert_eq!(file, [9; 38]);
        }
    };
    refused(&|plan| plan.uses[10] = 0, Fault::Tally);
    refused(&|plan| plan.outputs[1] = 3, Fault::Source);
    refused(&|plan| plan.gates[7].table = 16, Fault::Table);
    refused(&|plan| plan.gates[7].second = 11, Fault::Operand);
    refused(&|plan| plan.output_count = 65, Fault::Outputs);
    refused(&|plan| plan.gate_count = 257, Fault::Gates);
    refused(&|plan| plan.inputs = 0, Fault::Inputs);
}

/// The uses of that plan's wires by hand: of eight gates with two operands each, and two outputs.
#[test]
fn figures_are_counted() {
    let uses = [4, 4, 2, 1, 1, 0, 2, 0, 3, 0, 1];
    let plan = read(&EVERY_MAP).expect("the file is a plan");
    assert_eq!((plan.gate_places, &plan.uses[..11]), (8, &uses[..]));
    assert_eq!(plan.uses[11..], [0; Plan::MAX_WIRES - 11]);
    assert_eq!(plan, plan_of_every_map());
    for (wire, uses) in (1..).zip(uses) {
        assert_eq!(plan.uses_of(wire), Some(uses), "wire {wire}");
    }
    for wire in [0, 12, 320, 321, u16::MAX] {
        assert_eq!(plan.uses_of(wire), None, "wire {wire}");
    }
}

/// Records of any counts and wires: the counted figures and no other place changes.
#[test]
fn any_record_can_be_settled() {
    let gate = Gate {
        first: 0,
        second: u16::MAX,
        table: 99,
    };
    for count in [0, 1, 300, u16::MAX] {
        let mut plan = Plan {
            inputs: count,
            gate_count: count,
            output_count: count,
            gates: [gate; Plan::MAX_GATES],
            outputs: [321; Plan::MAX_OUTPUTS],
            gate_places: 9,
            uses: [9; Plan::MAX_WIRES],
        };
        plan.settle_figures();
        let wires = Plan::MAX_WIRES.min(2 * usize::from(count));
        assert_eq!(plan.uses[..wires], vec![0; wires]);
        assert!(plan.uses[wires..].iter().all(|&uses| uses == 9));
        assert_ne!(plan.gate_places, 9);
    }
}

/// A plan with 99 in unused places. Putting back what was replaced gives the plan again.
#[test]
fn an_edit_changes_its_place_and_figures_alone() {
    let mut plan = plan_of_every_map();
    plan.gates[9].table = 99;
    plan.outputs[2] = 99;
    (plan.uses[11], plan.uses[12]) = (99, 99);
    let old = plan.gates[5];
    let new = Gate {
        first: 8,
        second: 3,
        table: 6,
    };

    let edited = plan.replace_gate(6, new).expect("gate 6 is there");
    let mut due = plan;
    due.gates[5] = new;
    due.uses[..11].copy_from_slice(&[4, 2, 3, 1, 1, 0, 2, 1, 3, 0, 1]);
    assert_eq!(edited, due);
    assert_eq!(edited.replace_gate(6, old), Ok(plan));

    let edited = plan.replace_output(2, 11).expect("output 2 is there");
    let mut due = plan;
    due.outputs[1] = 11;
    (due.uses[3], due.uses[10]) = (0, 2);
    assert_eq!(edited, due);
    assert_eq!(edited.replace_output(2, 4), Ok(plan));

    let edited = plan.append_gate(new).expect("there is room");
    let mut due = plan;
    due.gate_count = 9;
    due.gates[8] = new;
    due.gate_places = 16;
    (due.uses[2], due.uses[7], due.uses[11]) = (3, 1, 0);
    assert_eq!(edited, due);
}

/// Every word of an edit behind the plan faults, and that the record comes back.
#[test]
fn refused_edits_have_their_words() {
    let mut plan = plan_of_every_map();
    plan.uses[11] = 99;
    let gate = |first, second, table| Gate {
        first,
        second,
        table,
    };
    let refused = |edit: raw::Edit, fault: Fault| {
        assert_eq!((edit.number, edit.plan), (fault.number(), plan));
    };
    for number in [0, 9, 265, 1 << 16 | 1, u32::MAX] {
        let edit = raw::plan_replace_gate(&plan, number, gate(0, 0, 16));
        refused(edit, Fault::Place);
    }
    for number in [0, 3, 258, 1 << 16 | 1, u32::MAX] {
        refused(raw::plan_replace_output(&plan, number, 0), Fault::Place);
    }
    for (first, second) in [(0, 1), (1, 0), (9, 1), (1, 9), (u16::MAX, 1)] {
        let edit = raw::plan_replace_gate(&plan, 6, gate(first, second, 16));
        refused(edit, Fault::Operand);
    }
    for (first, second) in [(0, 1), (1, 0), (12, 1), (1, 12), (u16::MAX, 1)] {
        let edit = raw::plan_append_gate(&plan, gate(first, second, 16));
        refused(edit, Fault::Operand);
    }
    refused(
        raw::plan_replace_gate(&plan, 6, gate(8, 8, 16)),
        Fault::Table,
    );
    refused(
        raw::plan_append_gate(&plan, gate(11, 11, 264)),
        Fault::Table,
    );
    for wire in [0, 3, 12, u16::MAX] {
        refused(raw::plan_replace_output(&plan, 1, wire), Fault::Source);
    }
}

/// Four gates: 1 draws from 3 and is the output, 2 is input 1, 3 draws from 2, 4 from the one before.
const DRAWN: [u8; 18] = [1, 0, 4, 0, 1, 0, 1, 4, 0, 1, 1, 0, 1, 3, 0, 0, 2, 0];

#[test]
fn a_drawn_plan_is_read_with_its_drawn_numbers() {
    let DrawnPlan { plan, drawn } = read_drawn(&DRAWN).expect("the gates have an order");
    assert_eq!((check(&plan), plan.counts()), (Ok(()), [1, 4, 1]));
    assert_eq!(drawn[..5], [2, 3, 1, 4, 0]);
    let operands = plan.gates.map(|gate| (gate.first, gate.second));
    assert_eq!(operands[..5], [(1, 1), (2, 2), (3, 3), (3, 3), (0, 0)]);
    assert_eq!(plan.outputs[..2], [4, 0]);
    assert_eq!(plan.uses[..6], [2, 2, 4, 1, 0, 0]);
}

#[test]
fn a_plan_is_drawn_in_its_own_order() {
    let drawn = read_drawn(&NOT).expect("the file is a plan");
    assert_eq!(Ok(drawn.plan), read(&NOT));
    assert_eq!(drawn.drawn_numbers(), [1]);
}

#[test]
fn refused_drawn_plans_have_their_words() {
    let refused = |at: usize, byte: u8, tail: &[u8]| {
        let mut file = [&DRAWN[..], tail].concat();
        file[at] = byte;
        let Refusal { fault, at } = read_drawn(&file).expect_err("the file is refused");
        (fault, at)
    };
    assert_eq!(refused(7, 0, &[]), (Fault::Operand, 7));
    assert_eq!(refused(7, 6, &[]), (Fault::Operand, 7));
    // Gate 1 fed by itself.
    assert_eq!(refused(7, 2, &[]), (Fault::Ring, 6));
    assert_eq!(refused(7, 2, &[0]), (Fault::Tail, 18));
    // Gate 3 fed by itself: gate 1 only draws from it.
    assert_eq!(refused(13, 4, &[]), (Fault::Ring, 6));
    // Gates 2, 4 and 3 in a ring: gate 1 only draws from it.
    assert_eq!(refused(10, 5, &[]), (Fault::Ring, 6));
    assert_eq!(
        read_drawn(&DRAWN[..16]),
        Err(Refusal {
            fault: Fault::Cut,
            at: 16
        })
    );
}

/// P(4) on wires 1 to 4.
#[test]
fn a_permutation_is_written() {
    let (mut rows, mut outputs, mut program) = ([9; 16], [9; 5], [9; 2]);
    let written = write_permutation(4, &[1, 2, 3, 4], 5, &mut rows, &mut outputs);
    assert_eq!(written, Ok(()));
    assert_eq!(rows, [1, 1, 2, 1, 3, 4, 1, 5, 7, 1, 6, 8, 1, 9, 11, 9]);
    assert_eq!(outputs, [13, 14, 10, 12, 9]);
    assert_eq!(program_permutation(4, &[2, 1, 4, 3], &mut program), Ok(()));
    assert_eq!(program, [0b00011, 9]);
}

#[test]
fn refused_permutations_have_their_words() {
    let write = |n, inputs: &[u16], next, rows: &mut [u16]| {
        write_permutation(n, inputs, next, rows, &mut [0; 4])
    };
    assert_eq!(write(3, &[0; 3], 1, &mut [0; 99]), Err(Fault::Inputs));
    assert_eq!(write(4, &[0; 3], 1, &mut [0; 99]), Err(Fault::Contact));
    assert_eq!(write(4, &[1; 4], 1, &mut [0; 99]), Err(Fault::Fabric));
    assert_eq!(write(4, &[0; 4], 1, &mut [0; 14]), Err(Fault::Short));

    let program = |n, wanted: &[u16]| program_permutation(n, wanted, &mut []);
    assert_eq!(program(0, &[]), Err(Fault::Inputs));
    assert_eq!(program(2, &[2]), Err(Fault::Contact));
    assert_eq!(program(2, &[2, 2]), Err(Fault::Source));
    assert_eq!(program(2, &[2, 1]), Err(Fault::Short));
}

/// S(2, 2) on wires 1 and 2.
#[test]
fn a_selection_is_written() {
    let (mut rows, mut outputs, mut program) = ([9; 10], [9; 3], [9; 2]);
    let written = write_selection(2, 2, &[1, 2], 3, &mut rows, &mut outputs);
    assert_eq!(written, Ok(()));
    assert_eq!(rows, [1, 1, 2, 2, 3, 4, 1, 3, 5, 9]);
    assert_eq!(outputs, [6, 7, 9]);
    assert_eq!(program_selection(2, 2, &[2, 1], &mut program), Ok(()));
    assert_eq!(program, [0b110, 9]);
}

#[test]
fn refused_selections_have_their_words() {
    let write = |m, n, inputs: &[u16], next, rows: &mut [u16]| {
        write_selection(m, n, inputs, next, rows, &mut [0; 4])
    };
    assert_eq!(write(0, 4, &[], 1, &mut [0; 99]), Err(Fault::Inputs));
    assert_eq!(write(3, 0, &[0; 3], 1, &mut [0; 99]), Err(Fault::Outputs));
    assert_eq!(write(3, 4, &[0; 4], 1, &mut [0; 99]), Err(Fault::Contact));
    assert_eq!(write(3, 4, &[1; 3], 1, &mut [0; 99]), Err(Fault::Fabric));
    assert_eq!(write(3, 4, &[0; 3], 1, &mut [0; 38]), Err(Fault::Short));

    let program = |m, n, wanted: &[u16]| program_selection(m, n, wanted, &mut []);
    assert_eq!(program(513, 2, &[1, 1]), Err(Fault::Inputs));
    assert_eq!(program(3, 513, &[1, 1]), Err(Fault::Outputs));
    assert_eq!(program(3, 2, &[1; 3]), Err(Fault::Contact));
    assert_eq!(program(3, 2, &[4, 1]), Err(Fault::Source));
    assert_eq!(program(3, 2, &[1, 1]), Err(Fault::Short));
}

#[test]
fn a_fabric_is_written_programmed_and_run() {
    let (mut table, mut program) = ([9; 17], [9; 2]);
    assert_eq!(write_fabric(1, 1, 1, &mut table), Ok(()));
    assert_eq!((&table[..16], table[16]), (&FABRIC[..], 9));
    let plan = read(&NOT).expect("the file is a plan");
    assert_eq!(program_plan(&plan, &mut program), Ok(()));
    assert_eq!(program, [0x08, 9]);

    let (mut work, mut result) = ([9; 9], [9; 2]);
    let run = run_fabric(&table[..16], &program[..1], &[1], &mut work, &mut result);
    assert_eq!(run, Ok(()));
    assert_eq!(work, [0, 1, 1, 0, 1, 1, 1, 0, 9]);
    assert_eq!(result, [0, 9]);
}

/// S(1, 2) is rows X, Y, X, U(1) the row G, and S(1, 1) a wire.
#[test]
fn the_sheet_of_a_fabric_has_its_rows() {
    let kinds = |x, y, g| Kinds {
        x,
        y,
        g,
        total: x + y + g,
    };
    let sheet = Sheet {
        input: kinds(2, 1, 0),
        block: kinds(0, 0, 1),
        output: kinds(0, 0, 0),
        sum: kinds(2, 1, 1),
    };
    assert_eq!(count_kinds(1, 1, 1), Ok(sheet));
}

#[test]
fn refused_fabrics_and_runs_have_their_words() {
    for (u, k, v, fault) in [
        (65, 0, 0, Fault::Inputs),
        (64, 257, 0, Fault::Gates),
        (64, 256, 65, Fault::Outputs),
    ] {
        assert_eq!(count_fabric(u, k, v), Err(fault));
        assert_eq!(count_kinds(u, k, v), Err(fault));
        assert_eq!(write_fabric(u, k, v, &mut []), Err(fault));
    }
    assert_eq!(write_fabric(1, 1, 1, &mut [9; 15]), Err(Fault::Short));

    let run = |table: &[u16], program: &[u8], row: &[u8], work: &mut [u8]| {
        run_fabric(table, program, row, work, &mut [9])
    };
    assert_eq!(
        run(&FABRIC[..15], &[8], &[1], &mut [9; 8]),
        Err(Fault::Fabric)
    );
    assert_eq!(
        run(&FABRIC, &[0x88], &[1], &mut [9; 8]),
        Err(Fault::Program)
    );
    assert_eq!(run(&FABRIC, &[8], &[2], &mut [9; 8]), Err(Fault::Contact));
    assert_eq!(run(&FABRIC, &[8], &[1], &mut [9; 7]), Err(Fault::Short));
}

/// A plan of three inputs that gives input 3, then inputs 1 and 2. With its last two outputs held a
/// fresh entry comes out two intervals later, and the state is the last two, the newer one first.
fn delay() -> Plan {
    let mut plan = Plan {
        inputs: 3,
        gate_count: 3,
        output_count: 3,
        ..Plan::ZERO
    };
    for (gate, input) in plan.gates.iter_mut().zip(1..=3) {
        *gate = Gate {
            first: input,
            second: input,
            table: 8,
        };
    }
    plan.outputs[..3].copy_from_slice(&[6, 4, 5]);
    plan.settle_figures();
    plan
}

/// Its fabric's table and its program.
fn delay_fabric() -> (Vec<u16>, Vec<u8>) {
    let plan = delay();
    let [u, k, v] = plan.counts();
    let size = count_fabric(u, k, v).expect("the counts are in range");
    let (mut table, mut program) = (vec![0; size.table_len(v)], vec![0; size.program_len()]);
    assert_eq!(write_fabric(u, k, v, &mut table), Ok(()));
    assert_eq!(program_plan(&plan, &mut program), Ok(()));
    (table, program)
}

/// Three intervals, to the start state 1, 0.
const DELAYED: Series = Series {
    hold: 2,
    intervals: 3,
    fresh: &[1, 1, 0],
    start: &[1, 0],
};

#[test]
fn a_series_holds_its_last_outputs() {
    let (mut results, mut end) = ([9; 10], [9; 3]);
    let done = evaluate_series(&delay(), DELAYED, &mut results, &mut end);
    assert_eq!(done, Ok(()));
    assert_eq!(results, [0, 1, 1, 1, 1, 1, 1, 0, 1, 9]);
    assert_eq!(end, [0, 1, 9]);

    let (table, program) = delay_fabric();
    let (mut work, mut found, mut found_end) = (vec![9; 148], [9; 10], [9; 3]);
    let run = run_series(
        &table,
        &program,
        DELAYED,
        &mut work,
        &mut found,
        &mut found_end,
    );
    assert_eq!(run, Ok(()));
    assert_eq!((found, found_end), (results, end));

    // The last interval's wires: those of a run on its row.
    let (mut last, mut result) = (vec![9; 148], [9; 3]);
    let run = run_fabric(&table, &program, &[0, 1, 1], &mut last, &mut result);
    assert_eq!((run, &result[..]), (Ok(()), &found[6..9]));
    assert_eq!(work, last);
}

#[test]
fn no_interval_hands_the_state_on() {
    let none = Series {
        intervals: 0,
        fresh: &[],
        ..DELAYED
    };
    let (mut results, mut end) = ([9; 1], [9; 3]);
    let done = evaluate_series(&delay(), none, &mut results, &mut end);
    assert_eq!((done, results, end), (Ok(()), [9], [1, 0, 9]));

    let (table, program) = delay_fabric();
    let (mut work, mut end) = (vec![9; 148], [9; 3]);
    let done = run_series(&table, &program, none, &mut work, &mut results, &mut end);
    assert_eq!((done, results, end), (Ok(()), [9], [1, 0, 9]));
    assert_eq!(work, vec![9; 148]);
    let mut short = |work: usize, end: usize| {
        let (work, end) = (&mut vec![9; work], &mut vec![9; end]);
        run_series(&table, &program, none, work, &mut results, end)
    };
    assert_eq!(short(146, 2), Err(Fault::Short));
    assert_eq!(short(147, 1), Err(Fault::Short));
    assert_eq!(short(147, 2), Ok(()));
}

/// Both series of the delay are refused with this word, and change nothing.
fn assert_series_refused(series: Series, [work, results, end]: [usize; 3], fault: Fault) {
    let (table, program) = delay_fabric();
    let (mut work, mut results, mut end) = (vec![9; work], vec![9; results], vec![9; end]);
    let before = (work.clone(), results.clone(), end.clone());
    let plan = delay();
    let refused = evaluate_series(&plan, series, &mut results, &mut end);
    assert_eq!(refused, Err(fault), "{series:?}");
    let refused = run_series(&table, &program, series, &mut work, &mut results, &mut end);
    assert_eq!(refused, Err(fault), "{series:?}");
    assert_eq!((work, results, end), before);
}

#[test]
fn refused_series_have_their_words() {
    let held = |hold, intervals| Series {
        hold,
        intervals,
        ..DELAYED
    };
    for lens in [[147, 9, 2], [147, 8, 2], [147, 9, 1]] {
        for hold in [4, 65, 65_538, u32::MAX] {
            assert_series_refused(held(hold, 3), lens, Fault::Hold);
        }
        for intervals in [MAX_INTERVALS + 1, 65_539, u32::MAX] {
            assert_series_refused(held(2, intervals), lens, Fault::Hold);
        }
        for fresh in [&[1, 1][..], &[1; 4], &[2, 1, 0], &[1, 1, 2]] {
            assert_series_refused(Series { fresh, ..DELAYED }, lens, Fault::Contact);
        }
        for start in [&[1][..], &[1; 3], &[2, 0], &[1, 255]] {
            assert_series_refused(Series { start, ..DELAYED }, lens, Fault::Contact);
        }
    }
    assert_series_refused(DELAYED, [146, 8, 2], Fault::Short);
    assert_series_refused(DELAYED, [146, 9, 1], Fault::Short);
}

/// A plan's faults, a table's and a program's come before those of the series.
#[test]
fn series_of_refused_plans_and_fabrics_have_their_words() {
    let bad = Series {
        hold: 4,
        fresh: &[2],
        ..DELAYED
    };
    let mut plan = delay();
    plan.outputs[2] = 3;
    for series in [bad, DELAYED] {
        let refused = evaluate_series(&plan, series, &mut [], &mut []);
        assert_eq!(refused, Err(Fault::Source));
    }
    let (table, program) = delay_fabric();
    let run =
        |table: &[u16], program: &[u8]| run_series(table, program, bad, &mut [], &mut [], &mut []);
    assert_eq!(run(&table[1..], &program[1..]), Err(Fault::Fabric));
    assert_eq!(run(&table, &program[1..]), Err(Fault::Program));
    assert_eq!(run(&table, &program), Err(Fault::Hold));
}
