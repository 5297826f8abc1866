//! Runs of damaged tables, programs and rows: one damage at every place, and every choice of checks
//! that fail at once.

use mukdalis::Fault;

use super::super::buffer::shorter;
use super::super::{first_failing, Comparison, Outcome};
use super::compare_run;
use crate::random::Random;
use crate::samples::fabric::{small_table, Run, Table};

pub fn compare(comparison: &mut Comparison, random: &mut Random) -> Outcome {
    table_entries(comparison, random)?;
    other_tables(comparison, random)?;
    table_counts(comparison, random)?;
    table_lengths(comparison, random)?;
    wrapped_lengths(comparison, random)?;
    random_tables(comparison, random)?;
    programs(comparison, random)?;
    rows(comparison, random)?;
    failing_checks(comparison, random)
}

fn refused(comparison: &mut Comparison, random: &mut Random, case: &Run, fault: Fault) -> Outcome {
    compare_run(comparison, random, case, Some(fault.number()))
}

/// Compares the runs of a table whose entry at a place is each of these, which all are to have the
/// answer `due`.
fn change_entry(
    comparison: &mut Comparison,
    random: &mut Random,
    sound: &Run,
    (place, entries): (usize, &[u16]),
    due: u32,
) -> Outcome {
    for &entry in entries {
        let mut case = sound.clone();
        case.table[place] = entry;
        compare_run(comparison, random, &case, Some(due))?;
    }
    Ok(())
}

/// Every kind, wire and output of small tables at and beside its limits.
fn table_entries(comparison: &mut Comparison, random: &mut Random) -> Outcome {
    comparison.begin("one entry of a table changed");
    let malformed = Fault::Fabric.number();
    for _ in 0..400 {
        let table = small_table(random, 8);
        let sound = Run::of(random, &table.entries());
        for i in 0..table.rows.len() {
            let at = 3 + 3 * i;
            let kinds = [0, 4, 5, 255, 256, 257, 258, 259, u16::MAX];
            change_entry(comparison, random, &sound, (at, &kinds), malformed)?;
            let made = table.made_before(i) as u16;
            let unmade = [made, made + 1, made + 2, 1 << 15, u16::MAX];
            for side in [at + 1, at + 2] {
                change_entry(comparison, random, &sound, (side, &unmade), malformed)?;
                change_entry(comparison, random, &sound, (side, &[0, made - 1]), 0)?;
            }
        }
        let made = table.wires as u16;
        let unmade = [made, made + 1, 1 << 15, u16::MAX];
        let first_output = sound.table.len() - table.outputs.len();
        for output in first_output..sound.table.len() {
            change_entry(comparison, random, &sound, (output, &unmade), malformed)?;
            change_entry(comparison, random, &sound, (output, &[0, made - 1]), 0)?;
        }
    }
    Ok(())
}

/// Each row of small tables of each kind, and u other numbers, so that later wires are made or not.
fn other_tables(comparison: &mut Comparison, random: &mut Random) -> Outcome {
    comparison.begin("another kind or u in a table");
    for _ in 0..400 {
        let table = small_table(random, 8).entries();
        let mut changes: Vec<(usize, u16)> = [1, table[0] - 1, table[0] + 1, 64]
            .map(|inputs| (0, inputs))
            .to_vec();
        for i in 0..usize::from(table[2]) {
            changes.extend([1, 2, 3].map(|kind| (3 + 3 * i, kind)));
        }
        for (place, entry) in changes {
            let mut changed = table.clone();
            changed[place] = entry;
            let case = Run::of(random, &changed);
            compare_run(comparison, random, &case, None)?;
        }
    }
    Ok(())
}

/// u, v and R at other values, in tables whose length fits them or does not.
fn table_counts(comparison: &mut Comparison, random: &mut Random) -> Outcome {
    comparison.begin("u, v and R of a table changed");
    for _ in 0..200 {
        let table = small_table(random, 8);
        let sound = Run::of(random, &table.entries());
        let (v, rows) = (sound.table[1], sound.table[2]);
        for bad in [0, 65, 66, 256 + 1, 1 << 15, u16::MAX] {
            let mut case = sound.clone();
            case.table[0] = bad;
            refused(comparison, random, &case, Fault::Fabric)?;
            case.row = random.row(bad.into());
            refused(comparison, random, &case, Fault::Fabric)?;

            let mut case = sound.clone();
            case.table[1] = bad;
            refused(comparison, random, &case, Fault::Fabric)?;
            case.table
                .resize(3 + 3 * usize::from(rows) + usize::from(bad), 0);
            case.result_len = bad.into();
            refused(comparison, random, &case, Fault::Fabric)?;
        }
        for other in [rows.wrapping_sub(1), rows + 1, rows ^ 1 << 15, v] {
            let mut case = sound.clone();
            case.table[2] = other;
            let due = first_failing(&[(Fault::Fabric, other != rows)]);
            compare_run(comparison, random, &case, Some(due))?;
        }
    }
    Ok(())
}

/// Tables cut at every entry, and longer ones: by a few entries, by a row, and by so many that the
/// length's low 16 bits are as before.
fn table_lengths(comparison: &mut Comparison, random: &mut Random) -> Outcome {
    comparison.begin("tables of other lengths");
    for i in 0..200 {
        let table = small_table(random, 8);
        let sound = Run::of(random, &table.entries());
        let len = sound.table.len();
        let mut lens: Vec<usize> = (0..len + 8).filter(|&other| other != len).collect();
        if i < 20 {
            lens.push(len + (1 << 16));
        }
        for other in lens {
            let mut case = sound.clone();
            case.table.resize(other, 0);
            refused(comparison, random, &case, Fault::Fabric)?;
        }
    }
    Ok(())
}

/// Tables that have the length of 3 + 3R + v in 16 bits alone; all that is there is good.
fn wrapped_lengths(comparison: &mut Comparison, random: &mut Random) -> Outcome {
    comparison.begin("lengths that fit in 16 bits alone");
    for rows in (21_845..=21_865).chain(43_690..=43_710).chain([u16::MAX]) {
        for v in [1, 3, 64] {
            let len = 3 + 3 * usize::from(rows) + usize::from(v);
            let mut table = vec![2, v, rows];
            table.resize(len % (1 << 16), 2);
            let case = Run::of(random, &table);
            refused(comparison, random, &case, Fault::Fabric)?;
        }
    }
    Ok(())
}

/// Tables of random entries, most of them small, whose counts fit their length.
fn random_tables(comparison: &mut Comparison, random: &mut Random) -> Outcome {
    comparison.begin("random tables");
    for _ in 0..20_000 {
        let (u, v, rows) = (
            random.between(1, 8),
            random.between(1, 4),
            random.between(0, 5),
        );
        let most = random.choose(&[u, u + 2, 2 * u]);
        let kinds = random.choose(&[[1, 2, 3, 1], [1, 2, 3, 0], [3, 3, 3, 4]]);
        let mut table = vec![u, v, rows];
        for _ in 0..rows {
            table.push(random.choose(&kinds));
            table.extend([random.between(0, most), random.between(0, most)]);
        }
        for _ in 0..v {
            table.push(random.between(0, most + rows));
        }
        let case = Run::of(random, &table);
        compare_run(comparison, random, &case, None)?;
    }
    Ok(())
}

/// Programs of other lengths, and with each spare bit set.
fn programs(comparison: &mut Comparison, random: &mut Random) -> Outcome {
    comparison.begin("programs damaged");
    for i in 0..2_000 {
        let table = small_table(random, 30);
        let sound = Run::of(random, &table.entries());
        let len = sound.program.len();
        let mut lens = vec![
            0,
            len.saturating_sub(1),
            len + 1,
            len + 2,
            2 * len,
            len + 256,
        ];
        if i < 40 {
            lens.push(len + (1 << 16));
        }
        for other in lens {
            let mut case = sound.clone();
            case.program.resize(other, 0);
            let due = first_failing(&[(Fault::Program, other != len)]);
            compare_run(comparison, random, &case, Some(due))?;
        }
        for spare in table.bits as usize..8 * len {
            let mut case = sound.clone();
            case.program[spare / 8] |= 1 << (spare % 8);
            refused(comparison, random, &case, Fault::Program)?;
        }
    }
    Ok(())
}

/// Rows of other lengths, and a bad entry at each place.
fn rows(comparison: &mut Comparison, random: &mut Random) -> Outcome {
    comparison.begin("input rows damaged");
    for i in 0..200 {
        let table = small_table(random, 30);
        let sound = Run::of(random, &table.entries());
        let len = sound.row.len();
        let mut lens = vec![0, len - 1, len + 1, 2 * len, len + 256];
        if i < 20 {
            lens.push(len + (1 << 16));
        }
        for other in lens {
            let mut case = sound.clone();
            case.row.resize(other, 0);
            refused(comparison, random, &case, Fault::Contact)?;
        }
        for place in 0..len {
            for entry in [2, 3, 128, 254, 255] {
                let mut case = sound.clone();
                case.row[place] = entry;
                refused(comparison, random, &case, Fault::Contact)?;
            }
        }
    }
    Ok(())
}

/// Runs in which any of the four checks fail, each in some way.
fn failing_checks(comparison: &mut Comparison, random: &mut Random) -> Outcome {
    comparison.begin("every choice of failing checks");
    for choice in (0..16).cycle().take(16 * 1_500) {
        let [table_fails, program_fails, row_fails, room_fails] =
            [0, 1, 2, 3].map(|check| choice >> check & 1 == 1);
        let most = if random.one_in(100) { 3_000 } else { 12 };
        let table = small_table(random, most);
        let mut case = Run::of(random, &table.entries());
        if table_fails {
            spoil_table(random, &table, &mut case.table);
        }
        if program_fails {
            spoil_program(random, table.bits as usize, &mut case.program);
        }
        if row_fails {
            spoil_row(random, &mut case.row);
        }
        if room_fails {
            spoil_room(random, &mut case);
        }
        let due = first_failing(&[
            (Fault::Fabric, table_fails),
            (Fault::Program, program_fails),
            (Fault::Contact, row_fails),
            (Fault::Short, room_fails),
        ]);
        compare_run(comparison, random, &case, Some(due))?;
    }
    Ok(())
}

/// Makes a table malformed: in its length, a count, or an entry of a random row or output.
pub fn spoil_table(random: &mut Random, table: &Table, entries: &mut Vec<u16>) {
    let last_row = table.rows.len().saturating_sub(1) as u16;
    let row = usize::from(random.between(0, last_row));
    let kind_at = 3 + 3 * row;
    match random.between(1, 8) {
        1 => entries.truncate(random.between(0, 2).into()),
        2 => entries.push(0),
        3 => entries[0] = random.choose(&[0, 65, u16::MAX]),
        4 => entries[1] = random.choose(&[0, 65, u16::MAX]),
        5 => entries[2] += 1,
        6 if !table.rows.is_empty() => entries[kind_at] = random.choose(&[0, 4, 257]),
        7 if !table.rows.is_empty() => {
            let side = usize::from(random.between(1, 2));
            let made = table.made_before(row) as u16;
            entries[kind_at + side] = random.choose(&[made, made + 1, u16::MAX]);
        }
        _ => {
            let place = entries.len() - usize::from(random.between(1, entries[1]));
            let wires = table.wires as u16;
            entries[place] = random.choose(&[wires, wires + 1, u16::MAX]);
        }
    }
}

/// Gives a program another length, or sets a spare bit if it has any.
pub fn spoil_program(random: &mut Random, bits: usize, program: &mut Vec<u8>) {
    let len = program.len();
    if bits < 8 * len && random.one_in(2) {
        let spare = random.between(bits as u16, 8 * len as u16 - 1);
        program[usize::from(spare / 8)] |= 1 << (spare % 8);
        return;
    }
    let mut lens = vec![0, len.saturating_sub(1), len + 1, len + 256];
    lens.retain(|&other| other != len);
    program.resize(random.choose(&lens), 0);
}

/// Gives a row another length or a bad entry.
fn spoil_row(random: &mut Random, row: &mut Vec<u8>) {
    let len = row.len();
    if random.one_in(2) {
        let place = usize::from(random.between(0, len as u16 - 1));
        row[place] = random.choose(&[2, 128, 255]);
        return;
    }
    row.resize(random.choose(&[0, len - 1, len + 1, len + 256]), 0);
}

/// Makes the work buffer, the result buffer or both too short.
fn spoil_room(random: &mut Random, case: &mut Run) {
    let form = random.between(1, 3);
    if form != 1 {
        case.work_len = shorter(random, case.work_len);
    }
    if form != 2 {
        case.result_len = shorter(random, case.result_len);
    }
}
