//! Times the library's calls beside the reference, which is plain Rust, and prints one table.
//!
//! Usage: `cargo run --release --bin benchmark`; it takes about a minute. No time is judged. It
//! stops, with exit status 101, if the two sides differ on a case that is timed.
//!
//! A case is a call with random accepted plans of the same counts (u,k,v), one plan after another,
//! or, for P(N), with random permutations. Drawn reading has the files of the largest plans, whose
//! gates stand in their order, and drawings of the same counts in which gate g draws from gate g + 1,
//! so that every search goes through all gates that are left. Both sides make the same checks and write to the same lent
//! buffers. The library is called by its safe wrappers. Its exports take a plan's record by value, and
//! copying it is part of their time; the reference borrows it. Reading hands the record back by value
//! on both sides. Saving is lent room for the longest file, and both sides make the file in an array of
//! their own and copy it. The reference has its work lists on the heap, a few for each block.
//!
//! An edit is of a random gate or output. Where a plan would get a 257th gate, the appended one is its
//! 256th. The Rust beside the library's edits is not the reference, which counts all figures again,
//! but written for speed: after the same checks it changes the figures that the edit touches. Both
//! sides hand the record back by value.
//!
//! The fabric's table and a plan's program bits stand in the table a second time, beside Rust that
//! is written for speed: the reference, which is written to be read, is no yardstick for them.
//!
//! A series has 4,096 intervals, with half of the outputs held, rounded up: by one plan of each shape,
//! and by the fabric of one plan, since that takes long. Both sides check plan, table and program once.
//!
//! Both sides run in short batches by turns, so that a busy machine disturbs both. The columns:
//! - Rattle ns, Rust ns: nanoseconds a call, of a series an interval, the least of all batches;
//! - ratio: Rattle's time over Rust's, the median of all batches beside each other;
//! - arrays: the most bytes of arrays that the export's source holds at one time, whatever it is
//!   called with, as `check_repository` counts them; each copy of a record that goes by value is
//!   among them, and the compiler spares most of these;
//! - Rattle stack, Rust stack: bytes of stack that a call uses below its caller's frame, measured;
//!   a record that goes by value is among them, heap memory is not; 256 is that or less;
//! - growth: the time of P(N) over that of P(N / 2), and what N log N gives for it.
//!
//! A line below has the time of a fabric's table and a plan's program bits together, beside a run of
//! that fabric, which shows how fast the machine is, and beside the Rust that is written for speed.
//! Another one has the time of drawn reading over that of the plain reading of the same files, for
//! either side, and one that of the library's series over as many of its single calls,
//! between which the caller carries the state. Of the edits one line has the time of the library's
//! plan faults alone, which are an edit's checks, over that of the edit, and one that of the Rust edits
//! that count all figures again over those beside the library's. All are measured by turns as the
//! ratio is.

use std::hint::black_box;
use std::path::Path;
use std::time::{Duration, Instant};
use std::{ptr, thread};

use checks::arrays::{counted, Arrays};
use comparison::random::Random;
use comparison::reference::series::Intervals;
use comparison::samples::blocks::Block;
use comparison::samples::drawings::backwards;
use comparison::samples::edits::{sound_edits, Editing, PlanEdit};
use comparison::samples::fabric::wires;
use comparison::samples::permutation::random_permutation;
use comparison::samples::plans::{shaped_plan, PlanShape};
use comparison::samples::{Counts, PlanFile, Standing};
use comparison::{reference, tuned};
use mukdalis::{
    check, count_fabric, evaluate, evaluate_series, program_permutation, program_plan, raw,
    run_fabric, run_series, write_fabric, DrawnPlan, Fault, Plan, Series, MAX_INTERVALS,
};

const SEED: u64 = 0x6265_6e63_686d_6172;

/// The sizes of P.
const SIZES: [u32; 4] = [64, 128, 256, 512];

/// Plans or permutations of a case, four plans of each shape.
const SAMPLES: usize = 20;

/// Intervals of a series.
const INTERVALS: u32 = if cfg!(test) { 8 } else { MAX_INTERVALS };

/// The least time of a batch, the time that all batches of a case have, and the least number of them.
const BATCH_TIME: Duration = Duration::from_micros(100);
const CASE_TIME: Duration = Duration::from_millis(if cfg!(test) { 1 } else { 600 });
const LEAST_BATCHES: usize = if cfg!(test) { 1 } else { 5 };

fn main() {
    let arrays = arrays();
    let mut random = Random::new(SEED);
    let plans = Counts::MEASURED.map(|counts| Plans::new(&mut random, counts));
    print_head();
    for call in Call::OF_PLANS {
        for plans in &plans {
            let line = line(&arrays, call, &plans.size(), plans.measure(call));
            println!("{line}");
        }
    }
    for call in Call::TUNED {
        for plans in &plans {
            let line = line(&arrays, call, &plans.size(), plans.measure_tuned(call));
            println!("{line}   Rust tuned");
        }
    }
    for call in Call::OF_EDITS {
        for counts in Counts::MEASURED {
            let edits = Edits::new(counts, call);
            let line = line(&arrays, call, &edits.size, edits.measure());
            println!("{line}   Rust incremental");
        }
    }
    let drawings = Drawings::new(&mut random, &plans[Counts::MEASURED.len() - 1]);
    for call in Call::OF_DRAWINGS {
        let line = line(&arrays, call, &drawings.size, drawings.measure(call));
        println!("{line}");
    }
    let mut half: Option<Measured> = None;
    for n in SIZES {
        let measured = measure_permutation(&mut random, n);
        let line = line(&arrays, Call::ProgramP, &format!("P({n})"), measured);
        match half.replace(measured) {
            Some(half) => println!("{line}{}", growth(n, half, measured)),
            None => println!("{line}"),
        }
    }
    println!();
    plans[Counts::MEASURED.len() - 2].print_loading_beside_run();
    drawings.print_beside_plain();
    plans[Counts::MEASURED.len() - 1].print_beside_single_calls();
    Edits::print_beside_checks();
}

/// The timed calls.
#[derive(Clone, Copy)]
enum Call {
    Read,
    Save,
    Evaluate,
    EvaluateSeries,
    WriteFabric,
    ProgramPlan,
    Run,
    RunSeries,
    ReplaceGate,
    AppendGate,
    ReplaceOutput,
    ReadInOrder,
    ReadBackwards,
    ProgramP,
}

impl Call {
    const OF_PLANS: [Call; 8] = [
        Call::Read,
        Call::Save,
        Call::Evaluate,
        Call::EvaluateSeries,
        Call::WriteFabric,
        Call::ProgramPlan,
        Call::Run,
        Call::RunSeries,
    ];

    const TUNED: [Call; 2] = [Call::WriteFabric, Call::ProgramPlan];

    const OF_EDITS: [Call; 3] = [Call::ReplaceGate, Call::AppendGate, Call::ReplaceOutput];

    const OF_DRAWINGS: [Call; 2] = [Call::ReadInOrder, Call::ReadBackwards];

    fn name(self) -> &'static str {
        match self {
            Call::Read => "reading",
            Call::Save => "saving",
            Call::Evaluate => "evaluation",
            Call::EvaluateSeries => "plan's series",
            Call::WriteFabric => "fabric table",
            Call::ProgramPlan => "program bits",
            Call::Run => "run",
            Call::RunSeries => "fabric's series",
            Call::ReplaceGate => "replace gate",
            Call::AppendGate => "append gate",
            Call::ReplaceOutput => "replace output",
            Call::ReadInOrder => "drawn in order",
            Call::ReadBackwards => "drawn backwards",
            Call::ProgramP => "P's program",
        }
    }

    /// The export that is called.
    fn export(self) -> &'static str {
        match self {
            Call::Read => "mkd_plan_read",
            Call::Save => "mkd_plan_save",
            Call::Evaluate => "mkd_plan_evaluate",
            Call::EvaluateSeries => "mkd_plan_series",
            Call::WriteFabric => "mkd_fabric",
            Call::ProgramPlan => "mkd_program",
            Call::Run => "mkd_run",
            Call::RunSeries => "mkd_run_series",
            Call::ReplaceGate => "mkd_plan_replace_gate",
            Call::AppendGate => "mkd_plan_append_gate",
            Call::ReplaceOutput => "mkd_plan_replace_output",
            Call::ReadInOrder | Call::ReadBackwards => "mkd_plan_read_drawn",
            Call::ProgramP => "mkd_permutation_program",
        }
    }
}

/// Accepted plans of the same counts, their fabric's table, and a series.
struct Plans {
    counts: [u32; 3],
    samples: Vec<Sample>,
    table: Vec<u16>,
    hold: u32,
    fresh: Vec<u8>,
    start: Vec<u8>,
}

/// A plan with its file, an input row and its program.
struct Sample {
    plan: Plan,
    file: Vec<u8>,
    row: Vec<u8>,
    program: Vec<u8>,
}

impl Plans {
    fn new(random: &mut Random, counts: Counts) -> Plans {
        let Counts(u, k, v) = counts;
        let [u, k, v] = [u, k, v].map(u32::from);
        let size = count_fabric(u, k, v).expect("the counts are in range");
        let mut table = vec![0; size.table_len(v)];
        write_fabric(u, k, v, &mut table).expect("the counts are in range");
        let shapes = PlanShape::ALL.into_iter().cycle();
        let samples = shapes.take(SAMPLES).map(|shape| {
            let plan = shaped_plan(random, counts, shape);
            let mut program = vec![0; size.program_len()];
            program_plan(&plan, &mut program).expect("the plan is accepted");
            Sample {
                plan,
                file: PlanFile::new(random, &plan, Standing::None).bytes,
                row: random.row(plan.inputs.into()),
                program,
            }
        });
        let hold = v.div_ceil(2);
        let mut rows = Random::new(SEED);
        Plans {
            counts: [u, k, v],
            samples: samples.collect(),
            table,
            hold,
            fresh: rows.row((INTERVALS * (u - hold)) as usize),
            start: rows.row(hold as usize),
        }
    }

    fn series(&self) -> Series<'_> {
        Series {
            hold: self.hold,
            intervals: INTERVALS,
            fresh: &self.fresh,
            start: &self.start,
        }
    }

    /// A plan of each shape, and the first of them.
    fn of_each_shape(&self) -> &[Sample] {
        &self.samples[..PlanShape::ALL.len()]
    }

    fn first(&self) -> &[Sample] {
        &self.samples[..1]
    }

    /// The buffers of a series: results and end.
    fn series_buffers(&self) -> (Vec<u8>, Vec<u8>) {
        let [_, _, v] = self.counts;
        (
            vec![9; (INTERVALS * v) as usize],
            vec![9; self.hold as usize],
        )
    }

    fn size(&self) -> String {
        let [u, k, v] = self.counts;
        format!("({u},{k},{v})")
    }

    fn measure(&self, call: Call) -> Measured {
        let ([u, k, v], samples, table) = (self.counts, &self.samples, &self.table);
        let (result, series) = (vec![9; v as usize], self.series());
        match call {
            Call::Read => measure(
                samples,
                (),
                |sample, ()| raw::plan_read(&sample.file),
                |sample, ()| reference::plan::read(&sample.file),
                |read, answer| read.number == 0 && answer == Ok(read.plan),
            ),
            Call::Save => measure(
                samples,
                vec![9; Plan::MAX_FILE_LEN],
                |sample, file| raw::plan_save(&sample.plan, file),
                |sample, file| reference::saving::save(&sample.plan, file),
                |saved, answer| saved.number == 0 && answer == Ok(saved.length as usize),
            ),
            Call::Evaluate => measure(
                samples,
                result,
                |sample, result| evaluate(&sample.plan, &sample.row, result),
                |sample, result| reference::plan::evaluate(&sample.plan, &sample.row, result),
                are_done,
            ),
            Call::EvaluateSeries => measure(
                self.of_each_shape(),
                self.series_buffers(),
                |Sample { plan, .. }, (results, end)| evaluate_series(plan, series, results, end),
                |Sample { plan, .. }, (results, end)| {
                    reference::series::evaluate(plan, series, results, end)
                },
                are_done,
            )
            .an_interval(),
            Call::WriteFabric => measure(
                &[[u, k, v]],
                vec![9; table.len()],
                |&[u, k, v], table| write_fabric(u, k, v, table),
                |&[u, k, v], table| reference::fabric::write(u, k, v, table),
                are_done,
            ),
            Call::ProgramPlan => measure(
                samples,
                vec![9; samples[0].program.len()],
                |sample, program| program_plan(&sample.plan, program),
                |sample, program| reference::program::write(&sample.plan, program),
                are_done,
            ),
            Call::Run => measure(
                samples,
                (vec![9; wires(table)], result),
                |Sample { program, row, .. }, (work, result)| {
                    run_fabric(table, program, row, work, result)
                },
                |Sample { program, row, .. }, (work, result)| {
                    reference::run::run(table, program, row, work, result)
                },
                are_done,
            ),
            Call::RunSeries => measure(
                self.first(),
                (vec![9; wires(table)], self.series_buffers()),
                |Sample { program, .. }, (work, (results, end))| {
                    run_series(table, program, series, work, results, end)
                },
                |Sample { program, .. }, (work, (results, end))| {
                    reference::series::run(table, program, series, work, results, end)
                },
                are_done,
            )
            .an_interval(),
            _ => unreachable!("no call of plans"),
        }
    }

    /// A call beside the Rust that is written for speed.
    fn measure_tuned(&self, call: Call) -> Measured {
        let (samples, table) = (&self.samples, &self.table);
        match call {
            Call::WriteFabric => measure(
                &[self.counts],
                vec![9; table.len()],
                |&[u, k, v], table| write_fabric(u, k, v, table),
                |&[u, k, v], table| tuned::fabric::write(u, k, v, table),
                are_done,
            ),
            Call::ProgramPlan => measure(
                samples,
                vec![9; samples[0].program.len()],
                |sample, program| program_plan(&sample.plan, program),
                |sample, program| tuned::program::write(&sample.plan, program),
                are_done,
            ),
            _ => unreachable!("no Rust is tuned for it"),
        }
    }

    /// What a unit is loaded with, table and program bits together, beside a run, and beside the Rust
    /// that is written for speed.
    fn print_loading_beside_run(&self) {
        let ([u, k, v], table, samples) = (self.counts, &self.table, &self.samples);
        let load = |sample: &Sample, (table, program): &mut (Vec<u16>, Vec<u8>)| {
            write_fabric(u, k, v, table).and(program_plan(&sample.plan, program))
        };
        let load_tuned = |sample: &Sample, (table, program): &mut (Vec<u16>, Vec<u8>)| {
            tuned::fabric::write(u, k, v, table).and(tuned::program::write(&sample.plan, program))
        };
        let mut loaded = (vec![9; table.len()], vec![9; samples[0].program.len()]);
        let beside_tuned = time(samples, &mut loaded, &load, &load_tuned);
        let (work, result) = (vec![9; wires(table)], vec![9; v as usize]);
        let beside_run = time(
            samples,
            &mut (loaded, work, result),
            &|sample: &Sample, (loaded, _, _): &mut (_, Vec<u8>, Vec<u8>)| load(sample, loaded),
            &|Sample { program, row, .. }: &Sample, (_, work, result): &mut (_, _, _)| {
                run_fabric(table, program, row, work, result)
            },
        );
        let [milliseconds, run] = beside_run.nanoseconds.map(|nanoseconds| nanoseconds / 1e6);
        println!(
            "table and program bits together, {}: {milliseconds:.3} ms, {:.2} of Rust tuned; a run beside them {run:.3} ms",
            self.size(),
            beside_tuned.ratio
        );
    }

    /// The library's series over as many of its single calls, by the plan and by the fabric.
    fn print_beside_single_calls(&self) {
        let ([u, _, v], table, series) = (self.counts, &self.table, self.series());
        let intervals = Intervals {
            series,
            inputs: u as usize,
            outputs: v as usize,
        };
        let by_plan = measure(
            self.of_each_shape(),
            self.series_buffers(),
            |Sample { plan, .. }, (results, end)| evaluate_series(plan, series, results, end),
            |Sample { plan, .. }, (results, end)| {
                let mut answer = Ok(());
                intervals.run(results, end, |row, result| {
                    answer = answer.and(evaluate(plan, row, result));
                });
                answer
            },
            are_done,
        );
        let by_fabric = measure(
            self.first(),
            (vec![9; wires(table)], self.series_buffers()),
            |Sample { program, .. }, (work, (results, end))| {
                run_series(table, program, series, work, results, end)
            },
            |Sample { program, .. }, (work, (results, end))| {
                let mut answer = Ok(());
                intervals.run(results, end, |row, result| {
                    answer = answer.and(run_fabric(table, program, row, work, result));
                });
                answer
            },
            are_done,
        );
        println!(
            "a series over {INTERVALS} single calls of the library, {}: plan's {:.2}, fabric's {:.2}",
            self.size(),
            by_plan.times.ratio,
            by_fabric.times.ratio
        );
    }
}

/// Edits of one kind, of plans of the same counts.
struct Edits {
    size: String,
    samples: Vec<(Plan, PlanEdit)>,
}

impl Edits {
    fn new(Counts(u, k, v): Counts, call: Call) -> Edits {
        let (kind, k) = match call {
            Call::ReplaceGate => (0, k),
            Call::AppendGate => (1, k.min(Plan::MAX_GATES as u16 - 1)),
            Call::ReplaceOutput => (2, k),
            _ => unreachable!("no edit"),
        };
        let mut random = Random::new(SEED);
        let shapes = PlanShape::ALL.into_iter().cycle();
        let samples = shapes.take(SAMPLES).map(|shape| {
            let plan = shaped_plan(&mut random, Counts(u, k, v), shape);
            (plan, sound_edits(&mut random, &plan)[kind])
        });
        Edits {
            size: format!("({u},{k},{v})"),
            samples: samples.collect(),
        }
    }

    fn measure(&self) -> Measured {
        measure(
            &self.samples,
            (),
            |(plan, edit), ()| Editing::LIBRARY.edit(plan, *edit),
            |(plan, edit), ()| Editing::INCREMENTAL.edit(plan, *edit),
            |edit, answer| edit.number == 0 && answer == Ok(edit.plan),
        )
    }

    /// Of the largest plans: the library's checks over its edits, and the Rust edits that count all
    /// figures again over those that do not.
    fn print_beside_checks() {
        let edits = Call::OF_EDITS.map(|call| Edits::new(Counts::MOST, call));
        let checks = edits.each_ref().map(|edits| {
            time(
                &edits.samples,
                &mut (),
                &|(plan, _): &(Plan, PlanEdit), (): &mut ()| check(plan),
                &|(plan, edit): &(Plan, PlanEdit), (): &mut ()| Editing::LIBRARY.edit(plan, *edit),
            )
        });
        let recounting = edits.each_ref().map(|edits| {
            time(
                &edits.samples,
                &mut (),
                &|(plan, edit): &(Plan, PlanEdit), (): &mut ()| {
                    Editing::REFERENCE.edit(plan, *edit)
                },
                &|(plan, edit): &(Plan, PlanEdit), (): &mut ()| {
                    Editing::INCREMENTAL.edit(plan, *edit)
                },
            )
        });
        print_ratios(
            "plan faults alone over an edit of the library",
            &edits,
            checks,
        );
        print_ratios(
            "Rust edits, recounting over incremental",
            &edits,
            recounting,
        );
    }
}

/// Ratios of the three edits in a line.
fn print_ratios(title: &str, edits: &[Edits; 3], times: [Times; 3]) {
    let ratios = Call::OF_EDITS.iter().zip(edits).zip(times);
    let ratios = ratios
        .map(|((call, edits), times)| format!("{} {} {:.2}", call.name(), edits.size, times.ratio));
    let ratios: Vec<String> = ratios.collect();
    println!("{title}: {}", ratios.join(", "));
}

/// Files of drawings of the same counts: those of plans, and others drawn backwards.
struct Drawings {
    size: String,
    in_order: Vec<Vec<u8>>,
    backwards: Vec<Vec<u8>>,
}

impl Drawings {
    fn new(random: &mut Random, plans: &Plans) -> Drawings {
        let [u, k, v] = plans.counts.map(|count| count as u16);
        let backwards = (0..SAMPLES).map(|_| {
            let drawing = backwards(random, Counts(u, k, v));
            PlanFile::new(random, &drawing, Standing::None).bytes
        });
        Drawings {
            size: plans.size(),
            in_order: plans.samples.iter().map(|s| s.file.clone()).collect(),
            backwards: backwards.collect(),
        }
    }

    fn measure(&self, call: Call) -> Measured {
        let files = match call {
            Call::ReadBackwards => &self.backwards,
            _ => &self.in_order,
        };
        measure(
            files,
            (),
            |file, ()| raw::plan_read_drawn(file),
            |file, ()| reference::drawn::read(file),
            |raw::Drawn {
                 number,
                 plan,
                 drawn,
                 ..
             },
             answer| { number == 0 && answer == Ok(DrawnPlan { plan, drawn }) },
        )
    }

    /// Drawn reading over plain reading of the files in order, for the library and the reference.
    fn print_beside_plain(&self) {
        let files = &self.in_order;
        let rattle = time(
            files,
            &mut (),
            &|file: &Vec<u8>, (): &mut ()| raw::plan_read_drawn(file),
            &|file: &Vec<u8>, (): &mut ()| raw::plan_read(file),
        );
        let rust = time(
            files,
            &mut (),
            &|file: &Vec<u8>, (): &mut ()| reference::drawn::read(file),
            &|file: &Vec<u8>, (): &mut ()| reference::plan::read(file),
        );
        println!(
            "drawn in order over plain reading of the same files, {}: Rattle {:.2}, Rust {:.2}",
            self.size, rattle.ratio, rust.ratio
        );
    }
}

fn measure_permutation(random: &mut Random, n: u32) -> Measured {
    let samples: Vec<Vec<u16>> = (0..SAMPLES)
        .map(|_| random_permutation(random, n))
        .collect();
    measure(
        &samples,
        vec![9; Block::P(n).program_bytes()],
        |wanted, program| program_permutation(n, wanted, program),
        |wanted, program| reference::permutation::program(n, wanted, program),
        are_done,
    )
}

/// What one side does: a call for a sample with lent buffers.
trait Side<S, B, A>: Fn(&S, &mut B) -> A {}
impl<S, B, A, F: Fn(&S, &mut B) -> A> Side<S, B, A> for F {}

/// Figures of the library and of the reference.
#[derive(Clone, Copy)]
struct Measured {
    times: Times,
    stack: [usize; 2],
}

/// Nanoseconds a call of each side, and their ratio.
#[derive(Clone, Copy)]
struct Times {
    nanoseconds: [f64; 2],
    ratio: f64,
}

impl Measured {
    /// The figures of a series, with the times of an interval.
    fn an_interval(mut self) -> Measured {
        for nanoseconds in &mut self.times.nanoseconds {
            *nanoseconds /= f64::from(INTERVALS);
        }
        self
    }
}

/// Whether neither side refused.
fn are_done(rattle: Result<(), Fault>, rust: Result<(), Fault>) -> bool {
    rattle.is_ok() && rust.is_ok()
}

/// Checks that both sides are done with every sample and agree on it, then measures them.
fn measure<S: Sync, B: Clone + Send + PartialEq, A, C>(
    samples: &[S],
    buffers: B,
    rattle: impl Side<S, B, A> + Sync,
    rust: impl Side<S, B, C> + Sync,
    agree: impl Fn(A, C) -> bool,
) -> Measured {
    for sample in samples {
        let (mut found, mut expected) = (buffers.clone(), buffers.clone());
        let (answer, due) = (rattle(sample, &mut found), rust(sample, &mut expected));
        assert!(agree(answer, due), "the answers differ");
        assert!(found == expected, "the buffers differ");
    }
    Measured {
        times: time(samples, &mut buffers.clone(), &rattle, &rust),
        stack: [
            stack(&samples[0], buffers.clone(), &rattle),
            stack(&samples[0], buffers, &rust),
        ],
    }
}

/// Times both sides in batches by turns.
fn time<S, B, A, C>(
    samples: &[S],
    buffers: &mut B,
    rattle: &impl Side<S, B, A>,
    rust: &impl Side<S, B, C>,
) -> Times {
    let mut rounds = 1;
    while batch(samples, rounds, buffers, rattle) < BATCH_TIME
        || batch(samples, rounds, buffers, rust) < BATCH_TIME
    {
        rounds *= 2;
    }
    let mut least = [f64::INFINITY; 2];
    let mut ratios = Vec::new();
    let start = Instant::now();
    while start.elapsed() < CASE_TIME || ratios.len() < LEAST_BATCHES {
        let times = [
            batch(samples, rounds, buffers, rattle),
            batch(samples, rounds, buffers, rust),
        ];
        let times = times.map(|time| time.as_nanos() as f64 / (rounds * samples.len()) as f64);
        least = [least[0].min(times[0]), least[1].min(times[1])];
        ratios.push(times[0] / times[1]);
    }
    ratios.sort_by(f64::total_cmp);
    Times {
        nanoseconds: least,
        ratio: ratios[ratios.len() / 2],
    }
}

/// The time of so many rounds over all samples.
fn batch<S, B, A>(
    samples: &[S],
    rounds: usize,
    buffers: &mut B,
    side: &impl Side<S, B, A>,
) -> Duration {
    let start = Instant::now();
    for _ in 0..rounds {
        for sample in samples {
            black_box(&side(black_box(sample), black_box(buffers)));
        }
    }
    start.elapsed()
}

/// Bytes below a caller's frame that are painted, but for the first few, which the painting itself
/// may use.
const PAINTED: usize = 1 << 16;
const UNPAINTED: usize = 256;
const PAINT: u8 = 0xa5;

/// Bytes of stack that a call uses, on a thread that has more than is painted. A first call is not
/// measured: what is done once in a thread is done in it.
fn stack<S: Sync, B: Send, A>(
    sample: &S,
    mut buffers: B,
    side: &(impl Side<S, B, A> + Sync),
) -> usize {
    thread::scope(|scope| {
        let builder = thread::Builder::new().stack_size(4 * PAINTED);
        let measuring = builder.spawn_scoped(scope, || {
            let mut call = || {
                black_box(&side(sample, &mut buffers));
            };
            stack_of(black_box(&mut call))
        });
        let measuring = measuring.expect("a thread can be started");
        measuring.join().expect("the call returns")
    })
}

/// The same of a call that is not inlined here.
fn stack_of(call: &mut dyn FnMut()) -> usize {
    call();
    let top = paint();
    call();
    used_below(top)
}

/// Paints what lies below this frame, and gives a place in it.
#[inline(never)]
fn paint() -> usize {
    let here = 0_u8;
    let top = ptr::from_ref(black_box(&here)).expose_provenance();
    for place in top - PAINTED..top - UNPAINTED {
        // SAFETY: the place is on this thread's stack, which is larger, and below every frame in
        // use: this one has less than the unpainted bytes.
        unsafe { ptr::with_exposed_provenance_mut::<u8>(place).write_volatile(PAINT) };
    }
    top
}

/// Bytes from `top` down to the lowest one that is no longer painted.
#[inline(never)]
fn used_below(top: usize) -> usize {
    let is_used = |place: &usize| {
        // SAFETY: the place is on this thread's stack and was painted, so it holds a byte.
        unsafe { ptr::with_exposed_provenance::<u8>(*place).read_volatile() != PAINT }
    };
    let lowest = (top - PAINTED..top - UNPAINTED).find(is_used);
    lowest.map_or(UNPAINTED, |place| top - place)
}

fn print_head() {
    println!(
        "{:29} {:>9} {:>9} {:>6} {:>7} {:>7} {:>7}   growth",
        "", "Rattle", "Rust", "", "", "Rattle", "Rust"
    );
    println!(
        "{:16}{:13} {:>9} {:>9} {:>6} {:>7} {:>7} {:>7}   Rattle  Rust  N log N",
        "call", "size", "ns", "ns", "ratio", "arrays", "stack", "stack"
    );
}

/// The arrays that the library's exports hold, counted from the sources beside this one.
fn arrays() -> Arrays {
    let root = Path::new(env!("CARGO_MANIFEST_DIR")).join("../..");
    let arrays = counted(&root).expect("the sources are there");
    assert!(arrays.problems.is_empty(), "{}", arrays.problems.join("\n"));
    arrays
}

/// The bytes of arrays that a call holds at one time.
fn array_bytes(arrays: &Arrays, call: Call) -> usize {
    let mut exports = arrays.exports.iter();
    let export = exports.find(|export| export.call == call.export());
    let bytes = export.expect("every timed call is an export").bytes;
    usize::try_from(bytes).expect("a stack is smaller")
}

fn line(arrays: &Arrays, call: Call, size: &str, measured: Measured) -> String {
    let Times { nanoseconds, ratio } = measured.times;
    let ([rattle, rust], [rattle_stack, rust_stack]) = (nanoseconds, measured.stack);
    format!(
        "{:16}{size:13} {rattle:>9.1} {rust:>9.1} {ratio:>6.2} {:>7} {rattle_stack:>7} {rust_stack:>7}",
        call.name(),
        array_bytes(arrays, call),
    )
}

/// The growth from P(n / 2) to P(n).
fn growth(n: u32, half: Measured, whole: Measured) -> String {
    let times = |side: usize| whole.times.nanoseconds[side] / half.times.nanoseconds[side];
    let [rattle, rust] = [0, 1].map(times);
    let level = f64::from(n.ilog2());
    format!(
        "   {rattle:>6.2} {rust:>5.2} {:>8.2}",
        2.0 * level / (level - 1.0)
    )
}

#[cfg(test)]
mod tests {
    use super::*;

    /// A call that holds an array of N bytes.
    fn holds<const N: usize>(_: &(), _: &mut ()) {
        let mut array = [1_u8; N];
        black_box(&mut array);
    }

    #[test]
    fn the_stack_of_an_array_is_measured() {
        let small = stack(&(), (), &holds::<1_000>);
        let large = stack(&(), (), &holds::<9_000>);
        assert!((1_000..1_600).contains(&small), "{small}");
        assert!((9_000..9_600).contains(&large), "{large}");
    }

    /// Where no record goes by value, the measured stack has the arrays in it.
    #[test]
    fn the_sides_agree_and_calls_hold_their_arrays() {
        let arrays = arrays();
        let mut random = Random::new(SEED);
        let plans = Plans::new(&mut random, Counts::MOST);
        let mut measured = Vec::new();
        for call in Call::OF_PLANS {
            measured.push((call, plans.measure(call)));
        }
        for call in Call::TUNED {
            measured.push((call, plans.measure_tuned(call)));
        }
        for call in Call::OF_EDITS {
            measured.push((call, Edits::new(Counts::MOST, call).measure()));
        }
        let drawings = Drawings::new(&mut random, &plans);
        for call in Call::OF_DRAWINGS {
            measured.push((call, drawings.measure(call)));
        }
        measured.push((Call::ProgramP, measure_permutation(&mut random, 512)));
        for (call, measured) in measured {
            let (bytes, [rattle, _]) = (array_bytes(&arrays, call), measured.stack);
            let has_record = !matches!(
                call,
                Call::WriteFabric | Call::Run | Call::RunSeries | Call::ProgramP
            );
            assert!(has_record || rattle >= bytes, "{}: {rattle}", call.name());
        }
    }
}
