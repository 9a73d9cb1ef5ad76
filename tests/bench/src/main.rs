//! Times each call of the proved library beside the second program, on the same texts in one run, and measures the stack of both.
//! Both are built for release. Buffers are lent as they are, not cleared first.

mod cases;
mod stack;

use cases::{cases, deepest_chain, Case};
use std::hint::black_box;
use std::time::{Duration, Instant};

/// How long a call of both sides is timed for.
const TIMED: Duration = Duration::from_millis(200);
const BATCH: u32 = 10;
const SIZES: [usize; 5] = [16, 64, 128, 256, 512];

/// A call of the library and the same call of the second program.
struct Call {
    name: &'static str,
    library: fn(&mut Case),
    second: fn(&mut Case),
}

const CALLS: [Call; 4] = [
    Call {
        name: "map",
        library: |case| _ = black_box(bhedhmurali::map(case.row, &case.netlist, &mut case.out)),
        second: |case| _ = black_box(second::map(case.row, &case.netlist, &mut case.out)),
    },
    Call {
        name: "check",
        library: |case| _ = black_box(bhedhmurali::check(&case.netlist, &case.sequence)),
        second: |case| _ = black_box(second::check(&case.netlist, &case.sequence)),
    },
    Call {
        name: "simulate",
        library: |case| {
            _ = black_box(bhedhmurali::simulate(
                &case.sequence,
                &mut case.cells,
                u64::MAX,
            ))
        },
        second: |case| _ = black_box(second::simulate(&case.sequence, &mut case.cells, u64::MAX)),
    },
    Call {
        name: "evaluate",
        library: |case| {
            _ = black_box(bhedhmurali::evaluate(
                &case.netlist,
                &case.inputs,
                &mut case.out,
            ))
        },
        second: |case| _ = black_box(second::evaluate(&case.netlist, &case.inputs, &mut case.out)),
    },
];

fn main() {
    print_times();
    println!();
    print_stack();
}

/// A line a call and size; growth is the library's time over its time at the size before.
fn print_times() {
    println!("call      gates  library µs  second µs  ratio  growth");
    for call in &CALLS {
        let mut before: Option<(usize, f64)> = None;
        for gates in SIZES {
            let mut cases = cases(gates);
            let (ours, second) = means(&mut cases, call);
            let growth = before.map_or(String::new(), |(fewer, time)| {
                format!("{:.1} for {} times the gates", ours / time, gates / fewer)
            });
            let (name, ratio) = (call.name, ours / second);
            println!("{name:8}  {gates:5}  {ours:10.1}  {second:9.1}  {ratio:5.2}  {growth}");
            before = Some((gates, ours));
        }
    }
}

/// The stack that each call uses on a chain of 512 gates, each of which reads the one before.
fn print_stack() {
    println!("call      library bytes  second bytes  (stack used, a chain of 512 gates)");
    for call in &CALLS {
        let library = stack::used(deepest_chain(), call.library);
        let second = stack::used(deepest_chain(), call.second);
        println!("{:8}  {library:13}  {second:12}", call.name);
    }
}

/// The means over the cases of the time of one call, in microseconds: the library's and the second program's.
fn means(cases: &mut [Case], call: &Call) -> (f64, f64) {
    let count = cases.len().max(1) as f64;
    let times = cases.iter_mut().map(|case| times(case, call));
    let (ours, second) = times.fold((0.0, 0.0), |sum, time| (sum.0 + time.0, sum.1 + time.1));
    (ours / count, second / count)
}

/// The times of one call of each side: the best of their batches in turn, so that other work on the machine counts little.
fn times(case: &mut Case, call: &Call) -> (f64, f64) {
    let start = Instant::now();
    let (mut ours, mut second) = (f64::MAX, f64::MAX);
    while start.elapsed() < TIMED {
        ours = ours.min(batch(case, call.library));
        second = second.min(batch(case, call.second));
    }
    (ours, second)
}

/// The time of one call in microseconds, over a batch.
fn batch(case: &mut Case, call: fn(&mut Case)) -> f64 {
    let start = Instant::now();
    for _ in 0..BATCH {
        call(case);
    }
    start.elapsed().as_secs_f64() * 1e6 / f64::from(BATCH)
}
