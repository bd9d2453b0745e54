//! Times the library and the second program side by side: compiling texts of three shapes
//! and of 8 to 1,024 literals, and feeding tables of 1 and of 1,024 gates.
//!
//!   bench compile | feeds

use compare::library::Library;
use compare::program::{Fed, Program, Second};
use second::compiling::{ample_room, compile, table_of};
use std::process::ExitCode;

/// Each time is the median of so many runs.
const RUNS: usize = 9;
/// A run goes on for at least about so long.
const NANOSECONDS: f64 = 4_000_000.0;

fn main() -> ExitCode {
    let words: Vec<String> = std::env::args().skip(1).collect();
    match words.iter().map(String::as_str).collect::<Vec<_>>()[..] {
        ["compile"] => compiling(),
        ["feeds"] => feeding(),
        _ => {
            eprintln!("usage: bench compile | feeds");
            return ExitCode::from(2);
        }
    }
    ExitCode::SUCCESS
}

/// A shape: its name and its text of so many literals.
type Shape = (&'static str, fn(usize) -> String);

const SHAPES: [Shape; 3] = [
    ("tree-like", |literals| tree_like(0, literals, 0)),
    ("left-deep", left_deep),
    ("alternating", alternating),
];

/// Even halves, unions and intersections taking turns from level to level.
fn tree_like(first: usize, literals: usize, depth: usize) -> String {
    if literals == 1 {
        return first.to_string();
    }
    let half = literals / 2;
    let left = tree_like(first, half, depth + 1);
    let right = tree_like(first + half, literals - half, depth + 1);
    let sign = if depth % 2 == 0 { '+' } else { '*' };
    format!("({left}{sign}{right})")
}

/// One product, grouped from the left, every other factor complemented.
fn left_deep(literals: usize) -> String {
    let mut text = "0".to_string();
    for number in 1..literals {
        let sign = if number % 2 == 0 { "*" } else { "*!" };
        text += &format!("{sign}{number}");
    }
    text
}

/// Unions and intersections taking turns literal by literal, as deep as parentheses go,
/// and a sum of such parts where the literals are more.
fn alternating(literals: usize) -> String {
    let parts = (0..literals).step_by(128).map(|first| {
        let last = literals.min(first + 128);
        (first + 1..last).fold(first.to_string(), |part, number| {
            match (number - first) % 2 {
                0 => format!("({part})*{number}"),
                _ => format!("{part}+{number}"),
            }
        })
    });
    let parts: Vec<String> = parts.collect();
    parts.join("+")
}

/// The nanoseconds of one call, by each run, the two programs taking turns.
struct Times {
    library: Vec<f64>,
    second: Vec<f64>,
}

fn times(mut library: impl FnMut(), mut second: impl FnMut()) -> Times {
    let calls = [calls(&mut library), calls(&mut second)];
    let mut times = Times {
        library: Vec::new(),
        second: Vec::new(),
    };
    for _ in 0..RUNS {
        times.library.push(time(&mut library, calls[0]));
        times.second.push(time(&mut second, calls[1]));
    }
    times
}

/// How many calls make a run long enough.
fn calls(call: &mut impl FnMut()) -> usize {
    time(call, 3);
    (NANOSECONDS / time(call, 5)).ceil() as usize
}

fn time(call: &mut impl FnMut(), calls: usize) -> f64 {
    let start = processor_time();
    for _ in 0..calls {
        call();
    }
    (processor_time() - start) / calls as f64
}

#[repr(C)]
struct Timespec {
    seconds: i64,
    nanoseconds: i64,
}

extern "C" {
    fn clock_gettime(clock: i32, time: *mut Timespec) -> i32;
}

/// The nanoseconds that this program has had the processor: other programs do not count.
fn processor_time() -> f64 {
    const PROCESS: i32 = 2;
    let mut time = Timespec {
        seconds: 0,
        nanoseconds: 0,
    };
    // Safety: the pointer is to a struct that the function may write.
    let failed = unsafe { clock_gettime(PROCESS, &mut time) };
    assert_eq!(failed, 0, "the clock is there");
    time.seconds as f64 * 1e9 + time.nanoseconds as f64
}

fn median(times: &[f64]) -> f64 {
    let mut times = times.to_vec();
    times.sort_unstable_by(|a, b| a.total_cmp(b));
    times[times.len() / 2]
}

impl Times {
    fn medians(&self) -> (f64, f64) {
        (median(&self.library), median(&self.second))
    }

    /// How far the runs' ratios lie apart, in parts of a hundred of their median.
    fn noise(&self) -> f64 {
        let pairs = self.library.iter().zip(&self.second);
        let mut ratios: Vec<f64> = pairs.map(|(library, second)| library / second).collect();
        ratios.sort_unstable_by(|a, b| a.total_cmp(b));
        (ratios[RUNS - 2] - ratios[1]) / ratios[RUNS / 2] * 100.0
    }
}

fn compiling() {
    println!("compile: ns a call, medians of {RUNS} runs; ratio is library / second;");
    println!("growth is the library's time over its time at half the literals");
    println!("shape        literals   library    second  ratio  noise  growth");
    for (name, shape) in SHAPES {
        let mut before = None;
        for literals in (3..=10).map(|power| 1 << power) {
            let text = shape(literals).into_bytes();
            let times = compile_times(&text, 6 * literals + 7);
            let (library, second) = times.medians();
            let growth = before.map_or(String::new(), |time| format!("{:.2}", library / time));
            let (ratio, noise) = (library / second, times.noise());
            println!(
                "{name:<12} {literals:>8} {library:>9.0} {second:>9.0} {ratio:>6.2} {noise:>5.0}% {growth:>7}"
            );
            before = Some(library);
        }
    }
}

/// Both compile the text into one buffer each, cleared beforehand.
fn compile_times(text: &[u8], length: usize) -> Times {
    let (mut ours, mut theirs) = (vec![0; ample_room()], vec![0; ample_room()]);
    let times = times(
        || assert_eq!(Library.compile(text, &mut ours).length, length),
        || {
            let table = compile(text, theirs.len()).expect("the text is a sum");
            theirs[..length].copy_from_slice(&table);
        },
    );
    assert_eq!(ours, theirs, "the tables are equal");
    times
}

fn feeding() {
    println!("feeds: ns a feed, medians of {RUNS} runs; ratio is library / second");
    println!("gates      library    second  ratio  noise  library's feeds a second");
    let mut paces = Vec::new();
    for gates in [1, 1_024] {
        let table = table_of(alternating(gates).as_bytes()).expect("the text is a sum");
        let times = feed_times(&table, gates);
        let (library, second) = times.medians();
        let (library, second) = (library / gates as f64, second / gates as f64);
        let (ratio, noise, pace) = (library / second, times.noise(), 1e9 / library);
        println!("{gates:<8} {library:>9.1} {second:>9.1} {ratio:>6.2} {noise:>5.0}%  {pace:.0}");
        paces.push(pace);
    }
    let ratio = paces[1] / paces[0];
    println!("pace at 1,024 gates over pace at 1 gate: {ratio:.2}");
}

fn feed_times(table: &[u8], gates: usize) -> Times {
    times(
        || fed_through(&Library, table, gates),
        || fed_through(&Second, table, gates),
    )
}

/// Feeds every gate once, from gate 0 with label 0.
fn fed_through(program: &impl Program, table: &[u8], gates: usize) {
    let (mut gate, mut label) = (0, 0);
    for number in 0..gates {
        let truth = (number % 3 == 0) as u8;
        let run = program.feed(Fed { gate, label, truth }, table);
        gate = run.gate;
        label = run.label;
    }
    assert_eq!(gate, gates, "every gate is passed");
}
