//! Comparing runs: start, feed and answer over tables of all sorts, well formed or not, and
//! over runs that their holder may have altered in any way; and the readers of a table.

use crate::difference::{shortest, shown};
use crate::program::{Fed, Program, Second};
use second::compiling::compile;
use second::layout::length;
use second::random::Random;
use second::text::MOST_LITERALS;
use std::fmt::Debug;

/// What was compared.
#[derive(Clone, Copy, Debug, Default)]
pub struct Count {
    pub tables: usize,
    pub well_formed: usize,
    pub runs: usize,
}

/// Compares the other program with the second on at least so many tables, each with some
/// runs; answers the first difference.
pub fn compare(other: &impl Program, seed: u64, count: usize) -> Result<Count, String> {
    let mut done = Count::default();
    let mut family = 0;
    while done.tables < count {
        let mut random = Random::new(seed.wrapping_add(family));
        let base = base(&mut random);
        for table in altered(&mut random, &base) {
            try_table(other, &mut random, &table, &mut done)?;
        }
        if family % 64 == 0 {
            sweep(other, &base, &mut done)?;
        }
        family += 1;
    }
    Ok(done)
}

/// A table to start from, well formed but for some at the limit of gates.
fn base(random: &mut Random) -> Vec<u8> {
    match random.below(16) {
        0..=7 => {
            let literals = random.between(1, 8);
            compiled(random, literals)
        }
        8..=9 => {
            let literals = random.between(1, 60);
            compiled(random, literals)
        }
        10..=14 => {
            let gates = random.between(1, 8);
            made_up(random, gates)
        }
        _ if random.one_in(8) => {
            let gates = random.between(MOST_LITERALS - 1, MOST_LITERALS + 1);
            made_up(random, gates)
        }
        _ => made_up(random, 1),
    }
}

fn compiled(random: &mut Random, literals: usize) -> Vec<u8> {
    compile(&random.expression(literals), length(literals)).expect("the expression is a sum")
}

/// A table that no text need have, with up to 15 labels.
fn made_up(random: &mut Random, gates: usize) -> Vec<u8> {
    let labels = random.between(2, 15);
    let [low, high] = (gates as u16).to_le_bytes();
    let mut table = vec![b'H', low, high, labels as u8];
    for gate in 0..gates {
        let [low, high] = (random.below(1_024) as u16).to_le_bytes();
        let own = if gate == 0 { 0 } else { random.below(labels) };
        let (yes, no) = (random.below(labels), random.below(labels));
        let kind = random.pick(b"PN");
        table.extend([kind, low, high, own as u8, yes as u8, no as u8]);
    }
    let yes = random.below(labels);
    let no = (yes + random.between(1, labels - 1)) % labels;
    table.extend([b'E', yes as u8, no as u8]);
    table
}

/// Bytes that a table's fields turn on.
const TELLING: &[u8] = b"HPNEBR\x00\x01\x02\x03\x04\x05\x0e\x0f\x10\xff";

/// The table as it is, or altered in one manner: one byte changed at every offset, cut off
/// at every length, made longer, damaged, or other bytes altogether.
fn altered(random: &mut Random, base: &[u8]) -> Vec<Vec<u8>> {
    let small = base.len() < 80;
    match random.below(12) {
        0..=2 if small => (0..base.len())
            .map(|at| changed(random, base, at))
            .collect(),
        3 if small => (0..base.len()).map(|kept| base[..kept].to_vec()).collect(),
        4 => (1..8).map(|more| longer(random, base, more)).collect(),
        5 => (0..8).map(|_| other_bytes(random)).collect(),
        6..=8 => (0..8).map(|_| damaged(random, base)).collect(),
        _ => vec![base.to_vec()],
    }
}

fn any_byte(random: &mut Random) -> u8 {
    match random.one_in(2) {
        true => random.pick(TELLING),
        false => random.word() as u8,
    }
}

fn changed(random: &mut Random, base: &[u8], at: usize) -> Vec<u8> {
    let mut table = base.to_vec();
    while table[at] == base[at] {
        table[at] = any_byte(random);
    }
    table
}

fn longer(random: &mut Random, base: &[u8], more: usize) -> Vec<u8> {
    let mut table = base.to_vec();
    table.extend((0..more).map(|_| any_byte(random)));
    table
}

fn damaged(random: &mut Random, base: &[u8]) -> Vec<u8> {
    let mut table = base.to_vec();
    for _ in 0..random.between(1, 3) {
        random.damage(&mut table, TELLING);
    }
    table
}

/// Random bytes, at times behind a sound header and of the length it asks for.
fn other_bytes(random: &mut Random) -> Vec<u8> {
    let gates = random.between(0, 3);
    let header = [b'H', gates as u8, 0, random.below(18) as u8];
    let rest = match random.one_in(2) {
        true => length(gates) - header.len(),
        false => random.below(24),
    };
    let mut bytes = match random.one_in(3) {
        true => Vec::new(),
        false => header.to_vec(),
    };
    bytes.extend((0..rest).map(|_| any_byte(random)));
    bytes
}

fn try_table(
    other: &impl Program,
    random: &mut Random,
    table: &[u8],
    done: &mut Count,
) -> Result<(), String> {
    done.tables += 1;
    let started = Second.start(table).refusal == 0;
    done.well_formed += usize::from(started);
    for _ in 0..4 {
        let fed = any_run(random, table);
        try_run(other, table, fed, done)?;
    }
    if started {
        walk(other, random, table, done)?;
    }
    Ok(())
}

/// A gate number and a label of any value, more often near the table's own.
fn any_run(random: &mut Random, table: &[u8]) -> Fed {
    let gates = table.len() / 6;
    let gate = match random.below(8) {
        0..=4 => random.below(gates + 2),
        5 => random.pick(&far_gates(gates)),
        6 => random.word() as usize >> random.below(64),
        _ => gates.saturating_sub(1),
    };
    let label = match random.one_in(2) {
        true => random.below(16) as u8,
        false => random.word() as u8,
    };
    Fed {
        gate,
        label,
        truth: any_truth(random),
    }
}

fn any_truth(random: &mut Random) -> u8 {
    match random.below(4) {
        0..=1 => 0,
        2 => 1,
        _ => random.word() as u8,
    }
}

/// Gate numbers beyond every table, some of which a careless product or cast brings back.
fn far_gates(gates: usize) -> [usize; 10] {
    let wrapped = |bits: u32| (1usize << bits).wrapping_add(gates);
    [
        wrapped(8),
        wrapped(10),
        wrapped(16),
        wrapped(32),
        wrapped(63),
        usize::MAX / 6,
        usize::MAX / 6 + 1,
        usize::MAX - 1,
        usize::MAX,
        1 << 63,
    ]
}

/// A whole run, gate by gate, at times altered on the way.
fn walk(
    other: &impl Program,
    random: &mut Random,
    table: &[u8],
    done: &mut Count,
) -> Result<(), String> {
    let altering = random.one_in(4);
    let mut run = Second.start(table);
    while run.refusal == 0 {
        let fed = Fed {
            gate: run.gate,
            label: run.label,
            truth: any_truth(random),
        };
        try_run(other, table, fed, done)?;
        run = Second.feed(fed, table);
        if altering && random.one_in(8) {
            run.label = random.below(16) as u8;
        }
    }
    Ok(())
}

/// Every gate number up to two beyond the table, and far ones, with every label.
fn sweep(other: &impl Program, table: &[u8], done: &mut Count) -> Result<(), String> {
    let gates = (table.len() - 7) / 6;
    let near = 0..=(gates + 2).min(20);
    for gate in near.chain(far_gates(gates)) {
        for label in 0..=u8::MAX {
            for truth in [0, 1 + label / 2] {
                try_run(other, table, Fed { gate, label, truth }, done)?;
            }
        }
    }
    Ok(())
}

fn try_run(other: &impl Program, table: &[u8], fed: Fed, done: &mut Count) -> Result<(), String> {
    done.runs += 1;
    match fault(other, table, fed) {
        None => Ok(()),
        Some(_) => Err(report(other, table, fed)),
    }
}

/// What is wrong with one of the other program's six answers, if anything.
fn fault(other: &impl Program, table: &[u8], fed: Fed) -> Option<String> {
    differs("start", other.start(table), Second.start(table))
        .or_else(|| differs("feed", other.feed(fed, table), Second.feed(fed, table)))
        .or_else(|| {
            differs(
                "answer",
                other.answer(fed, table),
                Second.answer(fed, table),
            )
        })
        .or_else(|| differs("header", other.header(table), Second.header(table)))
        .or_else(|| {
            differs(
                "gate",
                other.gate(table, fed.gate),
                Second.gate(table, fed.gate),
            )
        })
        .or_else(|| differs("ends", other.ends(table), Second.ends(table)))
}

fn differs<A: PartialEq + Debug>(part: &str, given: A, right: A) -> Option<String> {
    (given != right).then(|| format!("{part} answered {given:?}, the second {right:?}"))
}

/// The difference, with as few gates as show it and then as few bytes.
fn report(other: &impl Program, table: &[u8], fed: Fed) -> String {
    let (table, fed) = with_fewer_gates(other, table.to_vec(), fed);
    let table = shortest(table, |shorter| fault(other, shorter, fed).is_some());
    let fault = fault(other, &table, fed).expect("the table found differs");
    format!("table of {}, {fed:?}: {fault}", shown(&table))
}

/// Leaves out gates that can be spared; the run's gate number may fall with them.
fn with_fewer_gates(other: &impl Program, mut table: Vec<u8>, mut fed: Fed) -> (Vec<u8>, Fed) {
    let mut gate = 0;
    while length(gate) < table.len() {
        let shorter = without_gate(&table, gate);
        let runs = [fed.gate.saturating_sub(1), fed.gate].map(|gate| Fed { gate, ..fed });
        match runs
            .iter()
            .find(|&&run| fault(other, &shorter, run).is_some())
        {
            Some(&run) => (table, fed) = (shorter, run),
            None => gate += 1,
        }
    }
    (table, fed)
}

/// The table without one gate's record, the number of gates in its header one less.
fn without_gate(table: &[u8], gate: usize) -> Vec<u8> {
    let start = 4 + 6 * gate;
    let mut shorter = [&table[..start], &table[(start + 6).min(table.len())..]].concat();
    let gates = u16::from_le_bytes([shorter[1], shorter[2]]).wrapping_sub(1);
    shorter[1..3].copy_from_slice(&gates.to_le_bytes());
    shorter
}
