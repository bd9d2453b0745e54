//! Comparing on real material: the arrays of [Dvořák] and all series-parallel
//! expressions of up to seven literals, over all their inputs against a plain evaluation.

use crate::program::{Fed, Program};
use second::arrays::outputs;
use second::compiling::{ample_room, table_of};
use second::series_parallel::trees;

/// What was compared.
#[derive(Clone, Copy, Debug, Default)]
pub struct Count {
    pub expressions: usize,
    pub inputs: usize,
}

/// Compares the other program's tables with the second's, and its runs with the plain
/// evaluation; answers the first difference.
pub fn compare(other: &impl Program) -> Result<Count, String> {
    let mut done = Count::default();
    for output in outputs() {
        let truth = |inputs| output.truth(inputs);
        over_all_inputs(other, &output.text(), output.inputs, truth, &mut done)?;
        let complement = format!("!({})", output.text());
        let truth = |inputs| !output.truth(inputs);
        over_all_inputs(other, &complement, output.inputs, truth, &mut done)?;
    }
    for literals in 1..=7 {
        for tree in trees(literals) {
            let truth = |inputs| tree.truth(inputs);
            over_all_inputs(other, &tree.text(), literals, truth, &mut done)?;
        }
    }
    Ok(done)
}

fn over_all_inputs(
    other: &impl Program,
    text: &str,
    primitives: usize,
    truth: impl Fn(usize) -> bool,
    done: &mut Count,
) -> Result<(), String> {
    let mut out = vec![0; ample_room()];
    let made = other.compile(text.as_bytes(), &mut out);
    let table = &out[..made.length];
    if Ok(table) != table_of(text.as_bytes()).as_deref() {
        return Err(format!("{text}: another table than the second's"));
    }
    done.expressions += 1;
    for inputs in 0..1 << primitives {
        done.inputs += 1;
        if run(other, table, inputs) != Some(truth(inputs)) {
            return Err(format!("{text}: another truth at inputs {inputs:b}"));
        }
    }
    Ok(())
}

/// The truth that a run comes to, if it comes to one; bit i of the inputs is primitive i's.
fn run(other: &impl Program, table: &[u8], inputs: usize) -> Option<bool> {
    let mut run = other.start(table);
    for gate in table[4..table.len() - 3].chunks(6) {
        let primitive = u16::from_le_bytes([gate[1], gate[2]]);
        run = other.feed(fed(run.gate, run.label, inputs >> primitive & 1), table);
        if run.refusal != 0 {
            return None;
        }
    }
    let answer = other.answer(fed(run.gate, run.label, 0), table);
    (answer.refusal == 0).then_some(answer.truth == 1)
}

fn fed(gate: usize, label: u8, truth: usize) -> Fed {
    Fed {
        gate,
        label,
        truth: truth as u8,
    }
}
