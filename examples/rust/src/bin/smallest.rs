//! The smallest whole program: compiles an expression, feeds the truth of each gate's primitive and prints the answer.

use blist::{compile, gate, header, Refusal, Run, ROOM};

fn main() -> Result<(), Refusal> {
    let inside = [false, false, true, true]; // the point is outside solid 1, inside 2 and 3
    let mut room = [0; ROOM];
    let table = compile(b"1+2*3", &mut room)?;
    let n = header(table)?.gates;
    println!("{} bytes, {n} gates", table.len());

    let mut run = Run::start(table)?;
    for k in 0..n {
        let solid = gate(table, k)?.primitive;
        println!("gate {k} asks solid {solid}: {}", inside[solid]);
        run = run.feed(table, inside[solid])?;
    }
    println!("1+2*3 is {}", run.answer(table)?);
    Ok(())
}
