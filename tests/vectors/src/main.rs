//! Makes the calls of rows, with only the public items of the libraries, and compares the answers.
//!
//! Standard input has a line for each row: its place, a tab, and the row. Standard output has a
//! line for each of them: the place, and after a tab `same`; or `other`, the row's answer and ours;
//! or `fault` and the reason why the row has no answer.
#![tactic(auto)]

mod baggages;
mod calls;
mod carriers;
mod fault;
mod ids;
mod row;
mod scopes;
mod token;
mod trace_states;
mod values;

use calls::Subject;
use fault::Fault;
use row::Row;
use std::alloc::Global;
use std::io::{self, BufWriter, Write};

/// `same`, or `other` with both answers.
fn compared(alloc: Global, text: &str, subject: &mut Subject) -> Result<String, Fault> {
    let row = Row::read(alloc, text)?;
    let answer = calls::answer(alloc, &row, subject)?;
    if answer == row.answer {
        return Ok(String::from_str(alloc, "same")?);
    }
    let wanted = row.answer.line(alloc)?;
    let given = answer.line(alloc)?;
    Ok(format!(in alloc; "other\t{wanted}\t{given}")?)
}

fn main(rt: HostRuntime) -> io::Result<()> {
    let alloc = rt.alloc();
    let input = io::read_to_string(alloc, rt.stdin())?;
    let mut output = BufWriter::new(alloc, io::writer(&rt))?;
    let mut subject = Subject::None;
    for line in input.split_terminator('\n') {
        let (place, text) = line.split_once('\t').unwrap_or((line, ""));
        match compared(alloc, text, &mut subject) {
            Ok(told) => writeln!(output, "{place}\t{told}")?,
            Err(fault) => writeln!(output, "{place}\tfault\t{fault}")?,
        }
    }
    output.flush()
}
