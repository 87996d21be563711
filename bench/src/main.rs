//! The proved engine beside the reference: the time and the instructions of each call, both built for
//! release, in one run.
//!
//! usage: bench DATE                      writes the report, with this date, to standard output
//!        bench once SIDE CALL INPUT      does one call: engine or reference, `listing` and so on, by the input's name

use std::env;
use std::process::ExitCode;

mod count;
mod report;
mod subjects;
mod task;
mod time;

use task::{measured_call, Call, Lent, Side};

/// Does one call.
fn once(side: &str, call: &str, name: &str) -> Option<()> {
    let sides = [Side::Engine, Side::Reference];
    let side = sides.into_iter().find(|known| known.name() == side)?;
    let call = Call::ALL.into_iter().find(|known| known.name() == call)?;
    let input = subjects::input(call, name);
    measured_call(side, call, &input, &mut Lent::new());
    Some(())
}

fn main() -> ExitCode {
    let arguments: Vec<String> = env::args().skip(1).collect();
    let words: Vec<&str> = arguments.iter().map(String::as_str).collect();
    let done = match words[..] {
        ["once", side, call, name] => once(side, call, name),
        [date] => {
            report::write(date);
            Some(())
        }
        _ => None,
    };
    match done {
        Some(()) => ExitCode::SUCCESS,
        None => {
            eprintln!("usage: bench DATE, or bench once SIDE CALL INPUT");
            ExitCode::from(2)
        }
    }
}
