//! The report.
use crate::passes::{Delivery, Outcome};
use crate::unwinding::Registers;
use std::fmt::Write;

fn put_state(report: &mut String, state: &Registers) {
    let general = &state.general;
    write!(
        report,
        " ra={:#x} sp={:#x} rbx={:#x} rbp={:#x} r12={:#x} r13={:#x} r14={:#x} r15={:#x}",
        state.ra, general[7], general[3], general[6], general[12], general[13], general[14], general[15]
    )
    .unwrap();
}

fn put_states(report: &mut String, states: &[Registers]) {
    for (index, state) in states.iter().enumerate() {
        write!(report, "frame {index}").unwrap();
        put_state(report, state);
        report.push('\n');
    }
}

#[inline(never)]
pub fn walked(states: &[Registers]) -> String {
    let mut report = String::new();
    put_states(&mut report, states);
    report.push_str("end\n");
    report
}

#[inline(never)]
pub fn delivered(delivery: &Delivery) -> String {
    let mut report = String::new();
    put_states(&mut report, &delivery.visited);
    for (pad, sp) in &delivery.trail {
        writeln!(report, "cleanup pad={pad:#x} sp={sp:#x}").unwrap();
    }
    let outcome = match delivery.outcome {
        Outcome::Installed(state) => {
            report.push_str("landing");
            put_state(&mut report, &state);
            writeln!(report, " rax={:#x} rdx={:#x}", state.general[0], state.general[1]).unwrap();
            "outcome installed\n"
        }
        Outcome::EndOfStack => "outcome end of stack\n",
        Outcome::FatalPhase1 => "outcome fatal phase 1\n",
        Outcome::FatalPhase2 => "outcome fatal phase 2\n",
    };
    report.push_str(outcome);
    report
}
