//! `stat`, `convert` and `tidy`, for circuits in the `.real` format.
use crate::gates::{Gate, Op, depth};
use crate::real::{self, Circuit, Refusal};
use crate::refuse;
use crate::splitting::{Stop, split};
use crate::tidying::tidy;
use crate::writing::{write_qasm, write_real};
use std::io;

const MOST_BYTES: usize = 134_217_728;
const MOST_GATES: usize = 4_000_000;
const MOST_TIDIED: usize = 65_536;
const MOST_LINES: usize = 16_384;

/// What a command answers for a text.
pub fn answer(words: &[&str], text: Vec<u8>) -> io::Result<()> {
    let circuit = circuit_of(&text);
    drop(text);
    match *words {
        ["stat"] => stat(&circuit),
        ["convert", ref rest @ ..] => {
            let (circuit, added) = narrow(circuit, MOST_GATES);
            write(rest, circuit, added)?;
        }
        ["tidy", ref rest @ ..] => {
            let (mut circuit, added) = narrow(circuit, MOST_TIDIED);
            circuit.gates = tidy(&circuit.gates, circuit.lines + added);
            write(rest, circuit, added)?;
        }
        _ => refuse(2, "bad command line"),
    }
    Ok(())
}

fn circuit_of(text: &[u8]) -> Circuit {
    if text.len() > MOST_BYTES {
        refuse(8, &format!("circuit over {MOST_BYTES} bytes"));
    }
    match real::read(text) {
        Ok(circuit) => circuit,
        Err((line, Refusal::Form)) => refuse(8, &format!("circuit line {line}")),
        Err((line, Refusal::Limit)) => refuse(8, &format!("circuit line {line} over a limit")),
    }
}

fn stat(circuit: &Circuit) {
    let (mut flips, mut swaps) = ([0; 4], 0);
    for gate in &circuit.gates {
        match gate.op {
            Op::Flip(_) => flips[gate.controls.len().min(3)] += 1,
            Op::Swap(..) => swaps += 1,
        }
    }
    println!("lines {}\ngates {}", circuit.lines, circuit.gates.len());
    println!(
        "x {}\ncx {}\nccx {}\nwide {}\nswap {swaps}",
        flips[0], flips[1], flips[2], flips[3]
    );
    println!("depth {}", depth(&circuit.gates, circuit.lines));
}

/// The circuit with gates of at most two controls, and how many lines were added.
fn narrow(circuit: Circuit, limit: usize) -> (Circuit, usize) {
    let added = usize::from(
        circuit
            .gates
            .iter()
            .any(|gate| wants_line(gate, circuit.lines)),
    );
    if circuit.lines + added > MOST_LINES {
        refuse(
            6,
            &format!("lines {} over {MOST_LINES}", circuit.lines + added),
        );
    }
    match split(circuit.gates, (circuit.lines + added) as u32, limit) {
        Ok(gates) => (Circuit { gates, ..circuit }, added),
        Err(Stop::NoIdle) => unreachable!("a line was added"),
        Err(Stop::Gates) => refuse(7, &format!("more than {limit} gates")),
    }
}

/// Whether a flip of three or more controls uses all lines.
fn wants_line(gate: &Gate, lines: usize) -> bool {
    let used = gate.lines().count();
    used > 3 && used == lines
}

fn write(words: &[&str], circuit: Circuit, added: usize) -> io::Result<()> {
    let marks = |mut marks: Vec<u8>| {
        marks.resize(circuit.lines + added, b'-');
        marks
    };
    match words {
        [] | ["--to", "qasm"] => write_qasm(
            &[("", "q", circuit.lines), ("", "dirty", added)],
            &circuit.gates,
        ),
        ["--to", "real"] => {
            let kinds = [("l", "", circuit.lines + added)];
            write_real(
                &kinds,
                &marks(circuit.constants),
                &marks(circuit.garbage),
                &circuit.gates,
            )
        }
        _ => refuse(2, "bad command line"),
    }
}
