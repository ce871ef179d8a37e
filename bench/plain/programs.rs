//! `eval` and `compile`, for programs without claims; `compile` by the plans `auto`, `eager`,
//! `lean` and `pebble`.
use crate::eager::eager;
use crate::graph::Graph;
use crate::lean::lean;
use crate::machine::{Tape, bit_of, bits_of};
use crate::pebbling::pebble;
use crate::planning::{MOST_GATES, MOST_LINES, Over, Plan};
use crate::refuse;
use crate::running::run;
use crate::splitting::{Stop, split};
use crate::tokens::{Fault, tokens};
use crate::writing::write_real;
use crate::{parsing, scope};
use std::io;

const MOST_BYTES: usize = 1_048_576;

/// What a command answers for a text.
pub fn answer(words: &[&str], text: Vec<u8>) -> io::Result<()> {
    if text.len() > MOST_BYTES {
        refuse(3, &format!("source over {MOST_BYTES} bytes"));
    }
    let tape = match tape_of(&text) {
        Ok(tape) => tape,
        Err(Fault { at, kind }) => refuse(3, &format!("{}:{} {kind}", at.line, at.column)),
    };
    drop(text);
    match *words {
        ["eval", word] => eval(&tape, word),
        ["compile"] => compile(&tape, "auto")?,
        ["compile", "--plan", plan] => compile(&tape, plan)?,
        _ => refuse(2, "bad command line"),
    }
    Ok(())
}

fn tape_of(text: &[u8]) -> Result<Tape, Fault> {
    let mut program = parsing::parse(text, &tokens(text)?)?;
    scope::bind(&mut program)?;
    run(&program)
}

fn eval(tape: &Tape, word: &str) {
    if word.len() != tape.inputs as usize || word.bytes().any(|digit| !matches!(digit, b'0' | b'1'))
    {
        refuse(12, "bad bits in word 1");
    }
    let input: Vec<bool> = word.bytes().map(|digit| digit == b'1').collect();
    let bits = bits_of(tape, &input);
    for (number, claim) in tape.claims.iter().enumerate() {
        if bit_of(&bits, &input, claim.bit) != claim.wanted {
            let at = claim.at;
            refuse(
                4,
                &format!(
                    "claim {} at {}:{} fails on {word}",
                    number + 1,
                    at.line,
                    at.column
                ),
            );
        }
    }
    let digit = |&output| {
        if bit_of(&bits, &input, output) {
            '1'
        } else {
            '0'
        }
    };
    println!("{}", tape.outputs.iter().map(digit).collect::<String>());
}

fn compile(tape: &Tape, plan: &str) -> io::Result<()> {
    assert!(tape.claims.is_empty(), "claims are not settled here");
    let graph = Graph::new(tape);
    let plan = match plan {
        "auto" => eager(&graph).and_then(narrow).or_else(|_| pebble(&graph)),
        "eager" => eager(&graph).and_then(narrow),
        "lean" => lean(&graph),
        "pebble" => pebble(&graph),
        _ => refuse(2, "bad command line"),
    };
    match plan {
        Ok(plan) => write(&graph, &plan),
        Err(Over::Lines(need)) => refuse(6, &format!("lines {need} over {MOST_LINES}")),
        Err(Over::Gates) => refuse(7, &format!("more than {MOST_GATES} gates")),
    }
}

/// A plan with its wide flips split.
fn narrow(plan: Plan) -> Result<Plan, Over> {
    match split(plan.gates, plan.lines, MOST_GATES) {
        Ok(gates) => Ok(Plan { gates, ..plan }),
        Err(Stop::NoIdle) => unreachable!("the output lines are idle"),
        Err(Stop::Gates) => Err(Over::Gates),
    }
}

fn write(graph: &Graph, plan: &Plan) -> io::Result<()> {
    let (inputs, outputs, lines) = (
        graph.inputs as usize,
        graph.outputs.len(),
        plan.lines as usize,
    );
    let kinds = [
        ("x", "inp", inputs),
        ("y", "outp", outputs),
        ("w", "work", lines - inputs - outputs),
    ];
    let constants = ["-".repeat(inputs), "0".repeat(lines - inputs)].concat();
    write_real(
        &kinds,
        constants.as_bytes(),
        "-".repeat(lines).as_bytes(),
        &plan.gates,
    )
}
