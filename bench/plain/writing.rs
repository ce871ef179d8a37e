//! Circuit files that are written.
use crate::gates::{Gate, Op};
use std::io::{self, BufWriter, Write};

/// A kind of lines: the letter of their names in `.real`, their register in OpenQASM, and their
/// number.
pub type Kind = (&'static str, &'static str, usize);

/// A `.real` file, with the marks of its lines.
pub fn write_real(
    kinds: &[Kind],
    constants: &[u8],
    garbage: &[u8],
    gates: &[Gate],
) -> io::Result<()> {
    let mut out = BufWriter::new(io::stdout().lock());
    let names: Vec<String> = kinds
        .iter()
        .flat_map(|&(letter, _, count)| (0..count).map(move |at| format!("{letter}{at}")))
        .collect();
    let joined = names.join(" ");
    writeln!(out, ".version 2.0\n.numvars {}", names.len())?;
    writeln!(
        out,
        ".variables {joined}\n.inputs {joined}\n.outputs {joined}"
    )?;
    for (word, marks) in [(".constants ", constants), (".garbage ", garbage)] {
        out.write_all(word.as_bytes())?;
        out.write_all(marks)?;
        out.write_all(b"\n")?;
    }
    out.write_all(b".begin\n")?;
    for gate in gates {
        write!(out, "t{}", gate.controls.len() + 1)?;
        for line in gate.lines() {
            out.write_all(b" ")?;
            out.write_all(names[line as usize].as_bytes())?;
        }
        out.write_all(b"\n")?;
    }
    out.write_all(b".end\n")?;
    out.flush()
}

/// An OpenQASM file.
pub fn write_qasm(kinds: &[Kind], gates: &[Gate]) -> io::Result<()> {
    let mut out = BufWriter::new(io::stdout().lock());
    out.write_all(b"OPENQASM 2.0;\ninclude \"qelib1.inc\";\n")?;
    let mut places: Vec<String> = Vec::new();
    for &(_, register, count) in kinds.iter().filter(|kind| kind.2 > 0) {
        writeln!(out, "qreg {register}[{count}];")?;
        places.extend((0..count).map(|at| format!("{register}[{at}]")));
    }
    for gate in gates {
        out.write_all([b"x " as &[u8], b"cx ", b"ccx "][gate.controls.len()])?;
        for control in &gate.controls {
            out.write_all(places[control.line as usize].as_bytes())?;
            out.write_all(b",")?;
        }
        let (Op::Flip(target) | Op::Swap(target, _)) = gate.op;
        out.write_all(places[target as usize].as_bytes())?;
        out.write_all(b";\n")?;
    }
    out.flush()
}
