//! Circuit files in the `.real` format.
use crate::gates::{Control, Gate, Op};
use std::collections::HashMap;

const MOST_LINES: usize = 16_384;
const MOST_GATES: usize = 4_000_000;
const MOST_NAME_BYTES: usize = 64;

/// A circuit, with the marks of its lines as they stand in the text.
#[derive(Default)]
pub struct Circuit {
    pub lines: usize,
    pub constants: Vec<u8>,
    pub garbage: Vec<u8>,
    pub gates: Vec<Gate>,
}

/// What is wrong with a line.
pub enum Refusal {
    Form,
    Limit,
}

use Refusal::{Form, Limit};

/// What was read so far: the header, the gates, or all up to `.end`.
#[derive(PartialEq)]
enum Part {
    Header,
    Gates,
    End,
}

struct Reader<'a> {
    part: Part,
    said: Vec<&'a [u8]>,
    numbers: HashMap<&'a [u8], u32>,
    stamps: Vec<u32>, // for each line the number of the last gate that has it
    circuit: Circuit,
}

/// The circuit of a text, or the refusal of a line, which are counted from 1.
pub fn read(text: &[u8]) -> Result<Circuit, (usize, Refusal)> {
    let mut reader = Reader {
        part: Part::Header,
        said: Vec::new(),
        numbers: HashMap::new(),
        stamps: Vec::new(),
        circuit: Circuit::default(),
    };
    let mut count = 0;
    for line in text
        .strip_suffix(b"\n")
        .unwrap_or(text)
        .split(|&byte| byte == b'\n')
    {
        count += 1;
        reader.take(line).map_err(|refusal| (count, refusal))?;
    }
    if reader.part != Part::End {
        return Err((count + 1, Form));
    }
    Ok(reader.circuit)
}

/// The words of a line before its comment.
fn words(line: &[u8]) -> impl Iterator<Item = &[u8]> {
    let words = line.split(|byte| matches!(byte, b' ' | b'\t' | b'\r'));
    words
        .filter(|word| !word.is_empty())
        .take_while(|word| word[0] != b'#')
}

fn number(digits: &[u8], most_digits: usize) -> Option<usize> {
    let is_number =
        !digits.is_empty() && digits.len() <= most_digits && digits.iter().all(u8::is_ascii_digit);
    is_number.then(|| {
        digits
            .iter()
            .fold(0, |value, digit| 10 * value + usize::from(digit - b'0'))
    })
}

impl<'a> Reader<'a> {
    fn take(&mut self, line: &'a [u8]) -> Result<(), Refusal> {
        let mut words = words(line);
        let Some(first) = words.next() else {
            return Ok(());
        };
        match self.part {
            Part::Header => self.take_in_header(first, words),
            Part::Gates if first == b".end" => {
                self.part = Part::End;
                none(words)
            }
            Part::Gates => self.take_gate(first, words),
            Part::End => Err(Form),
        }
    }

    fn take_in_header(
        &mut self,
        first: &'a [u8],
        mut rest: impl Iterator<Item = &'a [u8]>,
    ) -> Result<(), Refusal> {
        let is_repeated = matches!(first, b".inputbus" | b".outputbus");
        let wants_count = matches!(
            first,
            b".variables" | b".constants" | b".garbage" | b".begin"
        );
        if !is_repeated && self.said.contains(&first) || wants_count && self.circuit.lines == 0 {
            return Err(Form);
        }
        self.said.push(first);
        match first {
            b".version" if matches!(rest.next(), Some(b"1.0" | b"2.0")) => none(rest),
            b".numvars" => self.numvars(rest),
            b".variables" => self.variables(rest),
            b".constants" => Ok(self.circuit.constants = self.marks(rest, b"-01")?),
            b".garbage" => Ok(self.circuit.garbage = self.marks(rest, b"-1")?),
            b".begin" if !self.numbers.is_empty() => self.begin(rest),
            b".inputs" | b".outputs" | b".inputbus" | b".outputbus" => Ok(()),
            _ => Err(Form),
        }
    }

    fn numvars(&mut self, mut rest: impl Iterator<Item = &'a [u8]>) -> Result<(), Refusal> {
        let digits = rest.next().ok_or(Form)?;
        let zeros = digits.iter().take_while(|&&digit| digit == b'0').count();
        if digits.iter().any(|digit| !digit.is_ascii_digit()) || zeros == digits.len() {
            return Err(Form);
        }
        self.circuit.lines = number(&digits[zeros..], 5)
            .filter(|&lines| lines <= MOST_LINES)
            .ok_or(Limit)?;
        self.stamps = vec![0; self.circuit.lines];
        none(rest)
    }

    fn variables(&mut self, rest: impl Iterator<Item = &'a [u8]>) -> Result<(), Refusal> {
        for name in rest {
            if self.numbers.len() == self.circuit.lines || name[0] == b'-' {
                return Err(Form);
            }
            if name.len() > MOST_NAME_BYTES {
                return Err(Limit);
            }
            let number = self.numbers.len() as u32;
            if self.numbers.insert(name, number).is_some() {
                return Err(Form);
            }
        }
        if self.numbers.len() < self.circuit.lines {
            Err(Form)
        } else {
            Ok(())
        }
    }

    fn marks(
        &self,
        mut rest: impl Iterator<Item = &'a [u8]>,
        allowed: &[u8],
    ) -> Result<Vec<u8>, Refusal> {
        let marks = rest.next().ok_or(Form)?;
        if marks.len() != self.circuit.lines || marks.iter().any(|mark| !allowed.contains(mark)) {
            return Err(Form);
        }
        none(rest)?;
        Ok(marks.to_vec())
    }

    fn begin(&mut self, rest: impl Iterator<Item = &'a [u8]>) -> Result<(), Refusal> {
        for marks in [&mut self.circuit.constants, &mut self.circuit.garbage] {
            if marks.is_empty() {
                *marks = vec![b'-'; self.circuit.lines];
            }
        }
        self.part = Part::Gates;
        none(rest)
    }

    fn take_gate(
        &mut self,
        first: &[u8],
        mut rest: impl Iterator<Item = &'a [u8]>,
    ) -> Result<(), Refusal> {
        let targets = match first[0] {
            b't' => 1,
            b'f' => 2,
            _ => return Err(Form),
        };
        let count = number(&first[1..], 5)
            .filter(|&count| count >= targets)
            .ok_or(Form)?;
        if self.circuit.gates.len() == MOST_GATES {
            return Err(Limit);
        }
        let mut controls = Vec::with_capacity((count - targets).min(self.circuit.lines));
        for _ in targets..count {
            let word = rest.next().ok_or(Form)?;
            let name = word.strip_prefix(b"-");
            controls.push(Control {
                line: self.line(name.unwrap_or(word))?,
                positive: name.is_none(),
            });
        }
        let target = self.line(rest.next().ok_or(Form)?)?;
        let op = if targets == 1 {
            Op::Flip(target)
        } else {
            Op::Swap(target, self.line(rest.next().ok_or(Form)?)?)
        };
        self.circuit.gates.push(Gate { controls, op });
        none(rest)
    }

    /// The line of a name, which the gate did not have yet.
    fn line(&mut self, name: &[u8]) -> Result<u32, Refusal> {
        if name.is_empty() || matches!(name[0], b'-' | b'#') {
            return Err(Form);
        }
        if name.len() > MOST_NAME_BYTES {
            return Err(Limit);
        }
        let line = *self.numbers.get(name).ok_or(Form)?;
        let stamp = self.circuit.gates.len() as u32 + 1;
        if self.stamps[line as usize] == stamp {
            return Err(Form);
        }
        self.stamps[line as usize] = stamp;
        Ok(line)
    }
}

fn none<'a>(mut words: impl Iterator<Item = &'a [u8]>) -> Result<(), Refusal> {
    if words.next().is_some() {
        Err(Form)
    } else {
        Ok(())
    }
}
