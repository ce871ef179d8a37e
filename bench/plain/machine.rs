//! The machine that runs a program without bits: its values, its environments and what it writes.
use crate::terms::Lambda;
use crate::tokens::{Fault, Place, fault};
use std::rc::Rc;

const MOST_WORK: usize = 16_777_216;
const MOST_WRITES: usize = 262_144;

/// What made a bit: an input of the program, or a write of its run.
#[derive(Clone, Copy)]
pub enum Bit {
    Input(u32),
    Write(u32),
}

#[derive(Clone, Copy)]
pub enum Write {
    Constant(bool),
    Xor(Bit, Bit),
    And(Bit, Bit),
}

/// A claim that a bit is this one.
pub struct Claim {
    pub bit: Bit,
    pub wanted: bool,
    pub at: Place,
}

/// What a run leaves.
#[derive(Default)]
pub struct Tape {
    pub inputs: u32,
    pub writes: Vec<Write>,
    pub claims: Vec<Claim>,
    pub outputs: Vec<Bit>,
}

#[derive(Clone)]
pub enum Value<'t, 'a> {
    Unit,
    Bit(u32),
    Register(Rc<Vec<u32>>),
    Function {
        env: u32,
        taken: usize,
        of: &'t Lambda<'a>,
    },
    Number(i32),
}

/// A bound value, the environment that it was bound in, and a leap to one farther out, past so many
/// bindings.
pub struct Binding<'t, 'a> {
    value: Value<'t, 'a>,
    parent: u32,
    leap: u32,
    passed: u32,
}

/// Environment 0 is empty, and environment k + 1 is that of binding k.
pub struct Machine<'t, 'a> {
    pub bindings: Vec<Binding<'t, 'a>>,
    pub store: Vec<Option<Bit>>,
    pub tape: Tape,
    pub work: usize,
}

impl<'t, 'a> Machine<'t, 'a> {
    pub fn count(&mut self, work: usize, at: Place) -> Result<(), Fault> {
        self.work += work;
        if self.work > MOST_WORK {
            fault(at, "Work")
        } else {
            Ok(())
        }
    }

    pub fn read(&self, location: u32, at: Place) -> Result<Bit, Fault> {
        self.store[location as usize].map_or(fault(at, "Gone"), Ok)
    }

    pub fn write(&mut self, write: Write, at: Place) -> Result<u32, Fault> {
        let number = self.tape.writes.len();
        if number == MOST_WRITES {
            return fault(at, "Writes");
        }
        self.tape.writes.push(write);
        self.store.push(Some(Bit::Write(number as u32)));
        Ok(self.store.len() as u32 - 1)
    }

    pub fn push(&mut self, env: u32, value: Value<'t, 'a>) -> u32 {
        let (leap, passed) = self.leap_from(env);
        self.bindings.push(Binding {
            value,
            parent: env,
            leap,
            passed,
        });
        self.bindings.len() as u32
    }

    /// Where the last two leaps pass equally many bindings, the next is both of them.
    fn leap_from(&self, env: u32) -> (u32, u32) {
        if env > 0 {
            let near = &self.bindings[env as usize - 1];
            if near.leap > 0 {
                let next = &self.bindings[near.leap as usize - 1];
                if near.passed == next.passed {
                    return (next.leap, near.passed + next.passed + 2);
                }
            }
        }
        (env, 0)
    }

    pub fn bind(&mut self, env: u32, value: Value<'t, 'a>, at: Place) -> Result<u32, Fault> {
        if let Value::Register(locations) = &value {
            self.count(locations.len(), at)?;
        }
        Ok(self.push(env, value))
    }

    pub fn named(&self, mut env: u32, mut back: u32) -> &Value<'t, 'a> {
        loop {
            let binding = &self.bindings[env as usize - 1];
            if back == 0 {
                return &binding.value;
            }
            if binding.passed < back {
                (env, back) = (binding.leap, back - 1 - binding.passed);
            } else {
                (env, back) = (binding.parent, back - 1);
            }
        }
    }
}

/// The bits of all writes on an input.
pub fn bits_of(tape: &Tape, input: &[bool]) -> Vec<bool> {
    let mut bits: Vec<bool> = Vec::with_capacity(tape.writes.len());
    for write in &tape.writes {
        bits.push(match *write {
            Write::Constant(bit) => bit,
            Write::Xor(left, right) => bit_of(&bits, input, left) ^ bit_of(&bits, input, right),
            Write::And(left, right) => bit_of(&bits, input, left) & bit_of(&bits, input, right),
        });
    }
    bits
}

pub fn bit_of(bits: &[bool], input: &[bool], bit: Bit) -> bool {
    match bit {
        Bit::Input(number) => input[number as usize],
        Bit::Write(number) => bits[number as usize],
    }
}
