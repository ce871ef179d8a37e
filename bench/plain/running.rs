//! The run of a program: its terms by their forms.
use crate::machine::{Bit, Claim, Machine, Tape, Value, Write};
use crate::terms::{Item, Loop, Operator, Program, Term};
use crate::tokens::{Fault, Place, fault};
use std::rc::Rc;

const MOST_DEPTH: u32 = 400;
const MOST_CLAIMS: usize = 4_096;
const MOST_OUTPUTS: usize = 1_024;

#[derive(Clone, Copy)]
pub struct Frame {
    pub env: u32,
    pub left: u32,
}

pub fn run(program: &Program) -> Result<Tape, Fault> {
    let mut machine = Machine {
        bindings: Vec::new(),
        store: Vec::new(),
        tape: Tape::default(),
        work: 0,
    };
    let mut env = 0;
    for parameter in &program.parameters {
        let first = machine.store.len() as u32;
        let end = first + parameter.width.unwrap_or(1);
        machine
            .store
            .extend((first..end).map(|input| Some(Bit::Input(input))));
        let register = Value::Register(Rc::new((first..end).collect()));
        env = machine.push(
            env,
            if parameter.width.is_some() {
                register
            } else {
                Value::Bit(first)
            },
        );
    }
    machine.tape.inputs = machine.store.len() as u32;
    let value = machine.run(
        Frame {
            env,
            left: MOST_DEPTH,
        },
        &program.body,
    )?;
    let at = program.body.place();
    let locations = match value {
        Value::Bit(location) => Rc::new(vec![location]),
        Value::Register(locations) => locations,
        _ => return fault(at, "NoOutput"),
    };
    if locations.len() > MOST_OUTPUTS {
        return fault(at, "Outputs");
    }
    for location in locations.iter() {
        let bit = machine.read(*location, at)?;
        machine.tape.outputs.push(bit);
    }
    Ok(machine.tape)
}

impl<'t, 'a> Machine<'t, 'a> {
    /// Runs a term. What is bound meanwhile is let go, unless the value is a function, which may
    /// need it.
    pub fn run(&mut self, frame: Frame, term: &'t Term<'a>) -> Result<Value<'t, 'a>, Fault> {
        if frame.left == 0 {
            return fault(term.place(), "Depth");
        }
        self.count(1, term.place())?;
        let kept = self.bindings.len();
        let value = self.term(
            Frame {
                left: frame.left - 1,
                ..frame
            },
            term,
        )?;
        if !matches!(value, Value::Function { .. }) {
            self.bindings.truncate(kept);
        }
        Ok(value)
    }

    fn term(&mut self, frame: Frame, term: &'t Term<'a>) -> Result<Value<'t, 'a>, Fault> {
        match term {
            Term::Name(name) => Ok(self.named(frame.env, name.back).clone()),
            Term::Bool(bit, at) => Ok(Value::Bit(self.write(Write::Constant(*bit), *at)?)),
            Term::Register(terms, at) => {
                let locations = terms
                    .iter()
                    .map(|term| self.bit(frame, term))
                    .collect::<Result<_, _>>()?;
                self.register(locations, *at)
            }
            Term::Block(items, last, _) => {
                let env = self.items(frame, items)?;
                self.run(Frame { env, ..frame }, last)
            }
            Term::Function(of, _) => Ok(Value::Function {
                env: frame.env,
                taken: 0,
                of,
            }),
            Term::Parts(base, parts) => {
                let mut value = self.run(frame, base)?;
                for part in parts {
                    value = self.part(frame.env, part, value, base.place())?;
                }
                Ok(value)
            }
            Term::Apply(head, terms) => {
                let mut value = self.run(frame, head)?;
                for term in terms {
                    value = self.argument(frame, value, term)?;
                }
                Ok(value)
            }
            Term::Append(sides, at) => self.append(frame, &sides.0, &sides.1, *at),
            Term::Rotate(sides, at) => self.rotate(frame, &sides.0, &sides.1, *at),
            Term::Claim(wanted, operand, at) => self.claim(frame, *wanted, operand, *at),
            Term::Chain(operator, terms) => self.chain(frame, *operator, terms),
            Term::Assign(sides) => {
                let (to, from) = (self.bit(frame, &sides.0)?, self.bit(frame, &sides.1)?);
                self.read(to, sides.0.place())?;
                self.store[to as usize] = Some(self.read(from, sides.1.place())?);
                Ok(Value::Unit)
            }
        }
    }

    fn bit(&mut self, frame: Frame, term: &'t Term<'a>) -> Result<u32, Fault> {
        match self.run(frame, term)? {
            Value::Bit(location) => Ok(location),
            _ => fault(term.place(), "NotBit"),
        }
    }

    fn claim(
        &mut self,
        frame: Frame,
        wanted: bool,
        operand: &'t Term<'a>,
        at: Place,
    ) -> Result<Value<'t, 'a>, Fault> {
        let location = self.bit(frame, operand)?;
        let bit = self.read(location, operand.place())?;
        if self.tape.claims.len() == MOST_CLAIMS {
            return fault(at, "Claims");
        }
        self.tape.claims.push(Claim { bit, wanted, at });
        if !wanted {
            self.store[location as usize] = None;
        }
        Ok(Value::Unit)
    }

    fn chain(
        &mut self,
        frame: Frame,
        operator: Operator,
        terms: &'t [Term<'a>],
    ) -> Result<Value<'t, 'a>, Fault> {
        let (first, rest) = terms.split_first().expect("a chain has terms");
        let mut location = self.bit(frame, first)?;
        for term in rest {
            let other = self.bit(frame, term)?;
            let (left, right) = (
                self.read(location, first.place())?,
                self.read(other, term.place())?,
            );
            let write = match operator {
                Operator::Xor => Write::Xor(left, right),
                Operator::And => Write::And(left, right),
            };
            location = self.write(write, term.place())?;
        }
        Ok(Value::Bit(location))
    }

    /// Runs the items in order, and says the environment behind them.
    fn items(&mut self, mut frame: Frame, items: &'t [Item<'a>]) -> Result<u32, Fault> {
        for item in items {
            match item {
                Item::Let(_, value) => {
                    let bound = self.run(frame, value)?;
                    frame.env = self.bind(frame.env, bound, value.place())?;
                }
                Item::Do(term) => drop(self.run(frame, term)?),
                Item::For(repetition) => self.repeat(frame, repetition)?,
            }
        }
        Ok(frame.env)
    }

    fn repeat(&mut self, frame: Frame, repetition: &'t Loop<'a>) -> Result<(), Fault> {
        if frame.left == 0 {
            return fault(repetition.at, "Depth");
        }
        self.count(1, repetition.at)?;
        let (first, last) = (
            self.number(frame.env, &repetition.first)?,
            self.number(frame.env, &repetition.last)?,
        );
        for number in first..=last {
            self.count(1, repetition.at)?;
            let kept = self.bindings.len();
            let env = self.push(frame.env, Value::Number(number));
            self.items(
                Frame {
                    env,
                    left: frame.left - 1,
                },
                &repetition.items,
            )?;
            self.bindings.truncate(kept);
        }
        Ok(())
    }

    fn argument(
        &mut self,
        frame: Frame,
        callee: Value<'t, 'a>,
        term: &'t Term<'a>,
    ) -> Result<Value<'t, 'a>, Fault> {
        let argument = self.run(frame, term)?;
        let Value::Function { env, taken, of } = callee else {
            return fault(term.place(), "NotFunction");
        };
        let env = self.bind(env, argument, term.place())?;
        if of.names.len() == taken + 1 {
            return self.run(Frame { env, ..frame }, &of.body);
        }
        Ok(Value::Function {
            env,
            taken: taken + 1,
            of,
        })
    }
}
