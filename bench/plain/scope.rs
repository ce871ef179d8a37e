//! Uses of names are bound: each gets the number of bindings between it and its own one.
use crate::terms::{Item, Name, Number, Program, Term, Unit};
use crate::tokens::{Fault, fault};
use std::collections::HashMap;

/// The names in scope, each with the depth at which it was bound nearest before, and that depth for
/// all of them.
struct Scope<'a> {
    bound: Vec<(&'a [u8], Option<usize>)>,
    nearest: HashMap<&'a [u8], usize>,
}

pub fn bind<'a>(program: &mut Program<'a>) -> Result<(), Fault> {
    let mut scope = Scope {
        bound: Vec::new(),
        nearest: HashMap::new(),
    };
    for parameter in &program.parameters {
        if scope.nearest.contains_key(parameter.name.text) {
            return fault(parameter.name.at, "TwoParams");
        }
        scope.push(&parameter.name);
    }
    scope.term(&mut program.body)
}

impl<'a> Scope<'a> {
    fn push(&mut self, name: &Name<'a>) {
        let before = self.nearest.insert(name.text, self.bound.len());
        self.bound.push((name.text, before));
    }

    /// All but so many names go out of scope.
    fn leave(&mut self, depth: usize) {
        for (name, before) in self.bound.drain(depth..).rev() {
            match before {
                Some(before) => self.nearest.insert(name, before),
                None => self.nearest.remove(name),
            };
        }
    }

    fn name(&self, name: &mut Name<'a>) -> Result<(), Fault> {
        match self.nearest.get(name.text) {
            Some(depth) => Ok(name.back = (self.bound.len() - 1 - depth) as u32),
            None => fault(name.at, "Unbound"),
        }
    }

    fn number(&self, number: &mut Number<'a>) -> Result<(), Fault> {
        let more = number.more.iter_mut().map(|(_, unit)| unit);
        for unit in [&mut number.first].into_iter().chain(more) {
            if let Unit::Name(name) = unit {
                self.name(name)?;
            }
        }
        Ok(())
    }

    fn terms(&mut self, terms: &mut [Term<'a>]) -> Result<(), Fault> {
        terms.iter_mut().try_for_each(|term| self.term(term))
    }

    fn term(&mut self, term: &mut Term<'a>) -> Result<(), Fault> {
        let depth = self.bound.len();
        match term {
            Term::Name(name) => self.name(name)?,
            Term::Bool(..) => {}
            Term::Register(terms, _) | Term::Chain(_, terms) => self.terms(terms)?,
            Term::Block(items, last, _) => {
                self.items(items)?;
                self.term(last)?;
            }
            Term::Function(lambda, _) => {
                lambda.names.iter().for_each(|name| self.push(name));
                self.term(&mut lambda.body)?;
            }
            Term::Parts(base, parts) => {
                self.term(base)?;
                for part in parts {
                    self.number(&mut part.first)?;
                    part.last
                        .as_mut()
                        .map_or(Ok(()), |last| self.number(last))?;
                }
            }
            Term::Apply(head, terms) => {
                self.term(head)?;
                self.terms(terms)?;
            }
            Term::Append(sides, _) | Term::Assign(sides) => {
                self.term(&mut sides.0)?;
                self.term(&mut sides.1)?;
            }
            Term::Rotate(sides, _) => {
                self.number(&mut sides.0)?;
                self.term(&mut sides.1)?;
            }
            Term::Claim(_, operand, _) => self.term(operand)?,
        }
        self.leave(depth);
        Ok(())
    }

    fn items(&mut self, items: &mut [Item<'a>]) -> Result<(), Fault> {
        for item in items {
            match item {
                Item::Let(name, value) => {
                    self.term(value)?;
                    self.push(name);
                }
                Item::Do(term) => self.term(term)?,
                Item::For(repetition) => {
                    self.number(&mut repetition.first)?;
                    self.number(&mut repetition.last)?;
                    let depth = self.bound.len();
                    self.push(&repetition.name);
                    self.items(&mut repetition.items)?;
                    self.leave(depth);
                }
            }
        }
        Ok(())
    }
}
