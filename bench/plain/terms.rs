//! The terms of a program.
use crate::tokens::Place;

/// A name; `back` is the number of bindings between a use and its own one.
pub struct Name<'a> {
    pub text: &'a [u8],
    pub at: Place,
    pub back: u32,
}

pub enum Unit<'a> {
    Digits(u32, Place),
    Name(Name<'a>),
}

/// A sum of units: the first, and those that are added to it or taken away.
pub struct Number<'a> {
    pub first: Unit<'a>,
    pub more: Vec<(bool, Unit<'a>)>,
}

/// A place of a register, or a slice.
pub struct Part<'a> {
    pub first: Number<'a>,
    pub last: Option<Number<'a>>,
    pub at: Place,
}

pub enum Item<'a> {
    Let(Name<'a>, Term<'a>),
    Do(Term<'a>),
    For(Box<Loop<'a>>),
}

pub struct Loop<'a> {
    pub name: Name<'a>,
    pub first: Number<'a>,
    pub last: Number<'a>,
    pub items: Vec<Item<'a>>,
    pub at: Place,
}

pub struct Lambda<'a> {
    pub names: Vec<Name<'a>>,
    pub body: Term<'a>,
}

#[derive(Clone, Copy, PartialEq)]
pub enum Operator {
    Xor,
    And,
}

/// A term; each place is that of the first token.
pub enum Term<'a> {
    Name(Name<'a>),
    Bool(bool, Place),
    Register(Vec<Term<'a>>, Place),
    Block(Vec<Item<'a>>, Box<Term<'a>>, Place),
    Function(Box<Lambda<'a>>, Place),
    Parts(Box<Term<'a>>, Vec<Part<'a>>),
    Apply(Box<Term<'a>>, Vec<Term<'a>>),
    Append(Box<(Term<'a>, Term<'a>)>, Place),
    Rotate(Box<(Number<'a>, Term<'a>)>, Place),
    /// A claim that a bit is this one.
    Claim(bool, Box<Term<'a>>, Place),
    Chain(Operator, Vec<Term<'a>>),
    Assign(Box<(Term<'a>, Term<'a>)>),
}

impl Term<'_> {
    pub fn place(&self) -> Place {
        match self {
            Term::Name(name) => name.at,
            Term::Bool(_, at)
            | Term::Register(_, at)
            | Term::Block(_, _, at)
            | Term::Function(_, at) => *at,
            Term::Append(_, at) | Term::Rotate(_, at) | Term::Claim(_, _, at) => *at,
            Term::Parts(first, _) | Term::Apply(first, _) => first.place(),
            Term::Assign(sides) => sides.0.place(),
            Term::Chain(_, terms) => terms[0].place(),
        }
    }
}

pub struct Parameter<'a> {
    pub name: Name<'a>,
    pub width: Option<u32>,
}

pub struct Program<'a> {
    pub parameters: Vec<Parameter<'a>>,
    pub body: Term<'a>,
}
