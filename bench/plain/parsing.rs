//! Recursive descent over the tokens of a program.
use crate::terms::{Lambda, Name, Number, Operator, Parameter, Part, Program, Term, Unit};
use crate::tokens::{Fault, Kind, Place, Sign, Token, Word, fault};

const MOST_LEVELS: u32 = 100;
const MOST_INPUTS: u32 = 1_024;

pub struct Parser<'t, 'a> {
    text: &'a [u8],
    rest: &'t [Token],
    pub has_loops: bool,
    level: u32,
}

/// The program of a text's tokens, of which the last is `End`.
pub fn parse<'a>(text: &'a [u8], tokens: &[Token]) -> Result<Program<'a>, Fault> {
    let mut parser = Parser {
        text,
        rest: tokens,
        has_loops: false,
        level: 1,
    };
    let program = parser.program()?;
    let mut inputs = 0;
    for parameter in &program.parameters {
        let width = parameter.width.unwrap_or(1);
        inputs += width;
        if width == 0 || inputs > MOST_INPUTS {
            return fault(parameter.name.at, "Inputs");
        }
    }
    Ok(program)
}

impl<'a> Parser<'_, 'a> {
    pub fn next(&self) -> Token {
        self.rest[0]
    }

    pub fn is_at(&self, kind: Kind) -> bool {
        self.rest[0].kind == kind
    }

    /// Takes the next token where it is this one.
    fn took(&mut self, kind: Kind) -> bool {
        let is_it = self.is_at(kind);
        if is_it {
            self.rest = &self.rest[1..];
        }
        is_it
    }

    pub fn took_sign(&mut self, sign: Sign) -> bool {
        self.took(Kind::Sign(sign))
    }

    pub fn took_word(&mut self, word: Word) -> bool {
        self.took(Kind::Word(word))
    }

    pub fn refuse<T>(&self) -> Result<T, Fault> {
        fault(self.next().at, "Syntax")
    }

    pub fn sign(&mut self, sign: Sign) -> Result<(), Fault> {
        if self.took_sign(sign) {
            Ok(())
        } else {
            self.refuse()
        }
    }

    pub fn word(&mut self, word: Word) -> Result<(), Fault> {
        if self.took_word(word) {
            Ok(())
        } else {
            self.refuse()
        }
    }

    /// Takes the next token, which is of this kind, and says its text.
    fn text_of(&mut self, kind: Kind) -> Result<&'a [u8], Fault> {
        let Token { start, length, .. } = self.next();
        if !self.took(kind) {
            return self.refuse();
        }
        Ok(&self.text[start as usize..][..length as usize])
    }

    pub fn name(&mut self) -> Result<Name<'a>, Fault> {
        let at = self.next().at;
        let text = self.text_of(Kind::Name)?;
        Ok(Name { text, at, back: 0 })
    }

    fn digits(&mut self) -> Result<u32, Fault> {
        let digits = self.text_of(Kind::Number)?;
        Ok(digits
            .iter()
            .fold(0, |value, digit| 10 * value + u32::from(digit - b'0')))
    }

    pub fn names(&mut self) -> Result<Vec<Name<'a>>, Fault> {
        let mut names = Vec::new();
        while self.is_at(Kind::Name) {
            names.push(self.name()?);
        }
        Ok(names)
    }

    /// Reads something at one level more, whose first token stands next.
    pub fn inside<T>(
        &mut self,
        read: impl FnOnce(&mut Self) -> Result<T, Fault>,
    ) -> Result<T, Fault> {
        if self.level == MOST_LEVELS {
            return fault(self.next().at, "Nesting");
        }
        self.rest = &self.rest[1..];
        self.level += 1;
        let value = read(self)?;
        self.level -= 1;
        Ok(value)
    }

    fn program(&mut self) -> Result<Program<'a>, Fault> {
        if self.took_word(Word::Revs) {
            self.has_loops = true;
            let at = self.next().at;
            if self.digits()? != 2 {
                return fault(at, "Syntax");
            }
        }
        self.word(Word::Main)?;
        let mut parameters = vec![self.parameter()?];
        while self.is_at(Kind::Sign(Sign::OpenRound)) {
            parameters.push(self.parameter()?);
        }
        self.sign(Sign::Equal)?;
        let body = self.expression()?;
        if !self.is_at(Kind::End) {
            return self.refuse();
        }
        Ok(Program { parameters, body })
    }

    fn parameter(&mut self) -> Result<Parameter<'a>, Fault> {
        self.sign(Sign::OpenRound)?;
        let name = self.name()?;
        self.sign(Sign::Colon)?;
        self.word(Word::Bool)?;
        let mut width = None;
        if self.took_sign(Sign::OpenSquare) {
            width = Some(self.digits()?);
            self.sign(Sign::CloseSquare)?;
        }
        self.sign(Sign::CloseRound)?;
        Ok(Parameter { name, width })
    }

    pub fn number(&mut self) -> Result<Number<'a>, Fault> {
        let first = self.unit()?;
        let mut more = Vec::new();
        while self.has_loops && matches!(self.next().kind, Kind::Sign(Sign::Plus | Sign::Minus)) {
            let is_minus = self.is_at(Kind::Sign(Sign::Minus));
            self.rest = &self.rest[1..];
            more.push((is_minus, self.unit()?));
        }
        Ok(Number { first, more })
    }

    fn unit(&mut self) -> Result<Unit<'a>, Fault> {
        if self.has_loops && self.is_at(Kind::Name) {
            return Ok(Unit::Name(self.name()?));
        }
        let at = self.next().at;
        Ok(Unit::Digits(self.digits()?, at))
    }

    pub fn expression(&mut self) -> Result<Term<'a>, Fault> {
        let at = self.next().at;
        if self.is_at(Kind::Word(Word::Fun)) {
            return self.inside(|parser| {
                let mut names = vec![parser.name()?];
                names.extend(parser.names()?);
                parser.sign(Sign::Arrow)?;
                let body = parser.expression()?;
                Ok(Term::Function(Box::new(Lambda { names, body }), at))
            });
        }
        let left = self.chain(Operator::Xor)?;
        if !self.took_sign(Sign::Assign) {
            return Ok(left);
        }
        let right = self.chain(Operator::Xor)?;
        Ok(Term::Assign(Box::new((left, right))))
    }

    fn chain(&mut self, operator: Operator) -> Result<Term<'a>, Fault> {
        let sign = if operator == Operator::Xor {
            Sign::Xor
        } else {
            Sign::And
        };
        let first = self.operand(operator)?;
        if !self.is_at(Kind::Sign(sign)) {
            return Ok(first);
        }
        let mut operands = vec![first];
        while self.took_sign(sign) {
            operands.push(self.operand(operator)?);
        }
        Ok(Term::Chain(operator, operands))
    }

    fn operand(&mut self, operator: Operator) -> Result<Term<'a>, Fault> {
        if operator == Operator::Xor {
            self.chain(Operator::And)
        } else {
            self.application()
        }
    }

    fn application(&mut self) -> Result<Term<'a>, Fault> {
        let at = self.next().at;
        for (word, bit) in [(Word::Clean, false), (Word::Assert, true)] {
            if self.took_word(word) {
                return Ok(Term::Claim(bit, Box::new(self.atom()?), at));
            }
        }
        if self.took_word(Word::Append) {
            return Ok(Term::Append(Box::new((self.atom()?, self.atom()?)), at));
        }
        if self.took_word(Word::Rotate) {
            return Ok(Term::Rotate(Box::new((self.number()?, self.atom()?)), at));
        }
        let function = self.atom()?;
        let mut arguments = Vec::new();
        while self.is_at_base() {
            arguments.push(self.atom()?);
        }
        Ok(if arguments.is_empty() {
            function
        } else {
            Term::Apply(Box::new(function), arguments)
        })
    }

    fn is_at_base(&self) -> bool {
        match self.next().kind {
            Kind::Name => true,
            Kind::Word(word) => matches!(word, Word::True | Word::False | Word::Reg),
            Kind::Sign(sign) => matches!(sign, Sign::OpenRound | Sign::OpenCurly),
            _ => false,
        }
    }

    fn atom(&mut self) -> Result<Term<'a>, Fault> {
        let base = self.base()?;
        let mut parts = Vec::new();
        while self.is_at(Kind::Sign(Sign::Dot)) {
            parts.push(self.part()?);
        }
        Ok(if parts.is_empty() {
            base
        } else {
            Term::Parts(Box::new(base), parts)
        })
    }

    fn part(&mut self) -> Result<Part<'a>, Fault> {
        let at = self.next().at;
        self.sign(Sign::Dot)?;
        self.sign(Sign::OpenSquare)?;
        let first = self.number()?;
        let last = if self.took_sign(Sign::DotDot) {
            Some(self.number()?)
        } else {
            None
        };
        self.sign(Sign::CloseSquare)?;
        Ok(Part { first, last, at })
    }

    fn base(&mut self) -> Result<Term<'a>, Fault> {
        let Token { kind, at, .. } = self.next();
        match kind {
            Kind::Name => Ok(Term::Name(self.name()?)),
            Kind::Word(word @ (Word::True | Word::False)) => {
                self.rest = &self.rest[1..];
                Ok(Term::Bool(word == Word::True, at))
            }
            Kind::Word(Word::Reg) => self.inside(|parser| parser.register(at)),
            Kind::Sign(Sign::OpenRound) => self.inside(|parser| {
                let term = parser.expression()?;
                parser.sign(Sign::CloseRound)?;
                Ok(term)
            }),
            Kind::Sign(Sign::OpenCurly) => self.inside(|parser| parser.block(at)),
            _ => self.refuse(),
        }
    }

    fn register(&mut self, at: Place) -> Result<Term<'a>, Fault> {
        self.sign(Sign::OpenSquare)?;
        let mut operands = vec![self.expression()?];
        while self.took_sign(Sign::Semi) {
            operands.push(self.expression()?);
        }
        self.sign(Sign::CloseSquare)?;
        Ok(Term::Register(operands, at))
    }
}
