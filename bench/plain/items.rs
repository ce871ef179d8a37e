//! Blocks, and the items of blocks and of loops.
use crate::parsing::Parser;
use crate::terms::{Item, Lambda, Loop, Term};
use crate::tokens::{Fault, Kind, Place, Sign, Word};

impl<'a> Parser<'_, 'a> {
    pub fn block(&mut self, at: Place) -> Result<Term<'a>, Fault> {
        let mut items = Vec::new();
        loop {
            if let Some(item) = self.item()? {
                items.push(item);
                continue;
            }
            let term = self.expression()?;
            if !self.took_sign(Sign::Semi) {
                self.sign(Sign::CloseCurly)?;
                return Ok(Term::Block(items, Box::new(term), at));
            }
            items.push(Item::Do(term));
        }
    }

    /// The item that stands next, where it is no expression.
    fn item(&mut self) -> Result<Option<Item<'a>>, Fault> {
        if self.took_word(Word::Let) {
            return Ok(Some(self.binding()?));
        }
        if self.has_loops && self.is_at(Kind::Word(Word::For)) {
            return Ok(Some(self.repetition()?));
        }
        Ok(None)
    }

    fn binding(&mut self) -> Result<Item<'a>, Fault> {
        let name = self.name()?;
        let names = self.names()?;
        self.sign(Sign::Equal)?;
        let mut value = self.expression()?;
        self.sign(Sign::Semi)?;
        if let Some(first) = names.first() {
            let at = first.at;
            value = Term::Function(Box::new(Lambda { names, body: value }), at);
        }
        Ok(Item::Let(name, value))
    }

    fn repetition(&mut self) -> Result<Item<'a>, Fault> {
        let at = self.next().at;
        self.word(Word::For)?;
        let name = self.name()?;
        self.word(Word::In)?;
        let first = self.number()?;
        self.sign(Sign::DotDot)?;
        let last = self.number()?;
        self.word(Word::Do)?;
        if !self.is_at(Kind::Sign(Sign::OpenCurly)) {
            return self.refuse();
        }
        let items = self.inside(|parser| {
            let mut items = vec![parser.loop_item()?];
            while !parser.took_sign(Sign::CloseCurly) {
                items.push(parser.loop_item()?);
            }
            Ok(items)
        })?;
        self.sign(Sign::Semi)?;
        Ok(Item::For(Box::new(Loop {
            name,
            first,
            last,
            items,
            at,
        })))
    }

    fn loop_item(&mut self) -> Result<Item<'a>, Fault> {
        if let Some(item) = self.item()? {
            return Ok(item);
        }
        let term = self.expression()?;
        self.sign(Sign::Semi)?;
        Ok(Item::Do(term))
    }
}
