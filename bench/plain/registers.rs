//! Registers, their parts, and numbers.
use crate::machine::{Machine, Value};
use crate::running::Frame;
use crate::terms::{Name, Number, Part, Term, Unit};
use crate::tokens::{Fault, Place, fault};
use std::rc::Rc;

const MOST_PLACES: usize = 4_096;
const MOST_NUMBER: i32 = 9_999;

impl<'t, 'a> Machine<'t, 'a> {
    pub fn register(&mut self, locations: Vec<u32>, at: Place) -> Result<Value<'t, 'a>, Fault> {
        if locations.len() > MOST_PLACES {
            return fault(at, "Length");
        }
        self.count(locations.len(), at)?;
        Ok(Value::Register(Rc::new(locations)))
    }

    fn locations(
        &mut self,
        frame: Frame,
        term: &'t Term<'a>,
    ) -> Result<Option<Rc<Vec<u32>>>, Fault> {
        Ok(if let Value::Register(locations) = self.run(frame, term)? {
            Some(locations)
        } else {
            None
        })
    }

    pub fn append(
        &mut self,
        frame: Frame,
        left: &'t Term<'a>,
        right: &'t Term<'a>,
        at: Place,
    ) -> Result<Value<'t, 'a>, Fault> {
        let (front, back) = (self.locations(frame, left)?, self.locations(frame, right)?);
        let Some(front) = front else {
            return fault(left.place(), "NotRegister");
        };
        let Some(back) = back else {
            return fault(right.place(), "NotRegister");
        };
        self.register([front.as_slice(), &back].concat(), at)
    }

    pub fn rotate(
        &mut self,
        frame: Frame,
        by: &Number,
        operand: &'t Term<'a>,
        at: Place,
    ) -> Result<Value<'t, 'a>, Fault> {
        let by = self.number(frame.env, by)?;
        let Some(places) = self.locations(frame, operand)? else {
            return fault(operand.place(), "NotRegister");
        };
        if by < 0 || by as usize >= places.len() {
            return fault(at, "Rotate");
        }
        let (front, back) = places.split_at(by as usize);
        self.register([back, front].concat(), at)
    }

    pub fn part(
        &mut self,
        env: u32,
        part: &Part,
        value: Value<'t, 'a>,
        at: Place,
    ) -> Result<Value<'t, 'a>, Fault> {
        let Value::Register(places) = value else {
            return fault(part.at, "NotRegister");
        };
        let first = self.number(env, &part.first)?;
        let Some(last) = &part.last else {
            let place = usize::try_from(first)
                .ok()
                .and_then(|first| places.get(first));
            return place.map_or(fault(part.at, "Index"), |&location| {
                Ok(Value::Bit(location))
            });
        };
        let last = self.number(env, last)?;
        if first < 0 || last < first || last as usize >= places.len() {
            return fault(part.at, "Slice");
        }
        self.register(places[first as usize..=last as usize].to_vec(), at)
    }

    pub fn number(&mut self, env: u32, number: &Number) -> Result<i32, Fault> {
        let mut sum = self.unit(env, &number.first)?;
        for (is_minus, unit) in &number.more {
            let (Unit::Digits(_, at) | Unit::Name(Name { at, .. })) = *unit;
            self.count(1, at)?;
            let value = self.unit(env, unit)?;
            sum += if *is_minus { -value } else { value };
            if sum.abs() > MOST_NUMBER {
                return fault(at, "Range");
            }
        }
        Ok(sum)
    }

    fn unit(&self, env: u32, unit: &Unit) -> Result<i32, Fault> {
        match unit {
            Unit::Digits(value, _) => Ok(*value as i32),
            Unit::Name(name) => match self.named(env, name.back) {
                Value::Number(number) => Ok(*number),
                _ => fault(name.at, "NotNumber"),
            },
        }
    }
}
