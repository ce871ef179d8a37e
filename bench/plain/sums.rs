//! Exclusive sums of bits and of products.
use std::cmp::Ordering;
use std::collections::BTreeSet;

pub const MOST_SHORT: usize = 4;
const MOST_JOINED: usize = 64;

/// A set of bits, which rise.
type Bits = Vec<u32>;

/// Two sums of bits, neither a part of the other; the first is the lesser one.
#[derive(Clone, PartialEq, Eq, PartialOrd, Ord, Hash)]
pub struct Product {
    pub first: Bits,
    pub second: Bits,
}

/// The exclusive sum of a constant, of bits and of products.
#[derive(Clone, Default, PartialEq, Eq, Hash)]
pub struct Sum {
    pub bits: Bits,
    pub products: BTreeSet<Product>,
    pub one: bool,
}

/// What a product comes to: bits, and a product that is left.
type Times = (Bits, Option<Product>);

/// The bits of one set and not of the other.
pub fn apart(left: &[u32], right: &[u32]) -> Bits {
    let mut bits = Vec::with_capacity(left.len() + right.len());
    let (mut i, mut j) = (0, 0);
    while i < left.len() && j < right.len() {
        let order = left[i].cmp(&right[j]);
        match order {
            Ordering::Less => bits.push(left[i]),
            Ordering::Greater => bits.push(right[j]),
            Ordering::Equal => {}
        }
        i += usize::from(order.is_le());
        j += usize::from(order.is_ge());
    }
    bits.extend_from_slice(&left[i..]);
    bits.extend_from_slice(&right[j..]);
    bits
}

impl Product {
    fn new(one: Bits, other: Bits) -> Product {
        if other < one {
            Product {
                first: other,
                second: one,
            }
        } else {
            Product {
                first: one,
                second: other,
            }
        }
    }

    fn turns(&self) -> [(&Bits, &Bits); 2] {
        [(&self.first, &self.second), (&self.second, &self.first)]
    }

    /// One product in place of this and another, and bits.
    fn joined(&self, other: &Product) -> Option<Times> {
        for (a, c) in self.turns() {
            for (b, same) in other.turns() {
                if c == same {
                    let sum = apart(a, b);
                    if sum.len() <= MOST_SHORT && c.len() <= MOST_SHORT {
                        return Some(times(sum, c.clone()));
                    }
                }
            }
        }
        self.with_sum(other).or_else(|| other.with_sum(self))
    }

    /// The same for a b and c (a + b), which are (a + c)(b + c) + c.
    fn with_sum(&self, other: &Product) -> Option<Times> {
        let both = apart(&self.first, &self.second);
        let (c, _) = other.turns().into_iter().find(|(c, sum)| {
            **sum == both
                && [&self.first, &self.second]
                    .iter()
                    .all(|factor| apart(factor, c).len() <= MOST_SHORT)
        })?;
        let (bits, product) = times(apart(&self.first, c), apart(&self.second, c));
        Some((apart(&bits, c), product))
    }
}

/// The product of two sums of bits.
fn times(one: Bits, other: Bits) -> Times {
    if one.is_empty() || other.is_empty() {
        return (Bits::new(), None);
    }
    let rest = apart(&one, &other);
    let (least, greatest) = if other.len() < one.len() {
        (other, one)
    } else {
        (one, other)
    };
    if rest.len() + least.len() != greatest.len() {
        return (Bits::new(), Some(Product::new(least, greatest)));
    }
    let product = (!rest.is_empty()).then(|| Product::new(least.clone(), rest));
    (least, product)
}

impl Sum {
    pub fn bit(base: u32, one: bool) -> Sum {
        Sum {
            bits: vec![base],
            products: BTreeSet::new(),
            one,
        }
    }

    pub fn operands(&self) -> impl Iterator<Item = u32> {
        let of_products = self
            .products
            .iter()
            .flat_map(|product| product.first.iter().chain(&product.second));
        self.bits.iter().chain(of_products).copied()
    }

    pub fn negated(mut self) -> Sum {
        self.one = !self.one;
        self
    }

    /// The product of two sums that have no products.
    pub fn times(&self, other: &Sum) -> Sum {
        let (mut bits, product) = times(self.bits.clone(), other.bits.clone());
        if other.one {
            bits = apart(&bits, &self.bits);
        }
        if self.one {
            bits = apart(&bits, &other.bits);
        }
        Sum {
            bits,
            products: product.into_iter().collect(),
            one: self.one && other.one,
        }
    }

    /// The products of the one that has fewer go into the other.
    pub fn plus(self, other: Sum) -> Sum {
        let (few, mut many) = if self.products.len() < other.products.len() {
            (self, other)
        } else {
            (other, self)
        };
        many.bits = apart(&many.bits, &few.bits);
        many.one ^= few.one;
        for product in few.products {
            many.put(product);
        }
        many
    }

    fn put(&mut self, product: Product) {
        let mut waiting = Some(product);
        while let Some(product) = waiting {
            if self.products.remove(&product) {
                return;
            }
            let Some((other, (bits, left))) = self.first_joined(&product) else {
                self.products.insert(product);
                return;
            };
            self.products.remove(&other);
            self.bits = apart(&self.bits, &bits);
            waiting = left;
        }
    }

    fn first_joined(&self, product: &Product) -> Option<(Product, Times)> {
        if self.products.len() > MOST_JOINED {
            return None;
        }
        self.products
            .iter()
            .find_map(|other| Some((other.clone(), product.joined(other)?)))
    }
}
