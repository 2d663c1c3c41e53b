//! Plans: what `map` and the walks are asked with, written as a record.

use crate::pool::ExpressionId;

/// A lookup: f and t, and the two expressions of its grand product.
#[derive(Clone, Copy, Debug, PartialEq, Eq, Hash)]
pub struct Lookup {
    /// The looked up.
    pub f: ExpressionId,
    /// The table.
    pub t: ExpressionId,
    /// Its grand product.
    pub product: Product,
}

/// The two expressions of a grand product.
#[derive(Clone, Copy, Debug, PartialEq, Eq, Hash)]
pub struct Product {
    /// The numerator.
    pub num: ExpressionId,
    /// The denominator.
    pub den: ExpressionId,
}

/// An expression that has a column of its own.
#[derive(Clone, Copy, Debug, PartialEq, Eq, Hash)]
pub struct Intermediate {
    /// The expression.
    pub expression: ExpressionId,
    /// Its cm number.
    pub cm: u16,
}

/// A plan. It checks nothing: what is not a plan is refused by the calls that read it.
#[derive(Clone, Debug, PartialEq, Eq)]
pub struct Plan {
    /// nBits: at most 24.
    pub n_bits: u8,
    /// nBitsExt: from nBits to nBits + 4.
    pub n_bits_ext: u8,
    /// n_cm1 to n_cm4.
    pub columns: [u16; 4],
    /// The quotient's degree.
    pub q_deg: u16,
    /// The constraint's expression.
    pub c_exp: ExpressionId,
    /// The lookups.
    pub pu: Vec<Lookup>,
    /// The permutations.
    pub pe: Vec<Product>,
    /// The connections.
    pub ci: Vec<Product>,
    /// The intermediates, by ascending expressions.
    pub intermediates: Vec<Intermediate>,
    /// The cm numbers that lists read q by.
    pub qs: Vec<u16>,
    /// The expressions that leaves read q by.
    pub q2exp: Vec<ExpressionId>,
}

fn count<T>(items: &[T]) -> u16 {
    u16::try_from(items.len()).expect("at most 65,535 of a part")
}

impl Plan {
    /// A plan with first columns and a constraint, and nothing else in it.
    pub fn new(n_bits: u8, n_bits_ext: u8, cm1: u16, c_exp: ExpressionId) -> Plan {
        Plan {
            n_bits,
            n_bits_ext,
            columns: [cm1, 0, 0, 0],
            q_deg: 0,
            c_exp,
            pu: Vec::new(),
            pe: Vec::new(),
            ci: Vec::new(),
            intermediates: Vec::new(),
            qs: Vec::new(),
            q2exp: Vec::new(),
        }
    }

    /// The same with n_cm2 to n_cm4 as the other parts need them.
    ///
    /// # Panics
    ///
    /// Where a count is past 65,535.
    #[must_use]
    pub fn with_columns_counted(mut self) -> Plan {
        let (pu, pe, ci) = (self.pu.len(), self.pe.len(), self.ci.len());
        let third = pu + pe + ci + self.intermediates.len();
        let number = |count: usize| u16::try_from(count).expect("a count of at most 65,535");
        self.columns = [self.columns[0], number(2 * pu), number(third), self.q_deg];
        self
    }

    /// Its record.
    ///
    /// # Panics
    ///
    /// Where one of its parts has more than 65,535 entries, which no record can say.
    pub fn record(&self) -> Vec<u8> {
        let mut numbers = vec![u16::from_be_bytes([self.n_bits, self.n_bits_ext])];
        numbers.extend(self.columns);
        numbers.extend([self.q_deg, self.c_exp.0]);
        numbers.extend([count(&self.pu), count(&self.pe), count(&self.ci)]);
        numbers.extend([count(&self.intermediates), count(&self.qs), count(&self.q2exp)]);
        for lookup in &self.pu {
            let Product { num, den } = lookup.product;
            numbers.extend([lookup.f.0, lookup.t.0, num.0, den.0]);
        }
        for product in self.pe.iter().chain(&self.ci) {
            numbers.extend([product.num.0, product.den.0]);
        }
        for intermediate in &self.intermediates {
            numbers.extend([intermediate.expression.0, intermediate.cm]);
        }
        numbers.extend(&self.qs);
        numbers.extend(self.q2exp.iter().map(|expression| expression.0));
        numbers.into_iter().flat_map(u16::to_be_bytes).collect()
    }
}
