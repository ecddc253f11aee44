//! Literals as places of tables, and the assignment as a trail.

/// 2(v - 1) for a variable that is on, one more for off.
pub type Lit = u16;

pub fn lit(literal: i16) -> Lit {
    2 * (literal.unsigned_abs() - 1) + Lit::from(literal < 0)
}

pub fn on(variable: usize) -> Lit {
    2 * (variable as Lit - 1)
}

pub fn off(variable: usize) -> Lit {
    on(variable) + 1
}

pub const VARIABLES: usize = 512;

#[derive(Clone, Copy, PartialEq, Eq)]
pub enum Value {
    Open,
    True,
    False,
}

/// A clash: the part of the tree below has no plan.
pub struct Clash;

/// The values, the order in which they were set, and the open variables as bits,
/// so that the lowest is found by a few instructions.
pub struct Trail {
    values: [Value; 2 * VARIABLES],
    set: Vec<Lit>,
    open: [u64; VARIABLES / 64],
}

impl Trail {
    pub fn all_open(variables: usize) -> Trail {
        let mut open = [0; VARIABLES / 64];
        (0..variables).for_each(|v| open[v / 64] |= 1 << (v % 64));
        Trail {
            values: [Value::Open; 2 * VARIABLES],
            set: Vec::with_capacity(VARIABLES),
            open,
        }
    }

    #[inline(always)]
    pub fn value(&self, l: Lit) -> Value {
        self.values[usize::from(l) % (2 * VARIABLES)]
    }

    pub fn len(&self) -> usize {
        self.set.len()
    }

    #[inline(always)]
    pub fn at(&self, place: usize) -> Lit {
        self.set[place]
    }

    /// Makes a literal true unless it is; a false one is a clash.
    #[inline(always)]
    pub fn add(&mut self, l: Lit) -> Result<(), Clash> {
        match self.value(l) {
            Value::True => Ok(()),
            Value::False => Err(Clash),
            Value::Open => {
                self.push(l);
                Ok(())
            }
        }
    }

    #[inline(always)]
    pub fn push(&mut self, l: Lit) {
        let place = usize::from(l) % (2 * VARIABLES);
        self.values[place] = Value::True;
        self.values[place ^ 1] = Value::False;
        self.open[place / 128] &= !(1 << (place / 2 % 64));
        self.set.push(l);
    }

    pub fn pop(&mut self) -> Option<Lit> {
        let l = self.set.pop()?;
        let place = usize::from(l) % (2 * VARIABLES);
        self.values[place] = Value::Open;
        self.values[place ^ 1] = Value::Open;
        self.open[place / 128] |= 1 << (place / 2 % 64);
        Some(l)
    }

    /// The lowest open variable, from 1.
    pub fn lowest_open(&self) -> Option<usize> {
        let word = self.open.iter().position(|&word| word != 0)?;
        Some(64 * word + self.open[word].trailing_zeros() as usize + 1)
    }

    pub fn values(&self, variables: usize) -> Vec<i8> {
        let value = |v: usize| match self.value(on(v)) {
            Value::Open => 0,
            Value::True => 1,
            Value::False => -1,
        };
        (1..=variables).map(value).collect()
    }
}
