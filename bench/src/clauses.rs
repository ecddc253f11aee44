//! The clause rule by occurrence lists. Clauses of two and three literals stand
//! in the lists themselves; longer ones watch two of their literals, and nothing
//! has to be taken back when the trail is.

use crate::literals::{lit, Clash, Lit, Trail, Value};

#[derive(Default, Clone)]
struct Lists {
    /// The other literal of each clause of two.
    twos: Vec<Lit>,
    /// The other two literals of each clause of three.
    threes: Vec<[Lit; 2]>,
    /// The longer clauses that watch this literal.
    watching: Vec<u32>,
}

pub struct Clauses {
    /// For each literal, where it occurs.
    lists: Vec<Lists>,
    /// Longer clauses; the two watched literals stand first.
    long: Vec<Vec<Lit>>,
    pub units: Vec<Lit>,
    /// Whether there is an empty clause, which clashes whatever is set.
    pub has_empty: bool,
}

impl Clauses {
    pub fn of(variables: usize, clauses: &[Vec<i16>]) -> Clauses {
        let lists = vec![Lists::default(); 2 * variables];
        let mut table = Clauses {
            lists,
            long: Vec::new(),
            units: Vec::new(),
            has_empty: false,
        };
        for clause in clauses {
            let mut lits: Vec<Lit> = clause.iter().map(|&literal| lit(literal)).collect();
            lits.sort();
            lits.dedup();
            // A clause with both signs never gives anything.
            if !lits.windows(2).any(|two| two[0] ^ 1 == two[1]) {
                table.add(lits);
            }
        }
        table
    }

    fn add(&mut self, lits: Vec<Lit>) {
        match *lits.as_slice() {
            [] => self.has_empty = true,
            [a] => self.units.push(a),
            [a, b] => {
                self.lists[usize::from(a)].twos.push(b);
                self.lists[usize::from(b)].twos.push(a);
            }
            [a, b, c] => {
                self.lists[usize::from(a)].threes.push([b, c]);
                self.lists[usize::from(b)].threes.push([a, c]);
                self.lists[usize::from(c)].threes.push([a, b]);
            }
            _ => {
                let number = self.long.len() as u32;
                self.lists[usize::from(lits[0])].watching.push(number);
                self.lists[usize::from(lits[1])].watching.push(number);
                self.long.push(lits);
            }
        }
    }

    /// What follows from a literal that has just become true.
    #[inline(always)]
    pub fn follow(&mut self, set: Lit, trail: &mut Trail) -> Result<(), Clash> {
        let falsified = usize::from(set ^ 1);
        for &other in &self.lists[falsified].twos {
            trail.add(other)?;
        }
        for &[a, b] in &self.lists[falsified].threes {
            match (trail.value(a), trail.value(b)) {
                (Value::True, _) | (_, Value::True) | (Value::Open, Value::Open) => (),
                (Value::False, _) => trail.add(b)?,
                (_, Value::False) => trail.add(a)?,
            }
        }
        if self.lists[falsified].watching.is_empty() {
            return Ok(());
        }
        self.follow_long(falsified, trail)
    }

    fn follow_long(&mut self, falsified: usize, trail: &mut Trail) -> Result<(), Clash> {
        let mut watching = std::mem::take(&mut self.lists[falsified].watching);
        let mut result = Ok(());
        let mut at = 0;
        while at < watching.len() && result.is_ok() {
            let number = watching[at];
            match self.other_watch(number, falsified as Lit, trail) {
                Watch::Moved => {
                    watching.swap_remove(at);
                }
                Watch::Left(one) => {
                    result = trail.add(one);
                    at += 1;
                }
            }
        }
        self.lists[falsified].watching = watching;
        result
    }

    fn other_watch(&mut self, number: u32, falsified: Lit, trail: &Trail) -> Watch {
        let clause = &mut self.long[number as usize];
        if clause[0] == falsified {
            clause.swap(0, 1);
        }
        if trail.value(clause[0]) == Value::True {
            return Watch::Left(clause[0]);
        }
        let open = (2..clause.len()).find(|&k| trail.value(clause[k]) != Value::False);
        let Some(k) = open else {
            return Watch::Left(clause[0]);
        };
        clause.swap(1, k);
        let watched = usize::from(clause[1]);
        self.lists[watched].watching.push(number);
        Watch::Moved
    }
}

enum Watch {
    /// Another literal is watched now.
    Moved,
    /// This literal is true, or all that is left.
    Left(Lit),
}
