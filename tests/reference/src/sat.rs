//! A small complete SAT solver: watched literals, learning from the first
//! unique implication point, activities, restarts. It forgets nothing it
//! learned, which does for the clause lists of small and medium files.

/// A literal inside the solver: 2(v - 1) for v, one more for its opposite.
type Lit = usize;

fn lit(literal: i32) -> Lit {
    2 * (literal.unsigned_abs() as usize - 1) + usize::from(literal < 0)
}

fn var(l: Lit) -> usize {
    l / 2
}

#[derive(Clone, Copy, PartialEq, Eq)]
enum Value {
    True,
    False,
    Open,
}

struct Solver {
    clauses: Vec<Vec<Lit>>,
    /// For each literal, the clauses that watch it; the two watched literals stand first.
    watches: Vec<Vec<usize>>,
    values: Vec<Value>,
    phases: Vec<bool>,
    activities: Vec<f64>,
    bump: f64,
    levels: Vec<usize>,
    causes: Vec<Option<usize>>,
    trail: Vec<Lit>,
    /// The trail's length at each decision.
    decisions: Vec<usize>,
    head: usize,
}

/// A model as one bool for each variable, or `None` if there is none.
pub fn solve(variables: usize, clauses: &[Vec<i32>]) -> Option<Vec<bool>> {
    let mut solver = Solver::new(variables);
    for clause in clauses {
        if !solver.add(clause) {
            return None;
        }
    }
    solver.run()
}

/// The clauses of a list whose clauses each end in 0.
pub fn clauses_of(numbers: &[i32]) -> Vec<Vec<i32>> {
    let mut clauses: Vec<Vec<i32>> = numbers
        .split(|&number| number == 0)
        .map(Vec::from)
        .collect();
    let behind_the_last = clauses.pop();
    assert_eq!(
        behind_the_last,
        Some(Vec::new()),
        "the last clause has no 0"
    );
    clauses
}

impl Solver {
    fn new(variables: usize) -> Solver {
        Solver {
            clauses: Vec::new(),
            watches: vec![Vec::new(); 2 * variables],
            values: vec![Value::Open; 2 * variables],
            phases: vec![false; variables],
            activities: vec![0.0; variables],
            bump: 1.0,
            levels: vec![0; variables],
            causes: vec![None; variables],
            trail: Vec::new(),
            decisions: Vec::new(),
            head: 0,
        }
    }

    /// Adds a clause before the search begins; false if no model is left.
    fn add(&mut self, clause: &[i32]) -> bool {
        let mut lits: Vec<Lit> = clause.iter().map(|&literal| lit(literal)).collect();
        lits.sort();
        lits.dedup();
        let both_signs = lits.windows(2).any(|two| two[0] ^ 1 == two[1]);
        if both_signs || lits.iter().any(|&l| self.values[l] == Value::True) {
            return true;
        }
        lits.retain(|&l| self.values[l] != Value::False);
        match lits.len() {
            0 => false,
            1 => {
                self.set(lits[0], None);
                self.propagate().is_none()
            }
            _ => {
                self.watch(lits);
                true
            }
        }
    }

    fn watch(&mut self, lits: Vec<Lit>) -> usize {
        let number = self.clauses.len();
        self.watches[lits[0]].push(number);
        self.watches[lits[1]].push(number);
        self.clauses.push(lits);
        number
    }

    fn set(&mut self, l: Lit, cause: Option<usize>) {
        self.values[l] = Value::True;
        self.values[l ^ 1] = Value::False;
        self.levels[var(l)] = self.decisions.len();
        self.causes[var(l)] = cause;
        self.trail.push(l);
    }

    /// Follows the trail; the number of a clause with all false, if one is met.
    fn propagate(&mut self) -> Option<usize> {
        while self.head < self.trail.len() {
            let falsified = self.trail[self.head] ^ 1;
            self.head += 1;
            let mut watching = std::mem::take(&mut self.watches[falsified]);
            let mut kept = 0;
            let mut conflict = None;
            for at in 0..watching.len() {
                let number = watching[at];
                if conflict.is_none() && self.move_watch(number, falsified) {
                    continue;
                }
                watching[kept] = number;
                kept += 1;
                let first = self.clauses[number][0];
                match self.values[first] {
                    Value::False if conflict.is_none() => conflict = Some(number),
                    Value::Open if conflict.is_none() => self.set(first, Some(number)),
                    _ => (),
                }
            }
            watching.truncate(kept);
            self.watches[falsified] = watching;
            if conflict.is_some() {
                return conflict;
            }
        }
        None
    }

    /// Whether the clause found another literal to watch; else its other watched
    /// literal is now first, and is all that is left.
    fn move_watch(&mut self, number: usize, falsified: Lit) -> bool {
        let clause = &mut self.clauses[number];
        if clause[0] == falsified {
            clause.swap(0, 1);
        }
        if self.values[clause[0]] == Value::True {
            return false;
        }
        for k in 2..clause.len() {
            if self.values[clause[k]] != Value::False {
                clause.swap(1, k);
                self.watches[clause[1]].push(number);
                return true;
            }
        }
        false
    }

    /// The clause learned from a conflict, its asserting literal first, and the
    /// level to go back to.
    fn learn(&mut self, conflict: usize) -> (Vec<Lit>, usize) {
        let level = self.decisions.len();
        let mut seen = vec![false; self.levels.len()];
        let mut learned = vec![0];
        let mut pending = 0;
        let mut at = self.trail.len();
        let mut cause = conflict;
        let mut resolved: Option<Lit> = None;
        loop {
            for k in 0..self.clauses[cause].len() {
                let l = self.clauses[cause][k];
                if Some(l) == resolved || seen[var(l)] || self.levels[var(l)] == 0 {
                    continue;
                }
                seen[var(l)] = true;
                self.activities[var(l)] += self.bump;
                if self.levels[var(l)] == level {
                    pending += 1;
                } else {
                    learned.push(l);
                }
            }
            loop {
                at -= 1;
                if seen[var(self.trail[at])] {
                    break;
                }
            }
            pending -= 1;
            if pending == 0 {
                learned[0] = self.trail[at] ^ 1;
                return self.with_level(learned);
            }
            resolved = Some(self.trail[at]);
            cause = self.causes[var(self.trail[at])].expect("only a decision has no cause");
        }
    }

    /// Puts a literal of the second highest level second, where it is watched.
    fn with_level(&self, mut learned: Vec<Lit>) -> (Vec<Lit>, usize) {
        if learned.len() == 1 {
            return (learned, 0);
        }
        let level = |k: &usize| self.levels[var(learned[*k])];
        let second = (1..learned.len())
            .max_by_key(level)
            .expect("there is a second");
        learned.swap(1, second);
        let back = self.levels[var(learned[1])];
        (learned, back)
    }

    fn back_to(&mut self, level: usize) {
        if level >= self.decisions.len() {
            return;
        }
        let length = self.decisions[level];
        for l in self.trail.drain(length..) {
            self.values[l] = Value::Open;
            self.values[l ^ 1] = Value::Open;
            self.phases[var(l)] = l & 1 == 0;
        }
        self.decisions.truncate(level);
        self.head = length;
    }

    fn decide(&mut self) -> bool {
        let open = (0..self.levels.len()).filter(|&v| self.values[2 * v] == Value::Open);
        let best = open.max_by(|&a, &b| self.activities[a].total_cmp(&self.activities[b]));
        let Some(v) = best else {
            return false;
        };
        self.decisions.push(self.trail.len());
        self.set(2 * v + usize::from(!self.phases[v]), None);
        true
    }

    fn decay(&mut self) {
        self.bump *= 1.05;
        if self.bump > 1e100 {
            self.activities
                .iter_mut()
                .for_each(|activity| *activity *= 1e-100);
            self.bump *= 1e-100;
        }
    }

    fn run(mut self) -> Option<Vec<bool>> {
        let (mut conflicts, mut restart) = (0, 100);
        loop {
            match self.propagate() {
                Some(_) if self.decisions.is_empty() => return None,
                Some(conflict) => {
                    conflicts += 1;
                    let (learned, back) = self.learn(conflict);
                    self.back_to(back);
                    self.assert_learned(learned);
                    self.decay();
                }
                None if conflicts >= restart => {
                    restart += restart / 2;
                    conflicts = 0;
                    self.back_to(0);
                }
                None if self.decide() => (),
                None => return Some(self.model()),
            }
        }
    }

    fn assert_learned(&mut self, learned: Vec<Lit>) {
        let first = learned[0];
        let cause = (learned.len() > 1).then(|| self.watch(learned));
        self.set(first, cause);
    }

    fn model(&self) -> Vec<bool> {
        (0..self.levels.len())
            .map(|v| self.values[2 * v] == Value::True)
            .collect()
    }
}
