//! Requests about drawn files: all eight calls, with good and bad assignments,
//! atoms, budgets, texts and rooms.

use super::{draw, texts, Draw, Sort};
use crate::clauses;
use crate::dimacs;
use crate::file::{read, PlanFile};
use crate::meaning::{OFF, ON, OPEN};
use crate::protocol::{
    Request, CLOSE, JUDGE, MOST_ROOM, READ, READ_DIMACS, REASON, SEARCH, WRITE_CLAUSES,
    WRITE_DIMACS,
};
use crate::random::Random;
use crate::reason::{reason, Reason};
use crate::search::{search, Outcome, Searched};

/// A drawn file with what is needed to ask about it.
pub struct Subject {
    pub sort: Sort,
    pub file: Vec<u8>,
    /// `None` if the file is refused.
    plan: Option<Known>,
}

struct Known {
    plan: PlanFile,
    /// The search with a budget that the reference can afford.
    searched: Searched,
    /// What that search finds, or would find but for empty clauses.
    found: Option<Vec<i8>>,
}

impl Known {
    fn of(plan: PlanFile) -> Known {
        let searched = search(&plan, affordable(&plan));
        let outcome = match plan.has_empty_clause() {
            true => search(&without_empty_clauses(&plan), affordable(&plan)).outcome,
            false => searched.outcome.clone(),
        };
        let found = match outcome {
            Outcome::Plan(values) => Some(values),
            _ => None,
        };
        Known {
            plan,
            searched,
            found,
        }
    }
}

/// What is left to be written out where atoms of kind 3 are in the way.
fn without_lengths(plan: &PlanFile) -> PlanFile {
    let mut plan = plan.clone();
    plan.atoms.retain(|atom| !atom.kind.is_about_lengths());
    plan
}

fn without_empty_clauses(plan: &PlanFile) -> PlanFile {
    let mut plan = plan.clone();
    plan.clauses.retain(|clause| !clause.is_empty());
    plan
}

/// Branchings the reference can afford on a file: a closing costs a walk for each
/// source and a look at each literal.
pub fn affordable(plan: &PlanFile) -> u32 {
    let walks = plan.atoms.len() * (plan.nodes + plan.edges.len()) / 4;
    let about_lengths = plan
        .atoms
        .iter()
        .filter(|atom| atom.kind.is_about_lengths());
    let cost = 20 + plan.literals() + walks + about_lengths.count() * plan.edges.len();
    (200_000 / cost).clamp(20, 3_000) as u32
}

impl Subject {
    pub fn draw(random: &mut Random) -> Subject {
        let (sort, file) = draw(random);
        Subject::of(sort, file)
    }

    pub fn of(sort: Sort, file: Vec<u8>) -> Subject {
        let plan = read(&file).ok().map(Known::of);
        Subject { sort, file, plan }
    }

    /// The plan file and its search, where it was accepted and decided.
    pub fn decided(&self) -> Option<(&PlanFile, &Searched)> {
        let known = self.plan.as_ref()?;
        let undecided = known.searched.outcome == Outcome::Undecided;
        (!undecided).then_some((&known.plan, &known.searched))
    }

    pub fn is_refused(&self) -> bool {
        self.plan.is_none()
    }

    pub fn has_empty_clause(&self) -> bool {
        self.plan
            .as_ref()
            .is_some_and(|known| known.plan.has_empty_clause())
    }

    pub fn has_long_edge(&self) -> bool {
        self.plan
            .as_ref()
            .is_some_and(|known| known.plan.has_long_edge())
    }

    /// The number of the first atom of kind 3.
    pub fn first_about_lengths(&self) -> Option<usize> {
        self.plan.as_ref()?.plan.first_about_lengths()
    }

    pub fn requests(&self, count: usize, random: &mut Random) -> Vec<Request> {
        (0..count).map(|_| self.request(random)).collect()
    }

    /// A file without atoms is seldom asked for a reason, one with kind 3 more often.
    fn call(&self, random: &mut Random) -> u8 {
        let has_atoms = self
            .plan
            .as_ref()
            .is_some_and(|known| !known.plan.atoms.is_empty());
        match random.below(20) {
            0 => READ,
            1 | 2 => JUDGE,
            3..=5 => CLOSE,
            6..=8 if has_atoms || random.chance(10) => REASON,
            9 if self.first_about_lengths().is_some() => REASON,
            12 | 13 => WRITE_CLAUSES,
            14 | 15 => WRITE_DIMACS,
            16.. => READ_DIMACS,
            _ => SEARCH,
        }
    }

    fn request(&self, random: &mut Random) -> Request {
        let mut request = junk(random);
        request.file = self.file.clone();
        request.call = self.call(random);
        if let Some(known) = &self.plan {
            match request.call {
                JUDGE => known.ask_judge(&mut request, random),
                CLOSE => known.ask_close(&mut request, random),
                REASON => known.ask_reason(&mut request, random),
                SEARCH => known.ask_search(&mut request, random),
                WRITE_CLAUSES => known.ask_write_clauses(&mut request, random),
                WRITE_DIMACS => known.ask_write_dimacs(&mut request, random),
                READ_DIMACS => known.ask_read_dimacs(&mut request, random),
                _ => (),
            }
        }
        request
    }
}

/// Fields that a call does not look at may hold anything.
fn junk(random: &mut Random) -> Request {
    let length = random.pick(&[0, 0, 1, 5, 9]);
    Request {
        call: READ,
        file: Vec::new(),
        assignment: (0..length).map(|_| random.number() as i8).collect(),
        atom: random.pick(&[0, 1, 2, 64, 65, 65_535]),
        budget: random.pick(&[0, 1, 1_000_000, u32::MAX]),
        room: random.pick(&[0, 1, 5, 12]),
    }
}

impl Known {
    fn ask_judge(&self, request: &mut Request, random: &mut Random) {
        request.assignment = self.full(random);
        spoil(&mut request.assignment, &[OPEN, 2, -2, 127, -128], random);
    }

    fn ask_close(&self, request: &mut Request, random: &mut Random) {
        request.assignment = self.partial(random);
        spoil(&mut request.assignment, &[2, -2, 3, 127, -128], random);
        request.room = self.result_room(random);
    }

    fn ask_reason(&self, request: &mut Request, random: &mut Random) {
        let count = self.plan.atoms.len() as u16;
        let known = random.chance(92) && count > 0;
        request.atom = match known {
            true => 1 + random.below(count.into()) as u16,
            false => random.pick(&[0, count + 1, 255, 256, 65_535]),
        };
        let values = self.partial(random);
        let needed = match known {
            true => reason_length(&self.plan, &values, request.atom),
            false => 0,
        };
        request.room = room(needed, random);
        request.assignment = values;
        spoil(&mut request.assignment, &[2, -2, 3, 127, -128], random);
    }

    fn ask_search(&self, request: &mut Request, random: &mut Random) {
        request.room = self.result_room(random);
        request.budget = self.budget(random);
    }

    fn ask_write_clauses(&self, request: &mut Request, random: &mut Random) {
        let plan = without_lengths(&self.plan);
        request.room = long_room(clauses::counts(&plan).numbers, random);
    }

    fn ask_write_dimacs(&self, request: &mut Request, random: &mut Random) {
        let plan = without_lengths(&self.plan);
        let numbers = clauses::counts(&plan).numbers;
        // A list too long for any room has a longer text.
        let needed = match numbers <= MOST_ROOM {
            true => dimacs::print(&plan).len(),
            false => numbers,
        };
        request.room = long_room(needed, random);
    }

    fn ask_read_dimacs(&self, request: &mut Request, random: &mut Random) {
        let text = texts::text(&self.plan, random);
        request.room = match dimacs::read(&self.plan, &text) {
            Ok(clauses) => room(dimacs::records(&clauses).len(), random),
            Err(_) => random.below(12) as u16,
        };
        request.set_text(&text);
    }

    /// Around B where B is known, else what the reference can afford.
    fn budget(&self, random: &mut Random) -> u32 {
        if random.chance(20) {
            return random.below(9) as u32;
        }
        let count = self.searched.branchings;
        if self.searched.outcome == Outcome::Undecided {
            return random.pick(&[count, count - 1, count / 2]);
        }
        let above = [count.saturating_add(1), 1_000_000, u32::MAX];
        match random.below(10) {
            0..=2 => count,
            3..=5 => count.saturating_sub(1),
            _ => random.pick(&above).max(count),
        }
    }

    fn result_room(&self, random: &mut Random) -> u16 {
        let count = self.plan.variables as u16;
        match random.below(40) {
            0 => count - 1,
            1 => count + 1,
            2 => random.pick(&[0, 512, 513]),
            _ => count,
        }
    }

    /// A full assignment: what was found, one close to it, or any.
    fn full(&self, random: &mut Random) -> Vec<i8> {
        let any = (0..self.plan.variables)
            .map(|_| random.pick(&[ON, OFF]))
            .collect();
        let Some(found) = &self.found else {
            return any;
        };
        let mut near = found.clone();
        match random.below(5) {
            0 | 1 => near,
            2 | 3 => {
                let place = random.below(near.len());
                near[place] = -near[place];
                near
            }
            _ => any,
        }
    }

    /// A full assignment with some of it taken back.
    fn partial(&self, random: &mut Random) -> Vec<i8> {
        let open = random.pick(&[0, 20, 50, 80, 95, 100]);
        let mut values = self.full(random);
        for value in &mut values {
            if random.chance(open) {
                *value = OPEN;
            }
        }
        values
    }
}

fn reason_length(plan: &PlanFile, values: &[i8], atom: u16) -> usize {
    match reason(plan, values, &plan.atoms[usize::from(atom) - 1]) {
        Reason::Holds(clause) | Reason::Fails(clause) => clause.len(),
        Reason::Open => 0,
    }
}

/// A long answer is written now and then; mostly it is refused.
fn long_room(needed: usize, random: &mut Random) -> u16 {
    if needed <= 3_000 || needed <= MOST_ROOM && random.chance(10) {
        room(needed, random)
    } else {
        random.below(200) as u16
    }
}

/// Mostly enough room, often exactly enough, at times one too few.
fn room(needed: usize, random: &mut Random) -> u16 {
    let room = match random.below(10) {
        0..=3 => needed,
        4 | 5 => needed.saturating_sub(1),
        6..=8 => needed + random.between(1, 6),
        _ => random.below(needed + 1),
    };
    room.min(MOST_ROOM) as u16
}

/// Now and then a value that is not allowed, or a length that is not the count.
fn spoil(values: &mut Vec<i8>, bad: &[i8], random: &mut Random) {
    let place = random.below(values.len());
    match random.below(50) {
        0 | 1 => values[place] = random.pick(bad),
        2 => {
            values[place] = random.pick(bad);
            let other = random.below(values.len());
            values[other] = random.pick(bad);
        }
        3 => values.push(OPEN),
        4 => {
            values.pop();
        }
        5 => values.truncate(random.below(2)),
        6 => values.resize(random.pick(&[512, 513, 600]), ON),
        _ => (),
    }
}

/// A stream's worth of requests about drawn files of at most `largest` bytes.
pub fn requests(draw: Draw, seed: u64, count: usize, largest: usize) -> Vec<Request> {
    let mut requests = Vec::new();
    let mut part = 0;
    while requests.len() < count {
        let mut random = Random::part(seed, part);
        part += 1;
        let (sort, file) = draw(&mut random);
        if file.len() <= largest {
            let some = random.between(1, 4).min(count - requests.len());
            requests.extend(Subject::of(sort, file).requests(some, &mut random));
        }
    }
    requests
}
