//! The written-out clauses as DIMACS text: printed as they are made, with no list
//! of numbers in between.

use reference::clauses::counts;
use reference::file::{Atom, Kind, PlanFile};

/// The text goes to the front of a vector that keeps its room.
pub fn print(plan: &PlanFile, text: &mut Vec<u8>) {
    let counts = counts(plan);
    text.clear();
    text.extend_from_slice(b"p cnf ");
    number(text, counts.variables);
    text.push(b' ');
    number(text, counts.clauses);
    text.push(b'\n');
    for literals in &plan.clauses {
        for &literal in literals {
            signed(text, literal < 0, literal.unsigned_abs().into());
        }
        end(text);
    }
    let mut blocks = Blocks {
        plan,
        into: edges_into(plan),
        last: plan.variables,
        text,
    };
    for (place, atom) in plan.atoms.iter().enumerate() {
        blocks.print(place + 1, atom);
    }
}

/// For each node, the edges that lead into it.
fn edges_into(plan: &PlanFile) -> Vec<Vec<usize>> {
    let mut into = vec![Vec::new(); plan.nodes];
    for (place, edge) in plan.edges.iter().enumerate() {
        into[edge.to].push(place);
    }
    into
}

fn number(text: &mut Vec<u8>, number: usize) {
    let mut digits = [0; 20];
    let mut first = digits.len();
    let mut rest = number;
    loop {
        first -= 1;
        digits[first] = b'0' + (rest % 10) as u8;
        rest /= 10;
        if rest == 0 {
            break;
        }
    }
    text.extend_from_slice(&digits[first..]);
}

fn signed(text: &mut Vec<u8>, negative: bool, variable: usize) {
    if negative {
        text.push(b'-');
    }
    on(text, variable);
}

fn on(text: &mut Vec<u8>, variable: usize) {
    number(text, variable);
    text.push(b' ');
}

fn off(text: &mut Vec<u8>, variable: usize) {
    text.push(b'-');
    on(text, variable);
}

fn end(text: &mut Vec<u8>) {
    text.extend_from_slice(b"0\n");
}

struct Blocks<'a> {
    plan: &'a PlanFile,
    into: Vec<Vec<usize>>,
    /// The last variable before the next block.
    last: usize,
    text: &'a mut Vec<u8>,
}

impl Blocks<'_> {
    fn print(&mut self, k: usize, atom: &Atom) {
        let longest = self.plan.nodes - 1;
        let levels = match atom.kind {
            Kind::Reaches => longest,
            Kind::Within(bound) => bound.min(longest),
            Kind::LengthAtMost(_) => unreachable!("a file about lengths has no text"),
        };
        self.text.extend_from_slice(b"c atom ");
        number(self.text, k);
        self.text.push(b'\n');
        let mut first = self.last + 1;
        for node in 0..self.plan.nodes {
            signed(self.text, node != atom.from, first + node);
            end(self.text);
        }
        for _ in 0..levels {
            self.steps(first);
            self.arrivals(first);
            first += self.level();
        }
        self.ends(atom.variable, first + atom.to);
        self.last = first + self.plan.nodes - 1;
    }

    /// The variables of a level: its nodes' and its edges'.
    fn level(&self) -> usize {
        self.plan.nodes + self.plan.edges.len()
    }

    fn steps(&mut self, first: usize) {
        let text = &mut *self.text;
        for (place, edge) in self.plan.edges.iter().enumerate() {
            let (step, from) = (first + self.plan.nodes + place, first + edge.from);
            off(text, step);
            on(text, edge.variable);
            end(text);
            off(text, step);
            on(text, from);
            end(text);
            off(text, edge.variable);
            off(text, from);
            on(text, step);
            end(text);
        }
    }

    fn arrivals(&mut self, first: usize) {
        let level = self.level();
        let text = &mut *self.text;
        for (node, edges) in self.into.iter().enumerate() {
            let (now, next) = (first + node, first + level + node);
            let steps = || edges.iter().map(|edge| first + self.plan.nodes + edge);
            off(text, next);
            on(text, now);
            for step in steps() {
                on(text, step);
            }
            end(text);
            for before in std::iter::once(now).chain(steps()) {
                off(text, before);
                on(text, next);
                end(text);
            }
        }
    }

    fn ends(&mut self, atom: usize, reached: usize) {
        off(self.text, atom);
        on(self.text, reached);
        end(self.text);
        on(self.text, atom);
        off(self.text, reached);
        end(self.text);
    }
}
