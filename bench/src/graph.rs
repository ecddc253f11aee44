//! The under and over graphs as 64-bit neighbour sets, and for each source the
//! hops in both, kept up to date edge by edge.
//!
//! Along one branch edges only come into the under graph and only leave the over
//! graph. A new edge lowers hops from its end onwards; a lost edge matters only
//! if no other edge supports its end. Every changed hop is logged, and taken
//! back with the trail. Sums of lengths stand beside them, where an atom asks for one.

use crate::lengths::{Lengths, Shortest, Span};
use reference::file::{Kind, PlanFile, NODES};

/// Larger than any hop count there is, and compared as such only in here.
pub const NONE: u8 = u8::MAX;

/// One graph: successors as sets, and how many edges stand behind each pair.
struct Sets {
    next: [u64; NODES],
    before: [u64; NODES],
    edges: Vec<u16>,
}

impl Sets {
    fn new() -> Sets {
        Sets {
            next: [0; NODES],
            before: [0; NODES],
            edges: vec![0; NODES * NODES],
        }
    }

    /// Whether the pair was not there before.
    fn insert(&mut self, from: usize, to: usize) -> bool {
        let edges = &mut self.edges[from * NODES + to];
        *edges += 1;
        if *edges > 1 {
            return false;
        }
        self.next[from] |= 1 << to;
        self.before[to] |= 1 << from;
        true
    }

    /// Whether that was the pair's last edge.
    fn remove(&mut self, from: usize, to: usize) -> bool {
        let edges = &mut self.edges[from * NODES + to];
        *edges -= 1;
        if *edges > 0 {
            return false;
        }
        self.next[from] &= !(1 << to);
        self.before[to] &= !(1 << from);
        true
    }
}

pub type Hops = [u8; NODES];

/// Level by level from a source, whole sets at a time.
pub fn walk(next: &[u64; NODES], source: usize, hops: &mut Hops) {
    hops.fill(NONE);
    let mut seen = 1u64 << source;
    let mut level = seen;
    let mut count = 0;
    hops[source] = 0;
    while level != 0 {
        let mut following = 0;
        bits(level, |node| following |= next[node]);
        level = following & !seen;
        seen |= level;
        count += 1;
        bits(level, |node| hops[node] = count);
    }
}

#[inline(always)]
pub fn bits(mut set: u64, mut each: impl FnMut(usize)) {
    while set != 0 {
        each(set.trailing_zeros() as usize % NODES);
        set &= set - 1;
    }
}

/// A source with its atoms, as bits of atom numbers, and the hops from it.
struct Source {
    node: usize,
    atoms: u64,
    under: Hops,
    over: Hops,
}

/// The largest hop count, or sum of lengths, that makes an atom true.
struct Target {
    node: usize,
    most: u32,
}

/// What was there before a change.
enum Logged {
    Under { source: u8, node: u8, hops: u8 },
    Over { source: u8, hops: Box<Hops> },
    Settled { atom: u8 },
}

/// How long the logs are: this one and that of the lengths.
#[derive(Clone, Copy)]
pub struct Marks {
    hops: usize,
    lengths: usize,
}

pub struct Graph {
    under: Sets,
    over: Sets,
    /// For each variable (from 0) its edges, without those from a node to itself.
    edges: Vec<Vec<Span>>,
    /// Only where there is an atom of kind 3.
    lengths: Option<Lengths>,
    sources: Vec<Source>,
    targets: Vec<Target>,
    /// For each variable its atoms as bits.
    atoms: Vec<u64>,
    /// Atoms whose truth is not known yet, and those whose variable is on or off.
    unsettled: u64,
    on: u64,
    off: u64,
    added: Vec<(u8, u8)>,
    removed: Vec<(u8, u8)>,
    log: Vec<Logged>,
    /// Boxes to use again, so that a walk costs no allocation; the log holds them
    /// as boxes, to stay small.
    #[allow(clippy::vec_box)]
    spare: Vec<Box<Hops>>,
}

impl Graph {
    pub fn of(plan: &PlanFile) -> Graph {
        let mut graph = Graph {
            under: Sets::new(),
            over: Sets::new(),
            edges: vec![Vec::new(); plan.variables],
            lengths: None,
            sources: Vec::new(),
            targets: Vec::new(),
            atoms: vec![0; plan.variables],
            unsettled: 0,
            on: 0,
            off: 0,
            added: Vec::new(),
            removed: Vec::new(),
            log: Vec::new(),
            spare: Vec::new(),
        };
        for edge in plan.edges.iter().filter(|edge| edge.from != edge.to) {
            graph.over.insert(edge.from, edge.to);
            graph.edges[edge.variable - 1].push(Span {
                from: edge.from as u8,
                to: edge.to as u8,
                length: edge.length() as u32,
            });
        }
        if plan.first_about_lengths().is_some() {
            graph.lengths = Some(Lengths::of(graph.edges.iter().flatten().copied()));
        }
        graph.add_atoms(plan);
        graph
    }

    fn add_atoms(&mut self, plan: &PlanFile) {
        for (number, atom) in plan.atoms.iter().enumerate() {
            self.unsettled |= 1 << number;
            self.atoms[atom.variable - 1] |= 1 << number;
            let most = match atom.kind {
                Kind::Reaches => usize::from(NONE) - 1,
                Kind::Within(bound) => bound.min(usize::from(NONE) - 1),
                Kind::LengthAtMost(bound) => bound,
            };
            self.targets.push(Target {
                node: atom.to,
                most: most as u32,
            });
            if let (Kind::LengthAtMost(_), Some(lengths)) = (atom.kind, &mut self.lengths) {
                lengths.add_atom(number, atom.from, &self.over.next);
                continue;
            }
            match self
                .sources
                .iter_mut()
                .find(|source| source.node == atom.from)
            {
                Some(source) => source.atoms |= 1 << number,
                None => self.add_source(atom.from, 1 << number),
            }
        }
    }

    fn add_source(&mut self, node: usize, atoms: u64) {
        let mut source = Source {
            node,
            atoms,
            under: [NONE; NODES],
            over: [NONE; NODES],
        };
        walk(&self.under.next, node, &mut source.under);
        walk(&self.over.next, node, &mut source.over);
        self.sources.push(source);
    }

    pub fn marks(&self) -> Marks {
        Marks {
            hops: self.log.len(),
            lengths: self.lengths.as_ref().map_or(0, Lengths::marks),
        }
    }

    pub fn over_neighbours(&self) -> &[u64; NODES] {
        &self.over.next
    }

    /// The shortest edges between them, where an atom asks for lengths.
    pub fn over_shortest(&self) -> Option<&Shortest> {
        self.lengths.as_ref().map(Lengths::over_shortest)
    }

    /// Takes note of a variable (from 0) that was just set.
    #[inline(always)]
    pub fn set(&mut self, variable: usize, on: bool) {
        let mask = self.atoms[variable];
        *(if on { &mut self.on } else { &mut self.off }) |= mask;
        for k in 0..self.edges[variable].len() {
            let span = self.edges[variable][k];
            let (from, to) = (span.from, span.to);
            let (u, w) = (usize::from(from), usize::from(to));
            if let Some(lengths) = &mut self.lengths {
                lengths.set(span, on);
            }
            if on {
                if self.under.insert(u, w) {
                    self.added.push((from, to));
                }
            } else if self.over.remove(u, w) {
                self.removed.push((from, to));
            }
        }
    }

    pub fn unset(&mut self, variable: usize, on: bool) {
        let mask = self.atoms[variable];
        *(if on { &mut self.on } else { &mut self.off }) &= !mask;
        for &span in &self.edges[variable] {
            let (u, w) = (usize::from(span.from), usize::from(span.to));
            if let Some(lengths) = &mut self.lengths {
                lengths.unset(span, on);
            }
            if on {
                self.under.remove(u, w);
            } else {
                self.over.insert(u, w);
            }
        }
    }

    pub fn forget_changes(&mut self) {
        self.added.clear();
        self.removed.clear();
        if let Some(lengths) = &mut self.lengths {
            lengths.forget_changes();
        }
    }

    pub fn take_back(&mut self, marks: Marks) {
        if let Some(lengths) = &mut self.lengths {
            lengths.take_back(marks.lengths);
        }
        while self.log.len() > marks.hops {
            match self.log.pop() {
                Some(Logged::Under { source, node, hops }) => {
                    self.sources[usize::from(source)].under[usize::from(node)] = hops;
                }
                Some(Logged::Over { source, hops }) => {
                    self.sources[usize::from(source)].over = *hops;
                    self.spare.push(hops);
                }
                Some(Logged::Settled { atom }) => self.unsettled |= 1 << atom,
                None => return,
            }
        }
    }

    /// Follows the changes; `found` hears of each atom that is settled by them.
    pub fn follow(&mut self, all: bool, mut found: impl FnMut(usize, bool)) {
        if all || !self.added.is_empty() {
            self.follow_added(all, &mut found);
        }
        if all || !self.removed.is_empty() {
            self.follow_removed(all, &mut found);
        }
        // Taken out for the time, so that both sides can be lent.
        if let Some(mut lengths) = self.lengths.take() {
            self.follow_lengths(&mut lengths, all, &mut found);
            self.lengths = Some(lengths);
        }
        self.forget_changes();
    }

    /// The same for lengths, and with the same atoms left out.
    fn follow_lengths(
        &mut self,
        lengths: &mut Lengths,
        all: bool,
        found: &mut impl FnMut(usize, bool),
    ) {
        for s in 0..lengths.sources.len() {
            let wanted = lengths.sources[s].atoms & self.unsettled & !self.on;
            let looked = wanted != 0 && (all || lengths.has_added());
            if looked && lengths.follow_added(s, &self.under.next) | all {
                let under = &lengths.sources[s].under;
                self.settle(wanted, true, |node, most| under[node] <= most, found);
            }
            let wanted = lengths.sources[s].atoms & self.unsettled & !self.off;
            let looked = wanted != 0 && (all || lengths.has_removed());
            let (next, before) = (&self.over.next, &self.over.before);
            if looked && lengths.follow_removed(s, next, before) | all {
                let over = &lengths.sources[s].over;
                self.settle(wanted, false, |node, most| over[node] > most, found);
            }
        }
    }

    /// Tells of each wanted atom that its target's distance settles.
    fn settle(
        &mut self,
        wanted: u64,
        holds: bool,
        settles: impl Fn(usize, u32) -> bool,
        found: &mut impl FnMut(usize, bool),
    ) {
        bits(wanted, |atom| {
            let target = &self.targets[atom];
            if settles(target.node, target.most) {
                self.unsettled &= !(1 << atom);
                self.log.push(Logged::Settled { atom: atom as u8 });
                found(atom, holds);
            }
        });
    }

    /// An atom whose variable is on needs no look at the under graph: there it
    /// could only be told to be on. The hops then stay behind until they are
    /// taken back together with that variable.
    fn follow_added(&mut self, all: bool, found: &mut impl FnMut(usize, bool)) {
        for s in 0..self.sources.len() {
            let wanted = self.sources[s].atoms & self.unsettled & !self.on;
            if wanted == 0 {
                continue;
            }
            let mut changed = all;
            for k in 0..self.added.len() {
                let (u, w) = self.added[k];
                changed |= self.lower(s, u, w);
            }
            if changed {
                let under = self.sources[s].under;
                let holds = |node: usize, most: u32| u32::from(under[node]) <= most;
                self.settle(wanted, true, holds, found);
            }
        }
    }

    /// Lowers the hops behind a new edge; whether there were any to lower.
    fn lower(&mut self, s: usize, from: u8, to: u8) -> bool {
        let hops = &mut self.sources[s].under;
        let start = hops[usize::from(from)];
        if start == NONE || hops[usize::from(to)] <= start + 1 {
            return false;
        }
        let mut waiting = 1u64 << to;
        let mut count = start + 1;
        // Level by level: a level's nodes all get the same count.
        while waiting != 0 {
            let mut following = 0;
            bits(waiting, |node| {
                self.log.push(Logged::Under {
                    source: s as u8,
                    node: node as u8,
                    hops: hops[node],
                });
                hops[node] = count;
                following |= self.under.next[node];
            });
            count += 1;
            waiting = 0;
            bits(following, |node| {
                if hops[node] > count {
                    waiting |= 1 << node;
                }
            });
        }
        true
    }

    fn follow_removed(&mut self, all: bool, found: &mut impl FnMut(usize, bool)) {
        for s in 0..self.sources.len() {
            let wanted = self.sources[s].atoms & self.unsettled & !self.off;
            if wanted == 0 {
                continue;
            }
            if self.removed.iter().any(|&(u, w)| self.was_needed(s, u, w)) {
                self.walk_again(s);
            } else if !all {
                continue;
            }
            let over = self.sources[s].over;
            let fails = |node: usize, most: u32| u32::from(over[node]) > most;
            self.settle(wanted, false, fails, found);
        }
    }

    /// Whether a lost edge was on a fewest-hops path and nothing else comes from
    /// as near.
    #[inline(always)]
    fn was_needed(&self, s: usize, from: u8, to: u8) -> bool {
        let hops = &self.sources[s].over;
        let (start, end) = (hops[usize::from(from)], hops[usize::from(to)]);
        if start == NONE || end != start + 1 {
            return false;
        }
        let mut supported = false;
        bits(self.over.before[usize::from(to)], |node| {
            supported |= hops[node] == start
        });
        !supported
    }

    fn walk_again(&mut self, s: usize) {
        let mut before = self.spare.pop().unwrap_or_else(|| Box::new([NONE; NODES]));
        let source = &mut self.sources[s];
        *before = source.over;
        self.log.push(Logged::Over {
            source: s as u8,
            hops: before,
        });
        walk(&self.over.next, source.node, &mut source.over);
    }
}
