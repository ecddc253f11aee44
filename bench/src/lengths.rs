//! Lengths: for each pair of neighbours the shortest edge that is there, and for each
//! source of an atom of kind 3 the smallest sums in both graphs, kept up to date.
//!
//! A new edge lowers sums from its end onwards. A lost one matters only if no other edge
//! supports its end; then the nodes that lose their sums with it are found, nearest
//! first, and only these are walked to again. An edge is lost here too where a longer
//! one between the same nodes is left.

use crate::graph::bits;
use reference::file::NODES;

/// Larger than any sum there is (63 spans of 65,535), and compared as such only in here.
pub const NONE: u32 = u32::MAX;

pub type Sums = [u32; NODES];

/// The shortest edge of each pair, or `NONE`.
pub type Shortest = [u32; NODES * NODES];

/// The edges of one graph between each pair of nodes.
struct Between {
    shortest: Box<Shortest>,
    /// For each pair its lengths, rising, and how many edges of each are there.
    bundles: Vec<Vec<(u32, u16)>>,
}

impl Between {
    fn new() -> Between {
        Between {
            shortest: Box::new([NONE; NODES * NODES]),
            bundles: vec![Vec::new(); NODES * NODES],
        }
    }

    /// Whether the pair's shortest edge is shorter now.
    fn insert(&mut self, pair: usize, length: u32) -> bool {
        let bundle = &mut self.bundles[pair];
        match bundle.binary_search_by_key(&length, |&(length, _)| length) {
            Ok(place) => bundle[place].1 += 1,
            Err(place) => bundle.insert(place, (length, 1)),
        }
        let shorter = length < self.shortest[pair];
        if shorter {
            self.shortest[pair] = length;
        }
        shorter
    }

    /// Whether that was the last edge of the pair's shortest.
    fn remove(&mut self, pair: usize, length: u32) -> bool {
        let bundle = &mut self.bundles[pair];
        let place = bundle.iter().position(|&(other, _)| other == length);
        let count = &mut bundle[place.expect("it was put in")].1;
        *count -= 1;
        if *count > 0 || length > self.shortest[pair] {
            return false;
        }
        let left = bundle.iter().find(|&&(_, count)| count > 0);
        self.shortest[pair] = left.map_or(NONE, |&(length, _)| length);
        true
    }
}

/// The nearest node first, whole neighbour sets at a time.
pub fn walk(next: &[u64; NODES], shortest: &Shortest, source: usize, sums: &mut Sums) {
    sums.fill(NONE);
    sums[source] = 0;
    spread(next, shortest, 1 << source, sums, |_, _| ());
}

/// Goes on from nodes whose sums have fallen; `before` hears of each sum that falls.
#[inline(always)]
fn spread(
    next: &[u64; NODES],
    shortest: &Shortest,
    mut waiting: u64,
    sums: &mut Sums,
    mut before: impl FnMut(usize, u32),
) {
    while waiting != 0 {
        let from = nearest(waiting, sums);
        let least = sums[from];
        waiting &= !(1 << from);
        bits(next[from], |node| {
            let sum = least + shortest[from * NODES + node];
            if sum < sums[node] {
                before(node, sums[node]);
                sums[node] = sum;
                waiting |= 1 << node;
            }
        });
    }
}

/// The node of a set that has the smallest sum.
#[inline(always)]
fn nearest(set: u64, sums: &Sums) -> usize {
    let (mut nearest, mut least) = (0, NONE);
    bits(set, |node| {
        if sums[node] < least {
            (nearest, least) = (node, sums[node]);
        }
    });
    nearest
}

/// A source with its atoms of kind 3, as bits of atom numbers, and the sums from it.
pub struct Source {
    pub node: usize,
    pub atoms: u64,
    pub under: Sums,
    pub over: Sums,
}

/// What was there before a change.
enum Logged {
    Under { source: u8, node: u8, sum: u32 },
    Over { source: u8, node: u8, sum: u32 },
}

/// An edge that came or went: its ends and its length.
#[derive(Clone, Copy)]
pub struct Span {
    pub from: u8,
    pub to: u8,
    pub length: u32,
}

impl Span {
    fn pair(&self) -> usize {
        usize::from(self.from) * NODES + usize::from(self.to)
    }
}

pub struct Lengths {
    under: Between,
    over: Between,
    pub sources: Vec<Source>,
    added: Vec<Span>,
    removed: Vec<Span>,
    log: Vec<Logged>,
}

impl Lengths {
    /// All edges open: none in the under graph, and all in the over graph.
    pub fn of(spans: impl Iterator<Item = Span>) -> Lengths {
        let mut lengths = Lengths {
            under: Between::new(),
            over: Between::new(),
            sources: Vec::new(),
            added: Vec::new(),
            removed: Vec::new(),
            log: Vec::new(),
        };
        for span in spans {
            lengths.over.insert(span.pair(), span.length);
        }
        lengths
    }

    /// `over` are the neighbours of the over graph.
    pub fn add_atom(&mut self, number: usize, node: usize, over: &[u64; NODES]) {
        let known = self.sources.iter_mut().find(|source| source.node == node);
        if let Some(source) = known {
            source.atoms |= 1 << number;
            return;
        }
        let mut source = Source {
            node,
            atoms: 1 << number,
            under: [NONE; NODES],
            over: [NONE; NODES],
        };
        source.under[node] = 0;
        walk(over, &self.over.shortest, node, &mut source.over);
        self.sources.push(source);
    }

    pub fn over_shortest(&self) -> &Shortest {
        &self.over.shortest
    }

    pub fn marks(&self) -> usize {
        self.log.len()
    }

    #[inline(always)]
    pub fn set(&mut self, span: Span, on: bool) {
        if on {
            if self.under.insert(span.pair(), span.length) {
                self.added.push(span);
            }
        } else if self.over.remove(span.pair(), span.length) {
            self.removed.push(span);
        }
    }

    pub fn unset(&mut self, span: Span, on: bool) {
        if on {
            self.under.remove(span.pair(), span.length);
        } else {
            self.over.insert(span.pair(), span.length);
        }
    }

    pub fn has_added(&self) -> bool {
        !self.added.is_empty()
    }

    pub fn has_removed(&self) -> bool {
        !self.removed.is_empty()
    }

    pub fn forget_changes(&mut self) {
        self.added.clear();
        self.removed.clear();
    }

    pub fn take_back(&mut self, marks: usize) {
        while self.log.len() > marks {
            match self.log.pop() {
                Some(Logged::Under { source, node, sum }) => {
                    self.sources[usize::from(source)].under[usize::from(node)] = sum;
                }
                Some(Logged::Over { source, node, sum }) => {
                    self.sources[usize::from(source)].over[usize::from(node)] = sum;
                }
                None => return,
            }
        }
    }

    /// Lowers the sums behind the new edges; whether there were any to lower. `next` are
    /// the neighbours of the under graph.
    pub fn follow_added(&mut self, s: usize, next: &[u64; NODES]) -> bool {
        let sums = &mut self.sources[s].under;
        let log = &mut self.log;
        let mut note = |node: usize, sum: u32| {
            log.push(Logged::Under {
                source: s as u8,
                node: node as u8,
                sum,
            });
        };
        let mut changed = false;
        for span in &self.added {
            let (from, to) = (usize::from(span.from), usize::from(span.to));
            if sums[from] == NONE || sums[to] <= sums[from] + span.length {
                continue;
            }
            changed = true;
            note(to, sums[to]);
            sums[to] = sums[from] + span.length;
            spread(next, &self.under.shortest, 1 << to, sums, &mut note);
        }
        changed
    }

    /// Walks again to the nodes that a lost edge takes their sums from; whether there
    /// were any. `next` and `before` are the neighbours of the over graph.
    pub fn follow_removed(&mut self, s: usize, next: &[u64; NODES], before: &[u64; NODES]) -> bool {
        let lost = self.lost(s, next, before);
        let sums = &mut self.sources[s].over;
        bits(lost, |node| {
            self.log.push(Logged::Over {
                source: s as u8,
                node: node as u8,
                sum: sums[node],
            });
            sums[node] = NONE;
        });
        let shortest = &self.over.shortest;
        let mut waiting = 0;
        bits(lost, |node| {
            bits(before[node] & !lost, |from| {
                let sum = sums[from].saturating_add(shortest[from * NODES + node]);
                if sum < sums[node] {
                    sums[node] = sum;
                    waiting |= 1 << node;
                }
            });
        });
        spread(next, shortest, waiting, sums, |_, _| ());
        lost != 0
    }

    /// The nodes whose sums no edge supports any more. A support is nearer than what it
    /// supports, so with the nearest first each node is looked at when its supports are
    /// known.
    fn lost(&self, s: usize, next: &[u64; NODES], before: &[u64; NODES]) -> u64 {
        let sums = &self.sources[s].over;
        let shortest = &self.over.shortest;
        let mut waiting = 0u64;
        for span in &self.removed {
            let (start, end) = (sums[usize::from(span.from)], sums[usize::from(span.to)]);
            if start != NONE && end == start + span.length {
                waiting |= 1 << span.to;
            }
        }
        let mut lost = 0u64;
        while waiting != 0 {
            let node = nearest(waiting, sums);
            waiting &= !(1 << node);
            let leads = |from: usize, to: usize| {
                // From a node that is not reached nothing leads anywhere.
                sums[from].saturating_add(shortest[from * NODES + to]) == sums[to]
            };
            let mut supported = false;
            bits(before[node] & !lost, |from| supported |= leads(from, node));
            if !supported {
                lost |= 1 << node;
                bits(next[node] & !lost, |to| {
                    waiting |= u64::from(leads(node, to)) << to;
                });
            }
        }
        lost
    }
}
