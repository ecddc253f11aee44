//! The plan file: what it holds, and reading it with refusals 1 to 8.

/// Document 01, "Plan file": the limits.
pub const FILE_BYTES: usize = 16_384;
pub const NODES: usize = 64;
pub const VARIABLES: usize = 512;
pub const EDGES: usize = 256;
pub const ATOMS: usize = 64;
pub const CLAUSES: usize = 1_024;
pub const LITERALS: usize = 4_096;
pub const BOUND: usize = 255;

/// Request C-13: an edge's length, and the bound of "length at most".
pub const LENGTH: usize = 65_535;

pub const HEAD: u8 = 1;
pub const EDGE: u8 = 2;
pub const ATOM: u8 = 3;
pub const CLAUSE: u8 = 4;
pub const END: u8 = 5;
/// An edge with a length, its fourth field.
pub const LONG_EDGE: u8 = 6;

/// A tag and a value length of two bytes stand before each value.
pub const RECORD_HEAD: usize = 3;

#[derive(Clone, Copy, Debug, PartialEq, Eq)]
pub struct Edge {
    pub from: usize,
    pub to: usize,
    pub variable: usize,
    /// What a record of tag 6 says; one of tag 2 says nothing.
    pub stated_length: Option<usize>,
}

impl Edge {
    /// "Tag 2 means length 1."
    pub fn length(&self) -> usize {
        self.stated_length.unwrap_or(1)
    }
}

#[derive(Clone, Copy, Debug, PartialEq, Eq)]
pub enum Kind {
    Reaches,
    Within(usize),
    /// Kind 3, over the smallest sum of lengths.
    LengthAtMost(usize),
}

impl Kind {
    pub fn is_about_lengths(self) -> bool {
        matches!(self, Kind::LengthAtMost(_))
    }
}

#[derive(Clone, Copy, Debug, PartialEq, Eq)]
pub struct Atom {
    pub kind: Kind,
    pub from: usize,
    pub to: usize,
    pub variable: usize,
}

/// What an accepted file says. Edge, atom and clause number k stands at place k - 1.
#[derive(Clone, Debug, Default, PartialEq, Eq)]
pub struct PlanFile {
    pub nodes: usize,
    pub variables: usize,
    pub edges: Vec<Edge>,
    pub atoms: Vec<Atom>,
    pub clauses: Vec<Vec<i16>>,
}

impl PlanFile {
    pub fn literals(&self) -> usize {
        self.clauses.iter().map(Vec::len).sum()
    }

    pub fn has_empty_clause(&self) -> bool {
        self.clauses.iter().any(Vec::is_empty)
    }

    /// Whether a record of tag 6 is there.
    pub fn has_long_edge(&self) -> bool {
        self.edges.iter().any(|edge| edge.stated_length.is_some())
    }

    /// The number of the first atom of kind 3.
    pub fn first_about_lengths(&self) -> Option<usize> {
        let is_such = |atom: &Atom| atom.kind.is_about_lengths();
        self.atoms.iter().position(is_such).map(|place| place + 1)
    }
}

/// A row of the table "Numbers given on refusal", with the value also returned.
#[derive(Clone, Copy, Debug, PartialEq, Eq)]
pub struct Refusal {
    pub number: u32,
    pub value: usize,
}

pub fn refuse<T>(number: u32, value: usize) -> Result<T, Refusal> {
    Err(Refusal { number, value })
}

/// Reads a whole file. Order: 1; then for each record a byte after the end (3), then 2 to 8.
pub fn read(bytes: &[u8]) -> Result<PlanFile, Refusal> {
    if bytes.len() > FILE_BYTES {
        return refuse(1, 0);
    }
    let mut plan = PlanFile::default();
    let mut offset = 0;
    loop {
        let record = next_record(bytes, offset)?;
        check_tag(&record)?;
        check_length(&record)?;
        take(&mut plan, &record)?;
        offset = record.behind();
        if record.tag == END {
            break;
        }
    }
    if offset < bytes.len() {
        return refuse(3, offset);
    }
    Ok(plan)
}

struct Record<'a> {
    offset: usize,
    tag: u8,
    value: &'a [u8],
}

impl Record<'_> {
    fn behind(&self) -> usize {
        self.offset + RECORD_HEAD + self.value.len()
    }

    /// Field `k` of a value made of two-byte fields that begin at byte `start`.
    fn field(&self, start: usize, k: usize) -> usize {
        let at = start + 2 * k;
        u16::from_be_bytes([self.value[at], self.value[at + 1]]).into()
    }
}

/// Refusal 2. A file without an end record ends here too, at its length.
fn next_record(bytes: &[u8], offset: usize) -> Result<Record<'_>, Refusal> {
    let rest = &bytes[offset..];
    if rest.len() < RECORD_HEAD {
        return refuse(2, offset);
    }
    let length = usize::from(u16::from_be_bytes([rest[1], rest[2]]));
    match rest[RECORD_HEAD..].get(..length) {
        Some(value) => Ok(Record {
            offset,
            tag: rest[0],
            value,
        }),
        None => refuse(2, offset),
    }
}

/// Refusals 3 and 4. An unknown first tag is 3, since it is not 1.
fn check_tag(record: &Record) -> Result<(), Refusal> {
    let first = record.offset == 0;
    if first != (record.tag == HEAD) {
        return refuse(3, record.offset);
    }
    match record.tag {
        HEAD | EDGE | ATOM | CLAUSE | END | LONG_EDGE => Ok(()),
        _ => refuse(4, record.offset),
    }
}

/// Refusal 5.
fn check_length(record: &Record) -> Result<(), Refusal> {
    let length = record.value.len();
    let allowed = match record.tag {
        HEAD => length == 4,
        EDGE => length == 6,
        LONG_EDGE => length == 8,
        ATOM => length == 9,
        // A clause may be empty (request C-12).
        CLAUSE => length % 2 == 0,
        _ => length == 0,
    };
    if allowed {
        Ok(())
    } else {
        refuse(5, record.offset)
    }
}

/// Refusals 6 to 8, each with the record's offset; then what the record says is kept.
fn take(plan: &mut PlanFile, record: &Record) -> Result<(), Refusal> {
    let taken = match record.tag {
        HEAD => take_head(plan, record),
        EDGE => take_edge(plan, record, None),
        LONG_EDGE => take_edge(plan, record, Some(record.field(0, 3))),
        ATOM => take_atom(plan, record),
        CLAUSE => take_clause(plan, record),
        _ => Ok(()),
    };
    taken.or_else(|number| refuse(number, record.offset))
}

fn check(good: bool, number: u32) -> Result<(), u32> {
    if good {
        Ok(())
    } else {
        Err(number)
    }
}

fn take_head(plan: &mut PlanFile, record: &Record) -> Result<(), u32> {
    let (nodes, variables) = (record.field(0, 0), record.field(0, 1));
    check((1..=NODES).contains(&nodes), 6)?;
    check((1..=VARIABLES).contains(&variables), 6)?;
    plan.nodes = nodes;
    plan.variables = variables;
    Ok(())
}

/// Both tags share one numbering and one limit.
fn take_edge(
    plan: &mut PlanFile,
    record: &Record,
    stated_length: Option<usize>,
) -> Result<(), u32> {
    let edge = Edge {
        from: record.field(0, 0),
        to: record.field(0, 1),
        variable: record.field(0, 2),
        stated_length,
    };
    check(edge.from < plan.nodes && edge.to < plan.nodes, 6)?;
    check((1..=plan.variables).contains(&edge.variable), 6)?;
    check((1..=LENGTH).contains(&edge.length()), 6)?;
    check(plan.edges.len() < EDGES, 7)?;
    check(
        plan.atoms.iter().all(|atom| atom.variable != edge.variable),
        8,
    )?;
    plan.edges.push(edge);
    Ok(())
}

fn take_atom(plan: &mut PlanFile, record: &Record) -> Result<(), u32> {
    let bound = record.field(1, 2);
    let kind = match record.value[0] {
        1 if bound == 0 => Kind::Reaches,
        2 if bound <= BOUND => Kind::Within(bound),
        3 if bound <= LENGTH => Kind::LengthAtMost(bound),
        _ => return Err(6),
    };
    let atom = Atom {
        kind,
        from: record.field(1, 0),
        to: record.field(1, 1),
        variable: record.field(1, 3),
    };
    check(atom.from < plan.nodes && atom.to < plan.nodes, 6)?;
    check((1..=plan.variables).contains(&atom.variable), 6)?;
    check(plan.atoms.len() < ATOMS, 7)?;
    check(
        plan.edges.iter().all(|edge| edge.variable != atom.variable),
        8,
    )?;
    plan.atoms.push(atom);
    Ok(())
}

fn take_clause(plan: &mut PlanFile, record: &Record) -> Result<(), u32> {
    let clause: Vec<i16> = (0..record.value.len() / 2)
        .map(|k| record.field(0, k) as u16 as i16)
        .collect();
    // unsigned_abs: -32,768 has no opposite, and is out of range like any other.
    let in_range =
        |&literal: &i16| (1..=plan.variables).contains(&usize::from(literal.unsigned_abs()));
    check(clause.iter().all(in_range), 6)?;
    check(plan.clauses.len() < CLAUSES, 7)?;
    check(plan.literals() + clause.len() <= LITERALS, 7)?;
    plan.clauses.push(clause);
    Ok(())
}
