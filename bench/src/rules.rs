//! Rules read from a DIMACS text: one pass over the bytes, in which the numbers are
//! made, and one flat table.

use reference::file::{refuse, PlanFile, Refusal, CLAUSES, LITERALS};

/// The clauses go to the table, each ended by 0; hands back how many there are.
pub fn read(plan: &PlanFile, text: &[u8], table: &mut Vec<i16>) -> Result<usize, Refusal> {
    let mut words = Words {
        text,
        at: 0,
        leads: true,
    };
    let head = words.head()?;
    let read = words.clauses(plan, head.variables, table)?;
    if read.clauses != head.clauses as usize {
        return refuse(21, head.at);
    }
    if head.variables as usize > plan.variables {
        return refuse(22, head.at);
    }
    match read.over {
        Some(at) => refuse(7, at),
        None => Ok(read.clauses),
    }
}

/// The `p` line: its offset and its two numbers.
struct Head {
    at: usize,
    variables: u32,
    clauses: u32,
}

/// How many clauses there are, and the offset of the first that is too much.
struct Read {
    clauses: usize,
    over: Option<usize>,
}

fn bad<T>(at: usize) -> Result<T, Refusal> {
    refuse(20, at)
}

/// A text and an offset in it.
struct Words<'a> {
    text: &'a [u8],
    at: usize,
    /// No word of this line has been passed.
    leads: bool,
}

impl Words<'_> {
    /// Goes to the next word that is in no comment, or to the text's end.
    fn go_on(&mut self) {
        while let Some(byte) = self.text.get(self.at) {
            match byte {
                b'\n' => self.leads = true,
                b' ' | b'\t' | b'\r' => {}
                b'c' if self.leads => {
                    self.pass_line();
                    continue;
                }
                _ => return,
            }
            self.at += 1;
        }
    }

    fn pass_line(&mut self) {
        let rest = &self.text[self.at..];
        self.at += rest
            .iter()
            .position(|&byte| byte == b'\n')
            .unwrap_or(rest.len());
    }

    fn is_end(&self) -> bool {
        self.at == self.text.len()
    }

    fn head(&mut self) -> Result<Head, Refusal> {
        self.go_on();
        let at = self.at;
        self.literally(b"p")?;
        self.go_on_in_line()?;
        self.literally(b"cnf")?;
        let (variables, clauses) = (self.count()?, self.count()?);
        self.go_on();
        if !self.is_end() && !self.leads {
            return bad(self.at);
        }
        Ok(Head {
            at,
            variables,
            clauses,
        })
    }

    fn go_on_in_line(&mut self) -> Result<(), Refusal> {
        self.go_on();
        if self.is_end() || self.leads {
            return bad(self.at);
        }
        Ok(())
    }

    /// Whether a word ends here.
    fn is_behind(&self) -> bool {
        matches!(
            self.text.get(self.at),
            None | Some(b' ' | b'\t' | b'\r' | b'\n')
        )
    }

    fn literally(&mut self, word: &[u8]) -> Result<(), Refusal> {
        let start = self.at;
        let there = self.text[start..].starts_with(word);
        self.at += word.len();
        self.leads = false;
        if there && self.is_behind() {
            return Ok(());
        }
        bad(start)
    }

    fn count(&mut self) -> Result<u32, Refusal> {
        self.go_on_in_line()?;
        let start = self.at;
        match self.number() {
            Some((negative, value)) if !negative || value == 0 => Ok(value),
            _ => bad(start),
        }
    }

    /// A sign and a number below 2^31.
    fn number(&mut self) -> Option<(bool, u32)> {
        let negative = self.text.get(self.at) == Some(&b'-');
        self.at += usize::from(negative);
        self.leads = false;
        let first = self.at;
        let mut value = 0u64;
        while let Some(&byte) = self.text.get(self.at) {
            let digit = byte.wrapping_sub(b'0');
            if digit > 9 {
                break;
            }
            // Zeros may lead without end, so it is the value that must not run away.
            value = (10 * value + u64::from(digit)).min(1 << 31);
            self.at += 1;
        }
        let good = self.at > first && self.is_behind() && value < 1 << 31;
        good.then_some((negative, value as u32))
    }

    fn clauses(
        &mut self,
        plan: &PlanFile,
        variables: u32,
        table: &mut Vec<i16>,
    ) -> Result<Read, Refusal> {
        let (mut clauses, mut literals) = (plan.clauses.len(), plan.literals());
        let mut over = None;
        // Where the clause that is not ended stands, in the table and in the text.
        let (mut begin, mut offset) = (0, 0);
        table.clear();
        loop {
            self.go_on();
            let start = self.at;
            if self.is_end() {
                break;
            }
            if table.len() == begin {
                offset = start;
            }
            match self.number() {
                Some((_, 0)) => {
                    clauses += 1;
                    literals += table.len() - begin;
                    if over.is_none() && (clauses > CLAUSES || literals > LITERALS) {
                        over = Some(offset);
                    }
                    table.push(0);
                    begin = table.len();
                }
                Some((negative, value)) if value <= variables => {
                    // A literal with no room here is above the plan's variables, which is refused.
                    let literal = value as i16;
                    table.push(if negative {
                        literal.wrapping_neg()
                    } else {
                        literal
                    });
                }
                _ => return bad(start),
            }
        }
        if table.len() > begin {
            return bad(self.at);
        }
        Ok(Read {
            clauses: clauses - plan.clauses.len(),
            over,
        })
    }
}
