//! Problem files, loaded and written back by the rules of docs/FORMATS.md and docs/REFUSALS.md.

use std::ops::RangeBounds;

pub struct Operator {
    pub shelf: u16,
    pub yes: Vec<u16>,
    pub no: Vec<u16>,
    pub add: Vec<u16>,
    pub del: Vec<u16>,
}

pub struct Method {
    pub task: u16,
    pub yes: Vec<u16>,
    pub no: Vec<u16>,
    pub sub: Vec<u16>,
}

pub struct Problem {
    pub shop: u16,
    pub facts: u16,
    pub tasks: u16,
    pub start: Vec<u16>,
    pub first: Vec<u16>,
    pub operators: Vec<Operator>,
    pub methods: Vec<Method>,
}

/// The number of the question that was answered no, and the place.
#[derive(Clone, Copy, Debug, PartialEq, Eq)]
pub struct Fault {
    pub question: u8,
    pub line: usize,
    pub byte: usize,
}

impl Problem {
    pub fn load(text: &[u8]) -> Result<Problem, Fault> {
        let mut reader = Reader::new(text);
        let shop = reader.number(b"shop=", ..)?;
        let facts = reader.number(b"facts=", 1..=256)?;
        let ops = reader.number(b"ops=", 1..=64)?;
        let tasks = reader.number(b"tasks=", ..=64)?;
        let count = reader.number(b"methods=", ..=128)?;
        let all = ops + tasks;
        let start = reader.ascending(b"start=", facts, 256)?;
        let first = reader.list(b"first=", all, 16)?;

        let mut operators = Vec::with_capacity(usize::from(ops));
        for _ in 0..ops {
            operators.push(Operator {
                shelf: reader.number(b"shelf=", ..)?,
                yes: reader.ascending(b"yes=", facts, 8)?,
                no: reader.ascending(b"no=", facts, 8)?,
                add: reader.ascending(b"add=", facts, 8)?,
                del: reader.ascending(b"del=", facts, 8)?,
            });
        }

        let mut methods = Vec::with_capacity(usize::from(count));
        for _ in 0..count {
            methods.push(Method {
                task: reader.number(b"for=", ops..all)?,
                yes: reader.ascending(b"yes=", facts, 8)?,
                no: reader.ascending(b"no=", facts, 8)?,
                sub: reader.list(b"sub=", all, 8)?,
            });
        }

        reader.finish()?;
        Ok(Problem {
            shop,
            facts,
            tasks,
            start,
            first,
            operators,
            methods,
        })
    }

    /// Writes the problem's text to the start of `out` and gives its length, or gives `None` and
    /// leaves `out` alone where it has too little room.
    pub fn write(&self, out: &mut [u8]) -> Option<usize> {
        let text = self.text();
        out.get_mut(..text.len())?.copy_from_slice(&text);
        Some(text.len())
    }

    fn text(&self) -> Vec<u8> {
        let mut text = Vec::with_capacity(LONGEST);
        number(&mut text, b"shop=", self.shop);
        number(&mut text, b"facts=", self.facts);
        number(&mut text, b"ops=", self.operators.len() as u16);
        number(&mut text, b"tasks=", self.tasks);
        number(&mut text, b"methods=", self.methods.len() as u16);
        list(&mut text, b"start=", &self.start);
        list(&mut text, b"first=", &self.first);
        for operator in &self.operators {
            number(&mut text, b"shelf=", operator.shelf);
            list(&mut text, b"yes=", &operator.yes);
            list(&mut text, b"no=", &operator.no);
            list(&mut text, b"add=", &operator.add);
            list(&mut text, b"del=", &operator.del);
        }
        for method in &self.methods {
            number(&mut text, b"for=", method.task);
            list(&mut text, b"yes=", &method.yes);
            list(&mut text, b"no=", &method.no);
            list(&mut text, b"sub=", &method.sub);
        }
        text
    }
}

/// The length of the longest text of a problem.
const LONGEST: usize = 25_679;

fn number(text: &mut Vec<u8>, key: &[u8], n: u16) {
    text.extend_from_slice(key);
    digits(text, n);
    text.push(b'\n');
}

fn list(text: &mut Vec<u8>, key: &[u8], numbers: &[u16]) {
    text.extend_from_slice(key);
    for (i, &n) in numbers.iter().enumerate() {
        if i > 0 {
            text.push(b',');
        }
        digits(text, n);
    }
    text.push(b'\n');
}

fn digits(text: &mut Vec<u8>, n: u16) {
    for place in [10_000, 1_000, 100, 10] {
        if n >= place {
            text.push(b'0' + (n / place % 10) as u8);
        }
    }
    text.push(b'0' + (n % 10) as u8);
}

/// Stands at the start of a line.
pub struct Reader<'a> {
    text: &'a [u8],
    line: usize,
    byte: usize,
}

impl<'a> Reader<'a> {
    pub fn new(text: &'a [u8]) -> Reader<'a> {
        Reader {
            text,
            line: 1,
            byte: 0,
        }
    }

    /// Whether this line begins with the key, given with its `=`.
    pub fn begins(&self, key: &[u8]) -> bool {
        self.text[self.byte..].starts_with(key)
    }

    /// The number on this line.
    pub fn number(&mut self, key: &[u8], range: impl RangeBounds<u16>) -> Result<u16, Fault> {
        let from = self.key(key)?;
        let (n, end) = self.digits(from)?;
        if self.text.get(end) != Some(&b'\n') {
            return Err(self.malformed(end));
        }
        if !range.contains(&n) {
            return Err(self.fault(4, from));
        }
        self.next(end);
        Ok(n)
    }

    /// The list on this line: at most `most` numbers below `end`, in any order.
    fn list(&mut self, key: &[u8], end: u16, most: usize) -> Result<Vec<u16>, Fault> {
        self.entries(key, end, most, false)
    }

    /// The list on this line: at most `most` numbers below `end`, each greater than the one before.
    fn ascending(&mut self, key: &[u8], end: u16, most: usize) -> Result<Vec<u16>, Fault> {
        self.entries(key, end, most, true)
    }

    fn entries(
        &mut self,
        key: &[u8],
        end: u16,
        most: usize,
        ascending: bool,
    ) -> Result<Vec<u16>, Fault> {
        let from = self.key(key)?;
        if self.text.get(from) == Some(&b'\n') {
            self.next(from);
            return Ok(Vec::new());
        }
        let mut entries = Vec::with_capacity(most);
        let mut at = from;
        let line_end = loop {
            let (n, after) = self.digits(at)?;
            entries.push(n);
            match self.text.get(after) {
                Some(b',') => at = after + 1,
                Some(b'\n') => break after,
                _ => return Err(self.malformed(after)),
            }
        };
        if let Some(i) = entries.iter().position(|&n| n >= end) {
            return Err(self.fault(4, self.entry(from, i)));
        }
        if entries.len() > most {
            return Err(self.fault(5, self.entry(from, most)));
        }
        if ascending && let Some(i) = entries.windows(2).position(|pair| pair[0] >= pair[1]) {
            return Err(self.fault(6, self.entry(from, i + 1)));
        }
        self.next(line_end);
        Ok(entries)
    }

    /// Where the value begins after the key, given with its `=`.
    fn key(&self, key: &[u8]) -> Result<usize, Fault> {
        if self.begins(key) {
            Ok(self.byte + key.len())
        } else if self.ends() {
            Err(self.fault(2, self.byte))
        } else {
            Err(self.fault(1, self.byte))
        }
    }

    /// The number that begins at `from`, and where its digits end.
    fn digits(&self, from: usize) -> Result<(u16, usize), Fault> {
        let mut n = match self.text.get(from) {
            Some(b'0') => return Ok((0, from + 1)),
            Some(&b @ b'1'..=b'9') => u32::from(b - b'0'),
            _ => return Err(self.malformed(from)),
        };
        let mut at = from + 1;
        while let Some(&b @ b'0'..=b'9') = self.text.get(at) {
            n = 10 * n + u32::from(b - b'0');
            if n > 65_535 {
                return Err(self.malformed(at));
            }
            at += 1;
        }
        Ok((n as u16, at))
    }

    fn next(&mut self, line_end: usize) {
        self.line += 1;
        self.byte = line_end + 1;
    }

    pub fn finish(&self) -> Result<(), Fault> {
        if self.byte < self.text.len() {
            return Err(self.fault(7, self.byte));
        }
        Ok(())
    }

    /// Whether this line ends.
    fn ends(&self) -> bool {
        self.text[self.byte..].contains(&b'\n')
    }

    /// No value has this byte here: question 3, unless the line has no end.
    #[cold]
    fn malformed(&self, at: usize) -> Fault {
        if self.ends() {
            self.fault(3, at)
        } else {
            self.fault(1, self.byte)
        }
    }

    /// Where entry `i` of the list that begins at `from` begins.
    #[cold]
    fn entry(&self, from: usize, i: usize) -> usize {
        let skipped: usize = self.text[from..]
            .split(|&b| b == b',')
            .take(i)
            .map(|n| n.len() + 1)
            .sum();
        from + skipped
    }

    fn fault(&self, question: u8, byte: usize) -> Fault {
        Fault {
            question,
            line: self.line,
            byte,
        }
    }
}

#[cfg(test)]
mod tests {
    use super::*;

    const TEXT: &[u8; LONGEST] = include_bytes!("../../../crates/cases/data/longest");

    #[test]
    fn writes_what_was_loaded() {
        let problem = Problem::load(TEXT).unwrap();
        let mut out = [b'x'; LONGEST + 1];
        assert_eq!(problem.write(&mut out), Some(LONGEST));
        assert_eq!(out[..LONGEST], *TEXT);
        assert_eq!(out[LONGEST], b'x');
    }

    #[test]
    fn leaves_too_small_a_slice_alone() {
        let problem = Problem::load(TEXT).unwrap();
        let mut out = [b'x'; LONGEST - 1];
        assert_eq!(problem.write(&mut out), None);
        assert_eq!(out, [b'x'; LONGEST - 1]);
    }
}
