//! Plan texts, loaded by the rules of docs/FORMATS.md and docs/REFUSALS.md.

use crate::problem::{Fault, Problem, Reader};

/// The greatest number of rows.
const MOST: u16 = 2_000;

#[derive(Clone, Copy, Debug, PartialEq, Eq)]
pub enum Row {
    By(u16),
    Do(u16),
}

/// The rows of a plan of this problem.
pub fn load(text: &[u8], problem: &Problem) -> Result<Vec<Row>, Fault> {
    let mut reader = Reader::new(text);
    if reader.number(b"shop=", ..)? != problem.shop {
        return Err(Fault {
            question: 8,
            line: 1,
            byte: b"shop=".len(),
        });
    }
    let count = reader.number(b"rows=", ..=MOST)?;
    let methods = problem.methods.len() as u16;
    let ops = problem.operators.len() as u16;
    let mut rows = Vec::with_capacity(usize::from(count));
    for _ in 0..count {
        rows.push(if reader.begins(b"by=") {
            Row::By(reader.number(b"by=", ..methods)?)
        } else {
            Row::Do(reader.number(b"do=", ..ops)?)
        });
    }
    reader.finish()?;
    Ok(rows)
}

#[cfg(test)]
mod tests {
    use super::*;

    #[test]
    fn loads_the_worked_plan() {
        let problem = Problem::load(include_bytes!("../../../crates/inspect/stdin")).unwrap();
        let text = b"shop=7\nrows=5\nby=1\ndo=0\nby=0\ndo=1\ndo=2\n";
        let rows = [Row::By(1), Row::Do(0), Row::By(0), Row::Do(1), Row::Do(2)];
        assert_eq!(load(text, &problem), Ok(rows.to_vec()));
    }

    #[test]
    fn refuses_the_worked_faults() {
        let problem = Problem::load(include_bytes!("../../../crates/inspect/stdin")).unwrap();
        let text = "shop=7\nrows=5\nby=1\ndo=0\nby=0\ndo=1\ndo=2\n";
        for (old, new, question, line, byte) in [
            ("shop=7", "shop=8", 8, 1, 5),
            ("rows=5", "rows=2001", 4, 2, 12),
            ("rows=5", "rows=4", 7, 7, 34),
            ("rows=5", "rows=6", 1, 8, 39),
            ("by=1", "by=2", 4, 3, 17),
            ("do=2", "do=3", 4, 7, 37),
        ] {
            let fault = Fault {
                question,
                line,
                byte,
            };
            let text = text.replacen(old, new, 1);
            assert_eq!(load(text.as_bytes(), &problem), Err(fault), "{new}");
        }
    }
}
