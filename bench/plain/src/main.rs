//! `plain MODE COUNT` loads or writes the problem file on standard input COUNT times, and
//! `plain validate COUNT FILE` validates the plan in the file so many times.

mod plan;
mod problem;
mod state;
mod validation;

use problem::{Fault, Problem};
use state::BitState;
use std::env;
use std::error::Error;
use std::fs::File;
use std::hint::black_box;
use std::io::{self, Read};
use validation::Limits;

/// How much of a file is judged.
const JUDGED: u64 = 65_536;

/// The greatest limits.
const LIMITS: Limits = Limits {
    levels: 32,
    rows: 2_000,
};

/// Loads the text `count` times, each problem in place of the one before; the bytes loaded.
fn load(text: &[u8], count: u64) -> Result<u64, Fault> {
    let mut bytes = 0;
    let mut problem = None;
    for _ in 0..count {
        problem = Some(Problem::load(black_box(text))?);
        black_box(&problem);
        bytes += text.len() as u64;
    }
    drop(problem);
    Ok(bytes)
}

/// Writes the text's problem `count` times; the bytes written.
fn write(text: &[u8], count: u64) -> Result<u64, Fault> {
    let problem = Problem::load(text)?;
    let mut out = vec![0; JUDGED as usize];
    let mut bytes = 0;
    for _ in 0..count {
        let length = black_box(&problem)
            .write(&mut out)
            .expect("no text of a problem is longer");
        black_box(&out);
        bytes += length as u64;
    }
    Ok(bytes)
}

/// Validates the plan `count` times on one state; the rows that passed.
fn validate(text: &[u8], plan: &[u8], count: u64) -> Result<u64, String> {
    let problem = Problem::load(text).map_err(|fault| line("shop", fault))?;
    let plan = plan::load(plan, &problem).map_err(|fault| line("list", fault))?;
    let mut state = BitState::default();
    let mut rows = 0;
    for _ in 0..count {
        let passed =
            validation::validate(black_box(&problem), black_box(&plan), LIMITS, &mut state)
                .map_err(|refusal| format!("fail={},{}", refusal.question, refusal.row))?;
        black_box(&state);
        rows += passed as u64;
    }
    Ok(rows)
}

/// What is printed of a fault.
fn line(subject: &str, fault: Fault) -> String {
    let Fault {
        question,
        line,
        byte,
    } = fault;
    format!("fault={subject},{question},{line},{byte}")
}

fn read(source: impl Read) -> io::Result<Vec<u8>> {
    let mut text = Vec::new();
    source.take(JUDGED).read_to_end(&mut text)?;
    Ok(text)
}

fn main() -> Result<(), Box<dyn Error>> {
    let args: Vec<String> = env::args().skip(1).collect();
    let args: Vec<&str> = args.iter().map(String::as_str).collect();
    let [mode, count, ref files @ ..] = args[..] else {
        return Err("usage: plain load|write COUNT, or plain validate COUNT FILE".into());
    };
    let count: u64 = count.parse()?;
    let text = read(io::stdin().lock())?;

    let (counted, rounds) = match (mode, files) {
        ("load", []) => ("bytes", load(&text, count).map_err(|f| line("shop", f))),
        ("write", []) => ("bytes", write(&text, count).map_err(|f| line("shop", f))),
        ("validate", [file]) => {
            let plan = read(File::open(file)?)?;
            ("rows", validate(&text, &plan, count))
        }
        _ => return Err("the mode is load or write, or validate with a file".into()),
    };
    match rounds {
        Ok(sum) => println!("{mode}={count}\n{counted}={sum}"),
        Err(refused) => println!("{refused}"),
    }
    Ok(())
}
