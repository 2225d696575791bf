//! Validation by the rules of docs/RULES.md: whether a plan is a solution of a problem.

use crate::plan::Row;
use crate::problem::Problem;
use crate::state::State;

#[derive(Clone, Copy)]
pub struct Limits {
    pub levels: u8,
    pub rows: u16,
}

/// The number of the question that was answered no, and the row; 0 for the plan as a whole.
#[derive(Clone, Copy, Debug, PartialEq, Eq)]
pub struct Refusal {
    pub question: u8,
    pub row: usize,
}

struct OpenTask {
    task: u16,
    level: u8,
}

/// The number of rows where the plan is a solution. The start facts are left on the state once
/// the numbers of all rows are known to be in range.
pub fn validate<S: State>(
    problem: &Problem,
    rows: &[Row],
    limits: Limits,
    state: &mut S,
) -> Result<usize, Refusal> {
    let whole = |question| Err(Refusal { question, row: 0 });
    if !(1..=32).contains(&limits.levels) {
        return whole(10);
    }
    if !(1..=2_000).contains(&limits.rows) {
        return whole(11);
    }
    if state.size() < problem.facts {
        return whole(12);
    }
    if rows.len() > usize::from(limits.rows) {
        return whole(21);
    }
    if let Some(i) = rows.iter().position(|&row| !known(problem, row)) {
        return Err(Refusal {
            question: 4,
            row: i + 1,
        });
    }
    put_start(problem, state);
    let answer = follow(problem, rows, limits.levels, state);
    put_start(problem, state);
    answer.map(|()| rows.len())
}

fn known(problem: &Problem, row: Row) -> bool {
    match row {
        Row::By(method) => usize::from(method) < problem.methods.len(),
        Row::Do(operator) => usize::from(operator) < problem.operators.len(),
    }
}

/// Follows the rows from the start facts.
fn follow<S: State>(
    problem: &Problem,
    rows: &[Row],
    levels: u8,
    state: &mut S,
) -> Result<(), Refusal> {
    // The first open task is the last entry.
    let mut open = Vec::new();
    put_before(&mut open, &problem.first, 1);
    if open.len() > rows.len() {
        return Err(Refusal {
            question: 20,
            row: 0,
        });
    }
    for (i, &row) in rows.iter().enumerate() {
        let refused = |question| Refusal {
            question,
            row: i + 1,
        };
        let OpenTask { task, level } = open.pop().ok_or(refused(16))?;
        match row {
            Row::Do(number) => {
                let operator = &problem.operators[usize::from(number)];
                if task != number {
                    return Err(refused(17));
                }
                if !hold(state, &operator.yes, &operator.no) {
                    return Err(refused(18));
                }
                set_all(state, &operator.del, false);
                set_all(state, &operator.add, true);
            }
            Row::By(number) => {
                let method = &problem.methods[usize::from(number)];
                if task != method.task {
                    return Err(refused(17));
                }
                if !hold(state, &method.yes, &method.no) {
                    return Err(refused(18));
                }
                if !method.sub.is_empty() && level >= levels {
                    return Err(refused(19));
                }
                put_before(&mut open, &method.sub, level + 1);
            }
        }
        if open.len() > rows.len() - (i + 1) {
            return Err(refused(20));
        }
    }
    Ok(())
}

fn put_before(open: &mut Vec<OpenTask>, tasks: &[u16], level: u8) {
    open.extend(tasks.iter().rev().map(|&task| OpenTask { task, level }));
}

fn hold<S: State>(state: &S, yes: &[u16], no: &[u16]) -> bool {
    let holds = |&fact: &u16| state.get(fact) == Some(true);
    yes.iter().all(holds) && !no.iter().any(holds)
}

fn put_start<S: State>(problem: &Problem, state: &mut S) {
    for fact in 0..problem.facts {
        let _ = state.set(fact, false);
    }
    set_all(state, &problem.start, true);
}

/// No fact of a problem is beyond a state that is large enough, so none is refused.
fn set_all<S: State>(state: &mut S, facts: &[u16], value: bool) {
    for &fact in facts {
        let _ = state.set(fact, value);
    }
}

#[cfg(test)]
mod tests {
    use super::*;
    use crate::state::BitState;

    const SHOP: &[u8] = include_bytes!("../../../crates/inspect/stdin");
    const PLAN: [Row; 5] = [Row::By(1), Row::Do(0), Row::By(0), Row::Do(1), Row::Do(2)];

    fn answer(rows: &[Row], levels: u8, most: u16) -> Result<usize, (u8, usize)> {
        let problem = Problem::load(SHOP).unwrap();
        let mut state = BitState::default();
        let limits = Limits { levels, rows: most };
        validate(&problem, rows, limits, &mut state).map_err(|r| (r.question, r.row))
    }

    #[test]
    fn answers_the_worked_cases() {
        let more: Vec<Row> = PLAN.into_iter().chain([Row::Do(2)]).collect();
        assert_eq!(answer(&PLAN, 3, 5), Ok(5));
        assert_eq!(answer(&PLAN, 2, 5), Err((19, 3)));
        assert_eq!(answer(&PLAN, 3, 4), Err((21, 0)));
        assert_eq!(answer(&PLAN[..4], 3, 5), Err((20, 3)));
        assert_eq!(answer(&more, 3, 6), Err((16, 6)));
        assert_eq!(answer(&[Row::Do(0)], 3, 5), Err((17, 1)));
        assert_eq!(answer(&PLAN[2..], 3, 5), Err((18, 1)));
        assert_eq!(answer(&[Row::By(2)], 3, 5), Err((4, 1)));
        assert_eq!(answer(&[], 3, 5), Err((20, 0)));
    }

    #[test]
    fn asks_the_limits_first() {
        assert_eq!(answer(&[Row::By(2)], 0, 0), Err((10, 0)));
        assert_eq!(answer(&[Row::By(2)], 33, 5), Err((10, 0)));
        assert_eq!(answer(&[Row::By(2)], 32, 2_001), Err((11, 0)));
    }

    #[test]
    fn leaves_the_start_facts_and_those_beyond() {
        let problem = Problem::load(SHOP).unwrap();
        for (rows, held) in [
            (&PLAN[..], false),
            (&PLAN[2..], false),
            (&[Row::By(2)], true),
        ] {
            let mut state = BitState::default();
            for fact in [1, 3, 255] {
                state.set(fact, true).unwrap();
            }
            let limits = Limits { levels: 3, rows: 5 };
            let _ = validate(&problem, rows, limits, &mut state);
            assert_eq!(state.get(1), Some(held));
            assert_eq!(state.get(2), Some(false));
            assert_eq!((state.get(3), state.get(255)), (Some(true), Some(true)));
        }
    }
}
