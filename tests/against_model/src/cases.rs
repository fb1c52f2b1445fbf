//! The named cases of cases.txt: every difference ever found, and the paper's sessions, with the answers expected of both sides.

use crate::pair::Pair;
use crate::told;

const CASES: &str = include_str!("../cases.txt");

/// How many cases there are, and what failed.
pub fn replay() -> (usize, Vec<String>) {
    let mut failures = Vec::new();
    let mut cases = 0;
    let mut name = "";
    let mut pair = Pair::fresh(None);
    for (n, line) in CASES.lines().enumerate() {
        let line = line.split('#').next().unwrap_or("").trim();
        if let Some(new) = line.strip_prefix("case ") {
            (name, pair) = (new, Pair::fresh(None));
            cases += 1;
        } else if !line.is_empty() {
            if let Err(failure) = follow(line, &mut pair) {
                failures.push(format!("cases.txt:{}: {name}: {line}: {failure}", n + 1));
            }
        }
    }
    (cases, failures)
}

fn follow(line: &str, pair: &mut Pair) -> Result<(), String> {
    if let Some(expected) = line.strip_prefix("image ") {
        let image = told::hex(&pair.library);
        return if image == expected { Ok(()) } else { Err(format!("is {image}")) };
    }
    let (text, expected) = line.split_once(" -> ").unwrap_or((line, ""));
    let call = told::call_of(text.trim()).ok_or("not understood")?;
    let outcome = pair.call(call).map_err(|difference| told::text_of_difference(&difference))?;
    let got = told::text_of_outcome(&call, &outcome);
    if expected.is_empty() || expected.trim() == got {
        Ok(())
    } else {
        Err(format!("is {got}"))
    }
}
