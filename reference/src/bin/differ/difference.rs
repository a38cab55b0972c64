//! A difference that was found: what it is, and a file with the input that shows it.

use crate::programs::Engine;
use reference::compare::clients::Difference;
use reference::compare::ranked::Ranked;
use reference::compare::{Case, Subject};
use reference::conversions::{self, Conversion};
use reference::exported::{Call, Lent};
use reference::make::Sheets;
use reference::plain::transaction::Transaction;
use reference::replay::{replay, Layout};
use std::fs;
use std::path::PathBuf;

/// Says how the engine departs from what a case expects.
pub fn told(seed: u64, case: &Case) -> String {
    match case {
        Case::Replay { layout, input, .. } => {
            let prefix = least_prefix(*layout, input);
            let (output, expected) = (Engine.replay(*layout, prefix), replay(*layout, prefix));
            of_program(seed, prefix, &output, &expected)
        }
        Case::Visit { input, expected } => {
            of_program(seed, input, &Engine.visitor(input), expected)
        }
        Case::Call {
            call,
            lent,
            answer,
            after,
        } => of_call(call, lent, *answer, after),
        Case::Rank(ranked) => of_rank(ranked),
        Case::Clients(history) => match history.difference(&Engine) {
            Some(difference) => of_clients(&difference),
            None => "clients with lists: no difference when made again".into(),
        },
        Case::Written {
            sheets,
            lines,
            answer,
            told,
        } => of_written(sheets, lines, *answer, told),
        Case::Convert {
            conversion,
            lent,
            answer,
            after,
        } => of_conversion(*conversion, lent, *answer, after),
    }
}

fn of_call(call: &Call, lent: &Lent, answer: u64, after: &Lent) -> String {
    let mut left = lent.clone();
    let answered = Engine.call(call, &mut left);
    let lists = of_lists(&after.list, &left.list);
    let (plain, engine) = (&after.sheets, left.sheets);
    format!(
        "{call:?}\nplain answers {answer}, the engine {answered}; {lists}\n\
         plain leaves\n{plain}\nthe engine leaves\n{engine}"
    )
}

fn of_written(sheets: &[Sheets; 2], lines: &[u32], answer: u32, told: &[u32]) -> String {
    let [before, after] = sheets;
    let mut left = lines.to_vec();
    let answered = Engine.written(before, after, &mut left);
    format!(
        "written, with the lines {lines:?}\nplain answers {answer} and {told:?}, the engine {answered} and {left:?}\n\
         before\n{before}\nafter\n{after}"
    )
}

fn of_conversion(
    conversion: Conversion,
    lent: &conversions::Lent,
    answer: u32,
    after: &conversions::Lent,
) -> String {
    let mut left = lent.clone();
    let answered = Engine.convert(conversion, &mut left);
    format!(
        "{conversion:?} of {lent:?}\nplain answers {answer}, the engine {answered}\n\
         plain leaves\n{after:?}\nthe engine leaves\n{left:?}"
    )
}

fn of_rank(ranked: &Ranked) -> String {
    let Ranked {
        sheets,
        key,
        target,
        answer,
        told,
    } = ranked;
    let (answered, left) = ranked.made(&Engine);
    format!(
        "rank of {key:?}, with the target {target:?}\nplain answers {answer} and {told:?}, the engine {answered} and {left:?}\n{sheets}"
    )
}

/// The first call of clients with lists that departs.
fn of_clients(difference: &Difference) -> String {
    let Difference {
        place,
        expected,
        made,
    } = difference;
    let lists = of_lists(&expected.list, &made.lent.list);
    format!(
        "call {place} of clients with lists, by client {}: {:?}\nplain answers {}, the engine {}; {lists}\n\
         plain tells {:?}, the engine {:?}\nplain leaves\n{}\nthe engine leaves\n{}",
        expected.client,
        expected.call,
        expected.answer,
        made.answer,
        expected.written,
        made.written,
        expected.sheets,
        made.lent.sheets,
    )
}

/// The first transaction in which two lists of one length differ.
fn of_lists(plain: &[Transaction], engine: &[Transaction]) -> String {
    let mut pairs = plain.iter().zip(engine).enumerate();
    match pairs.find(|(_, (one, other))| one != other) {
        Some((place, (one, other))) => {
            format!("in the list at {place}\nplain has {one:?}\nthe engine has {other:?}")
        }
        None => "the lists are equal".into(),
    }
}

/// A prefix that shows a difference of a replay program and mostly wouldn't without its last line. It is found by halves,
/// since answers stay in the output of a longer prefix.
fn least_prefix(layout: Layout, input: &[u8]) -> &[u8] {
    let shows = |end: usize| {
        let prefix = &input[..end];
        Engine.replay(layout, prefix) != Ok(replay(layout, prefix))
    };
    let line_ends = (1..input.len()).filter(|end| input[end - 1] == b'\n');
    let ends: Vec<usize> = line_ends.chain([input.len()]).collect();
    let (mut low, mut high) = (0, ends.len() - 1);
    while low < high {
        let middle = (low + high) / 2;
        if shows(ends[middle]) {
            high = middle;
        } else {
            low = middle + 1;
        }
    }
    &input[..ends[high]]
}

/// What differs in a program's output, and in which file the input is kept.
fn of_program(
    seed: u64,
    input: &[u8],
    output: &Result<Vec<u8>, String>,
    expected: &[u8],
) -> String {
    let kept = match keep(seed, input) {
        Ok(path) => path.display().to_string(),
        Err(error) => format!("no file, {error}"),
    };
    let differs = match output {
        Ok(output) => first_line_that_differs(output, expected),
        Err(failure) => failure.clone(),
    };
    format!("{differs}\nthe input is kept in {kept}")
}

fn keep(seed: u64, input: &[u8]) -> std::io::Result<PathBuf> {
    let folder = PathBuf::from(env!("CARGO_MANIFEST_DIR")).join("target/differ");
    fs::create_dir_all(&folder)?;
    let path = folder.join(format!("seed-{seed}.txt"));
    fs::write(&path, input)?;
    Ok(path)
}

fn first_line_that_differs(output: &[u8], expected: &[u8]) -> String {
    let lines = |text: &[u8]| -> Vec<String> {
        let lines = text.split_inclusive(|byte| *byte == b'\n');
        lines.map(|line| line.escape_ascii().to_string()).collect()
    };
    let (output, expected) = (lines(output), lines(expected));
    let longer = output.len().max(expected.len());
    let differs = (0..longer).find(|i| output.get(*i) != expected.get(*i));
    let Some(place) = differs else {
        return "no line differs".into();
    };
    let line = |lines: &[String]| lines.get(place).cloned().unwrap_or("no line".into());
    format!(
        "output line {}\n  plain  {}\n  engine {}",
        place + 1,
        line(&expected),
        line(&output)
    )
}
