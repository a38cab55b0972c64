//! Times the engine beside `fast`, on the same sheets in one run, and how each call grows with the sheets; beside itself in
//! other calls for the same order, and on two sheets beside the joined one. Adding and removing stand beside the check of
//! `fast` and a move of the sheet's bytes too: they are to take at most twice that.
//!
//! `bench [file]` prints nanoseconds and ratios and draws them to the file if one is named. Times aren't judged.

mod cases;
#[path = "../engine/mod.rs"]
mod engine;
mod plot;
mod timing;

use cases::{check_and_move, Case, Make, BESIDE_MOVE, CASES, LINES, ON_TWO};
use engine::calls::by_engine;
use reference::exported::by_fast;
use reference::make::random::Random;
use reference::replay::Layout;
use std::process::ExitCode;
use timing::{Cell, Side, Times};

const ENGINE: Make = by_engine;
const BASELINE: Make = by_fast;
const MOVE: Make = check_and_move;
const RUNS: usize = 101;

/// The name of what the baseline took.
const BESIDE_BASELINE: &str = "baseline";

/// A case by the engine, and what is held beside it.
struct Row {
    name: &'static str,
    engine: Side,
    beside: &'static str,
    other: Side,
    /// Whether both sides do the same work.
    alike: bool,
}

/// Each case beside the baseline; adding and removing beside the least that they can take; the close beside the engine's own
/// calls for the same order; and calls on two sheets beside the same on the joined sheet.
fn rows() -> Vec<Row> {
    let side = |case, make, layout| Side { case, make, layout };
    let beside_baseline = |(case, name): &(Case, &'static str)| Row {
        name,
        engine: side(*case, ENGINE, Layout::Joined),
        beside: BESIDE_BASELINE,
        other: side(*case, BASELINE, Layout::Joined),
        alike: true,
    };
    let beside_move = |(case, name): &(Case, &'static str)| Row {
        beside: "move",
        other: side(*case, MOVE, Layout::Joined),
        alike: false,
        ..beside_baseline(&(*case, *name))
    };
    let close = Row {
        name: "whole transaction, begin, close",
        engine: side(Case::Close, ENGINE, Layout::Joined),
        beside: "19 calls",
        other: side(Case::Transaction, ENGINE, Layout::Joined),
        alike: true,
    };
    let on_two = |(case, name): &(Case, &'static str)| Row {
        name,
        engine: side(*case, ENGINE, Layout::Two),
        beside: "joined",
        other: side(*case, ENGINE, Layout::Joined),
        alike: true,
    };
    let rows = CASES.iter().map(beside_baseline);
    let rows = rows.chain(BESIDE_MOVE.iter().map(beside_move));
    let rows = rows.chain([close]);
    rows.chain(ON_TWO.iter().map(on_two)).collect()
}

impl Row {
    /// The row at each number of lines.
    fn cells(&self) -> Vec<Cell> {
        let mut random = Random::new(1);
        let sides = [self.engine, self.other];
        let cell = |lines: &usize| {
            let lent = self.engine.case.lent(&mut random, *lines);
            Cell::new(sides, self.alike, &lent)
        };
        LINES.iter().map(cell).collect()
    }
}

/// A case with its times at each number of lines.
pub struct Measured {
    case: Case,
    name: &'static str,
    beside: &'static str,
    times: Vec<Times>,
}

impl Measured {
    /// Whether the row is drawn too.
    fn is_drawn(&self) -> bool {
        self.beside == BESIDE_BASELINE && self.case.has_every_state()
    }
}

fn measure() -> Vec<Measured> {
    let rows = rows();
    let mut cells: Vec<Vec<Cell>> = rows.iter().map(Row::cells).collect();
    for _ in 0..RUNS {
        for cell in cells.iter_mut().flatten() {
            cell.turn();
        }
    }
    let measured = |(row, cells): (Row, Vec<Cell>)| Measured {
        case: row.engine.case,
        name: row.name,
        beside: row.beside,
        times: cells.iter().map(Cell::times).collect(),
    };
    rows.into_iter().zip(cells).map(measured).collect()
}

fn print_row(name: &str, side: &str, values: impl Iterator<Item = String>) {
    let values: String = values.map(|value| format!("{value:>9}")).collect();
    println!("{name:<32} {side:<9}{values}");
}

fn print_case(row: &Measured) {
    let rounded = |time: f64| format!("{time:.0}");
    let times = &row.times;
    print_row(row.name, "engine", times.iter().map(|t| rounded(t.engine)));
    print_row("", row.beside, times.iter().map(|t| rounded(t.other)));
    print_row("", "ratio", times.iter().map(|t| format!("{:.2}", t.ratio)));
}

fn main() -> ExitCode {
    let measured = measure();
    let head = LINES.iter().map(usize::to_string);
    print_row("nanoseconds at record lines", "", head);
    for row in &measured {
        print_case(row);
    }
    let Some(file) = std::env::args().nth(1) else {
        return ExitCode::SUCCESS;
    };
    match std::fs::write(&file, plot::picture(&measured)) {
        Ok(()) => ExitCode::SUCCESS,
        Err(error) => {
            eprintln!("{file}: {error}");
            ExitCode::FAILURE
        }
    }
}
