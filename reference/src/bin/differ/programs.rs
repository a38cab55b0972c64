//! The engine as it is built: its programs, one process for each input, and its functions for C in this process.

use crate::engine::calls;
use crate::engine_conversions;
use crate::engine_rank;
use crate::engine_written;
use reference::compare::Subject;
use reference::conversions::{self, Conversion};
use reference::exported::{Call, Lent};
use reference::make::Sheets;
use reference::plain::key::Key;
use reference::replay::laid_out::LaidOut;
use reference::replay::Layout;
use std::env;
use std::io::Write;
use std::path::{Path, PathBuf};
use std::process::{Command, Stdio};
use std::thread;

/// A folder that has the programs, in place of the repository's own.
const FOLDER: &str = "RAPYHEO_PROGRAMS_DIR";

pub struct Engine;

impl Subject for Engine {
    fn replay(&self, layout: Layout, input: &[u8]) -> Result<Vec<u8>, String> {
        let program = match layout {
            Layout::Joined => "replay",
            Layout::Two => "replay_two",
        };
        run(&path(program), input)
    }

    fn visitor(&self, input: &[u8]) -> Result<Vec<u8>, String> {
        run(&path("visitor"), input)
    }

    fn call(&self, call: &Call, lent: &mut Lent) -> u64 {
        calls::by_engine(call, lent)
    }

    fn convert(&self, conversion: Conversion, lent: &mut conversions::Lent) -> u32 {
        engine_conversions::by_engine(conversion, lent)
    }

    fn written(&self, before: &Sheets, after: &Sheets, lines: &mut [u32]) -> u32 {
        engine_written::by_engine(before, after, lines)
    }

    fn rank(&self, sheets: &LaidOut, key: Key, target: &mut [u32]) -> u32 {
        engine_rank::by_engine(sheets, key, target)
    }
}

/// Where the program of this name lies.
fn path(name: &str) -> PathBuf {
    let folder = match env::var_os(FOLDER) {
        Some(folder) => PathBuf::from(folder),
        None => PathBuf::from(env!("CARGO_MANIFEST_DIR")).join("../target/bin"),
    };
    folder.join(name)
}

/// The whole output for an input, or how the program failed.
fn run(program: &Path, input: &[u8]) -> Result<Vec<u8>, String> {
    let failed = |error: std::io::Error| format!("{}: {error}", program.display());
    let mut child = Command::new(program)
        .stdin(Stdio::piped())
        .stdout(Stdio::piped())
        .spawn()
        .map_err(failed)?;
    let mut stdin = child.stdin.take().expect("a pipe");
    let output = thread::scope(|scope| {
        // A program may leave the rest of an input unread, so that writing fails.
        scope.spawn(move || stdin.write_all(input));
        child.wait_with_output()
    });
    let output = output.map_err(failed)?;
    match output.status.success() {
        true => Ok(output.stdout),
        false => Err(format!("{}: {}", program.display(), output.status)),
    }
}
