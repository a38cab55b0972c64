//! The visiting program over the plain calls, from which the stored outputs of `tests/visitor` come.

use reference::plain::visitor::output;
use std::io::{stdin, stdout, Read, Write};

fn main() -> std::io::Result<()> {
    let mut input = Vec::new();
    stdin().read_to_end(&mut input)?;
    stdout().write_all(&output(&input))
}
