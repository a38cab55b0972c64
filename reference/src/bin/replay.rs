//! A replay over the plain calls. Beside `replay_two` and `visitor` it stands in for the engine's programs, to try the
//! comparison itself.

use reference::replay::{replay, Layout};
use std::io::{stdin, stdout, Read, Write};

fn main() -> std::io::Result<()> {
    let mut input = Vec::new();
    stdin().read_to_end(&mut input)?;
    stdout().write_all(&replay(Layout::Joined, &input))
}
