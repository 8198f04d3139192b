//! The peer in the program's place: so that a driver can be tried without the proved program.

use std::io::{self, Read, Write};

fn main() -> io::Result<()> {
    let mut text = Vec::new();
    io::stdin().read_to_end(&mut text)?;
    io::stdout().write_all(&peer::answer::answer(&text))
}
