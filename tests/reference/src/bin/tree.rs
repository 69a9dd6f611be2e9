//! Prints the tree of standard input as program `tree` does.

use std::io::{self, Read, Write};

use reference::{MAX_CONTROL_FLOW_NESTING, tree::tree};

fn main() -> io::Result<()> {
    let mut source = Vec::new();
    io::stdin().read_to_end(&mut source)?;
    io::stdout().write_all(&tree(MAX_CONTROL_FLOW_NESTING, &source))
}
