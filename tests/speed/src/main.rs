//! Times the proved lexer against a plain Rust lexer and the reference lexer, and the exported
//! call of the reader against the reference parser and against a plain copy; and the parts of the
//! call against each other.

mod inputs;
mod lexers;
mod parts;
mod readers;
mod table;
mod timing;

fn main() {
    println!("times in microseconds: least and median");
    lexers::run();
    println!();
    if exported::LINKED {
        readers::run();
        println!();
        parts::run();
    } else {
        println!("{}: the reader is left out", exported::MISSING);
    }
}
