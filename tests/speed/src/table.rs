//! One row for each input: times of all sides, and the first side's as multiples of the others'.

use crate::timing::{Side, Times};

pub fn print_head<S>(sides: &[Side<S>]) {
    print!("{:28} {:>9} {:>9}", "input", "bytes", "tokens");
    for side in sides {
        print!("  {:>21}", side.name);
    }
    for side in &sides[1..] {
        print!("  {:>21}", format!("{}/{}", sides[0].name, side.name));
    }
    println!();
}

pub fn print_row(name: &str, bytes: usize, tokens: u64, times: &[Times]) {
    print!("{name:28} {bytes:9} {tokens:9}");
    for Times { least, median } in times {
        print!("  {least:10.1} {median:10.1}");
    }
    for other in &times[1..] {
        let ratios = (times[0].least / other.least, times[0].median / other.median);
        print!("  {:10.2} {:10.2}", ratios.0, ratios.1);
    }
    println!();
}
