//! Counts the instructions of the exported calls on sources of n and of 2n bytes. Where the time is
//! linear, the second count is about twice the first. Names that are as long as no word take as
//! many instructions whatever their letters. `--beside` counts both calls on one source instead.

mod beside;
mod broken;
mod callgrind;
mod limits;
mod lines;
mod measure;
mod names;
mod table;

use std::{env, process::ExitCode};

use callgrind::Counted;
use measure::{Family, Measure, Row, families};
use table::Table;

const USAGE: &str = "usage: growth [--size N] [--only WORD] [--markdown] [--program PATH FUNCTION]
       growth --beside [--size N] [--markdown]";

/// A greater ratio shows that the time is not linear.
const GREATEST: f64 = 2.1;

/// How many families are measured at a time.
const TOGETHER: usize = 2;

/// The program that makes an exported call.
const ONE_CALL: &str = "one_call";

/// The exported calls.
const READING: &str = "masm_parse_text";
const LINES: &str = "masm_lines";

struct Options {
    /// The n.
    size: usize,
    /// Only families with this in their names.
    only: String,
    markdown: bool,
    /// Whether both calls are counted on one source, not one on two sizes.
    beside: bool,
    /// Counted in place of the exported calls.
    program: Option<Counted>,
}

fn main() -> ExitCode {
    let mut options = Options {
        size: 65_536,
        only: String::new(),
        markdown: false,
        beside: false,
        program: None,
    };
    if read(&mut options, env::args().skip(1)).is_none() {
        eprintln!("{USAGE}");
        return ExitCode::from(2);
    }
    if !callgrind::is_there() {
        eprintln!("growth: valgrind, which counts the instructions, is not on this machine");
        return ExitCode::from(2);
    }
    match run(options) {
        Ok(0) => ExitCode::SUCCESS,
        Ok(_) => ExitCode::FAILURE,
        Err(trouble) => {
            eprintln!("growth: {trouble}");
            ExitCode::FAILURE
        },
    }
}

/// Nothing if the words are not understood.
fn read(options: &mut Options, mut words: impl Iterator<Item = String>) -> Option<()> {
    while let Some(word) = words.next() {
        match word.as_str() {
            "--size" => options.size = words.next()?.parse().ok()?,
            "--only" => options.only = words.next()?,
            "--markdown" => options.markdown = true,
            "--beside" => options.beside = true,
            "--program" => {
                let (program, function) = (words.next()?.into(), words.next()?);
                options.program = Some(Counted { program, function });
            },
            _ => return None,
        }
    }
    Some(())
}

/// Prints the tables; how many families grow too fast, one more where names are not told by their
/// lengths, and one more where a limit is the same as another.
fn run(options: Options) -> Result<usize, String> {
    if options.beside {
        let [reading, lines] = [exported_call(READING)?, exported_call(LINES)?];
        beside::print(&reading, &lines, options.size, options.markdown)?;
        return Ok(0);
    }
    let mut rows = table(&options, READING, "tokens", families().collect())?;
    rows.extend(table(&options, LINES, "offsets", lines::families().into())?);
    let fast = rows.iter().filter(|row| row.ratio() > GREATEST).count();
    let unlike = names::unlike(&rows);
    if let Some(counts) = unlike {
        println!(
            "growth: names of no word's length take {counts:?} instructions, by their letters"
        );
    }
    let ignored = limits::ignored(&rows);
    if ignored {
        println!("growth: a script takes as many instructions at limit 1 as at 64");
    }
    println!("growth: {} families, {fast} above {GREATEST}", rows.len());
    Ok(fast + usize::from(unlike.is_some()) + usize::from(ignored))
}

/// Prints the table of one call, if families of it are chosen; its rows.
fn table(
    Options { size, only, markdown, program, .. }: &Options,
    call: &str,
    counted: &str,
    mut families: Vec<Family>,
) -> Result<Vec<Row>, String> {
    families.retain(|family| family.name.contains(only));
    if families.is_empty() {
        return Ok(Vec::new());
    }
    let program = program.clone().map_or_else(|| exported_call(call), Ok)?;
    let measure = Measure { counted: program, sizes: [*size, 2 * size] };
    let table = Table { markdown: *markdown, greatest: GREATEST };
    table.print_head(counted, measure.sizes);
    let mut rows = Vec::new();
    for families in families.chunks(TOGETHER) {
        for row in measure.rows(families) {
            let row = row?;
            table.print(&row);
            rows.push(row);
        }
    }
    Ok(rows)
}

/// A call in the archive, made by the program that is built beside this one.
fn exported_call(function: &str) -> Result<Counted, String> {
    if !exported::LINKED {
        return Err(exported::MISSING.to_string());
    }
    let growth = env::current_exe().map_err(|error| error.to_string())?;
    let program = growth.with_file_name(ONE_CALL);
    if !program.exists() {
        return Err(format!("{ONE_CALL} is not built"));
    }
    Ok(Counted { program, function: function.to_string() })
}
