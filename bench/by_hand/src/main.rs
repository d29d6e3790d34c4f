//! The generator's analysis (`docs/FORMATS.md`) as a program of its own, to race `rdf` against:
//!
//!     by_hand TABLE [THREADS] [CLUSTER]
//!
//! It knows its script and its table's columns, and prints the lines that `rdf` prints for them.
//! Nothing in it is proved.
mod analysis;
mod table;

use std::error::Error;
use std::io::Write;

const USAGE: &str = "usage: by_hand TABLE [THREADS] [CLUSTER]";

fn main() -> Result<(), Box<dyn Error>> {
    let mut words = std::env::args().skip(1);
    let name = words.next().ok_or(USAGE)?;
    let threads = words.next().map_or(Ok(1), |word| word.parse())?;
    let cluster = words.next().map_or(Ok(10_000), |word| word.parse())?;
    if threads == 0 || cluster == 0 || words.next().is_some() {
        return Err(USAGE.into());
    }
    let table = table::read(&name)?;
    let text = analysis::run(&table, threads, cluster).lines();
    std::io::stdout().write_all(text.as_bytes())?;
    Ok(())
}
