//! bloat FILE [N]: prints how many bytes the functions of a program take, by crate and by generic function, the N greatest of
//! each, by default 20. The sum is below the size of the sections with code: padding between functions, and code without a function
//! symbol, count for none.

use binfarce::figures::Key;
use binfarce::{Selection, SymbolTable, Tables};
use std::{cmp::Reverse, env, error::Error, fs::File};

fn main() -> Result<(), Box<dyn Error>> {
    let mut words = env::args().skip(1);
    let path = words.next().ok_or("usage: bloat FILE [N]")?;
    let most = words.next().map_or(Ok(20), |n| n.parse())?;
    let tables = Tables::read(File::open(path)?, Selection::All, SymbolTable::Symtab)?;
    for (what, key) in [("crate", Key::Crate), ("function", Key::Generic)] {
        let mut sums = tables.sums_by_key(key)?;
        println!("{} bytes of functions by {what}:", sums.total);
        sums.rows.sort_by_key(|row| Reverse(row.1));
        for (name, size) in sums.rows.iter().take(most) {
            println!("{size:>10} {:5.1}% {name}", 100.0 * *size as f64 / sums.total as f64);
        }
    }
    Ok(())
}
