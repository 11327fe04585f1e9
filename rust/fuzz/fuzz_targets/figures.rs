//! Sums of sizes by each key: they add up, and count each byte once.
#![no_main]

use binfarce::figures::{Figures, Grouping, Key, Layout, Order, Shown};
use binfarce::{Selection, SymbolTable, Tables};
use binfarce_fuzz::{Row, elf, rows};

fn tables(file: &[u8]) -> Tables<'_> {
    Tables::new(file, Selection::Section(".text"), SymbolTable::Symtab).unwrap()
}

/// How many bytes have a function symbol.
fn covered(rows: &[Row]) -> u64 {
    let mut ranges = rows.iter().map(|(_, address, size)| (*address, address + size)).collect::<Vec<_>>();
    ranges.sort_unstable();
    let (mut sum, mut reached) = (0, 0);
    for (start, end) in ranges {
        sum += end.saturating_sub(start.max(reached));
        reached = reached.max(end);
    }
    sum
}

binfarce_fuzz::fuzz_target!(|data| {
    let rows = rows(&data[..data.len().min(5 * 64)]);
    let (old_rows, new_rows) = rows.split_at(rows.len() / 3);
    let (old_file, new_file) = (elf(old_rows), elf(new_rows));
    let (old, new) = (tables(&old_file), tables(&new_file));
    for key in [Key::Crate, Key::Function, Key::Generic, Key::Section] {
        for grouping in [Grouping::by(key), Grouping::by(key).with_std_joined()] {
            let sums = new.sums_by_key(grouping).unwrap();
            assert_eq!((sums.total, sums.section_size), (covered(new_rows), 0x20000));
            assert_eq!(sums.rows.iter().map(|row| row.1).sum::<u64>(), sums.total);
            assert!(sums.rows.windows(2).all(|two| two[0].0 < two[1].0));
            let mut text = Vec::new();
            new.figures_to(&Figures::by(grouping).with_percent(), Layout::Lines, &mut text).unwrap();
            let text = String::from_utf8(text).unwrap();
            let lines = text.lines().filter(|line| line.contains('%')).count();
            assert!(lines >= sums.rows.len().min(1) && lines <= sums.rows.len(), "{text}");
            let growth = new.changes_to(&old, &Figures::by(grouping), Layout::Lines, std::io::sink()).unwrap();
            assert_eq!((growth.old, growth.new), (covered(old_rows), covered(new_rows)));
        }
    }
    let sums = new.sums_by(|function| Ok(function.name)).unwrap();
    assert_eq!(sums.total, new_rows.iter().map(|row| row.2).sum::<u64>());
    let mut text = Vec::new();
    new.rows_to(&Shown::new().with_order(Order::Size).without_total(), Layout::Lines, &mut text).unwrap();
    let sizes = String::from_utf8(text).unwrap();
    let sizes = sizes.lines().map(|line| line[17..27].trim().parse::<u64>().unwrap()).collect::<Vec<_>>();
    assert!(sizes.len() == new_rows.len() && sizes.windows(2).all(|two| two[0] >= two[1]));
});
