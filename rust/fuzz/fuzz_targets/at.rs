//! The function at an address, by the binary search and by a search of all.
#![no_main]

use binfarce::{Selection, SymbolTable, Symbolizer, Tables, symbol_at};
use binfarce_fuzz::{elf, rows};

binfarce_fuzz::fuzz_target!(|data| {
    let Some((base, data)) = data.split_first() else { return };
    let rows = rows(&data[..data.len().min(5 * 64)]);
    let (file, base) = (elf(&rows), u64::from(*base) << 12);
    let tables = Tables::new(&file, Selection::All, SymbolTable::Symtab).unwrap();
    let functions = tables.functions().unwrap().collect::<Vec<_>>();
    assert_eq!(functions.len(), rows.len());
    let symbolizer = Symbolizer::new(&tables).unwrap().with_base(base);
    let owned = Symbolizer::new(&tables).unwrap().into_owned().unwrap().with_base(base);
    let edges = rows.iter().flat_map(|(_, address, size)| [*address, address + size, address + size / 2]);
    let edges = edges.chain([0, 1 << 16, u64::MAX >> 1]).flat_map(|it| [it.saturating_sub(1), it, it + 1]);
    for address in edges {
        let wanted = symbol_at(&functions, address).map(|function| (function, address - function.address));
        assert_eq!(symbolizer.find(base + address), wanted);
        assert_eq!(owned.find(base + address), wanted);
        let here = || symbol_at(&functions, address + 1).map(|function| (function, address + 1 - function.address));
        let of_call = wanted.map(|(function, offset)| (function, offset + 1)).or_else(here);
        assert_eq!(symbolizer.find_return(base + address + 1), of_call);
    }
    assert_eq!(symbolizer.find_return(base), symbol_at(&functions, 0).map(|function| (function, 0)));
    assert!(base == 0 || symbolizer.find(base - 1).is_none() && symbolizer.find_return(base - 1).is_none());
});
