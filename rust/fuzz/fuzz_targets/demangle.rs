//! A name's readable forms: all calls agree, and a demangler that was used before answers as a new one.
#![no_main]

use binfarce::demangle::{Demangler, Kind, SymbolName, demangle, trimmed};
use std::cell::RefCell;

thread_local! {
    static USED: RefCell<Demangler> = RefCell::new(Demangler::new());
}

fn check(name: &str) {
    let all = SymbolName::demangle(name);
    let seen = demangle(name);
    match all.kind {
        // A v0 name beyond the limits is known by its form alone.
        Kind::Unknown => assert!(all.complete == name && all.trimmed == name && seen.kind() != Kind::Legacy),
        kind => assert_eq!(seen.kind(), kind),
    }
    assert!(name.contains(seen.part()));
    assert_eq!(trimmed(name).unwrap(), all.trimmed);
    assert_eq!((seen.to_string(), format!("{seen:#}")), (all.complete.clone(), all.trimmed.clone()));
    let crate_name = Demangler::new().crate_of(name).unwrap();
    if all.kind != Kind::Legacy {
        assert_eq!(crate_name, all.crate_name);
    }
    USED.with(|used| {
        let (mut used, mut text) = (used.borrow_mut(), String::from("-"));
        used.push_complete(&mut text, name).unwrap();
        used.push_trimmed(&mut text, name).unwrap();
        assert_eq!(used.push_crate(&mut text, name).unwrap(), crate_name.is_some());
        let crate_name = crate_name.unwrap_or_default();
        assert!(text.strip_prefix('-').unwrap() == [&*all.complete, &*all.trimmed, &*crate_name].concat());
        assert_eq!(used.demangle(name).unwrap(), all);
    });
}

binfarce_fuzz::fuzz_target!(|data| {
    if let Ok(name) = std::str::from_utf8(data) {
        check(name);
    }
});
