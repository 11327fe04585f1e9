//! Each call of the shim against std's own answer, and with each of its allocations refused.

use super::alloc::{AllocError, Global};
use super::collections::BTreeMap;
use super::env::{Env, FillError};
use super::simd::u8x16;
use super::test::{printed, refusing};
use super::{CollectIn, HostRuntime, String, TrimmedAscii, Vec, env, fs, io};
use std::collections;
use std::io::{Cursor, ErrorKind, Write};
use std::path::Path;
use std::process::ExitCode;

// Numbers that look random, the same in every run.
struct Numbers(u64);

impl Numbers {
    fn below(&mut self, end: usize) -> usize {
        self.0 = self.0.wrapping_mul(6364136223846793005).wrapping_add(1442695040888963407);
        (self.0 >> 33) as usize % end
    }
}

// A call whose allocations are refused one by one: each time it gives `AllocError`, until none is refused.
fn refused_each<T>(least: usize, call: impl Fn() -> Result<T, AllocError>) -> T {
    for number in 1.. {
        let (given, was_refused) = refusing(number, &call);
        if !was_refused {
            assert!(number > least, "{} allocations", number - 1);
            return given.unwrap();
        }
        assert!(given.is_err(), "allocation {number}");
    }
    unreachable!()
}

#[test]
fn vec() {
    let mut numbers = Numbers(1);
    let (mut items, mut want) = (Vec::new(Global), std::vec::Vec::new());
    for step in 0..10_000u32 {
        let at = numbers.below(want.len() + 1);
        match numbers.below(10) {
            0..=2 => (items.push(step).unwrap(), want.push(step)).0,
            3 => (items.insert(at, step).unwrap(), want.insert(at, step)).0,
            4 => assert_eq!(items.pop(), want.pop()),
            5 => (items.truncate(at), want.truncate(at)).0,
            6 => (items.resize(at + 3, step).unwrap(), want.resize(at + 3, step)).0,
            7 => (items.extend_from_slice(&[step; 5]).unwrap(), want.extend([step; 5])).0,
            8 => (items.reserve(1).unwrap(), items.push_reserved(step), want.push(step)).0,
            _ if at == 7 => (items.clear(), want.clear()).0,
            _ => {}
        }
        assert_eq!(items.as_slice(), want, "step {step}");
        assert!(items.capacity() >= want.len());
    }
    items.as_mut_slice().reverse();
    want.reverse();
    assert_eq!(format!("{items:?}"), format!("{want:?}"));
    assert!((&items).into_iter().eq(&want));
    assert_eq!(items.into_std(), want);
}

#[test]
fn vec_refused() {
    assert_eq!(refused_each(1, || Vec::<u8>::with_capacity(Global, 9)).capacity(), 9);
    assert_eq!(*refused_each(1, || Vec::from_slice(Global, &[1, 2])), [1, 2]);
    assert_eq!(*refused_each(1, || Vec::filled(Global, 7, 3)), [7, 7, 7]);
    assert_eq!(*refused_each(3, || (0..9).collect_in(Global)), [0, 1, 2, 3, 4, 5, 6, 7, 8]);
    let grown = refused_each(1, || {
        let mut items = Vec::new(Global);
        items.push(1u8).and_then(|()| items.insert(0, 2)).map(|()| items)
    });
    assert_eq!(*grown, [2, 1]);
    let (written, _) = refusing(1, || Vec::new(Global).write(b"a").unwrap_err().kind());
    assert_eq!(written, ErrorKind::OutOfMemory);
    assert_eq!(Vec::<u64>::with_capacity(Global, usize::MAX), Err(AllocError));
    // What isn't added leaves what there is as it is.
    let mut items = Vec::from_slice(Global, &[3; 100]).unwrap();
    assert!(refusing(1, || items.push(4)).0.is_err());
    assert!(refusing(1, || items.resize(200, 4)).0.is_err());
    assert_eq!(*items, [3; 100]);
}

#[test]
fn sorting_by_key() {
    let mut numbers = Numbers(2);
    for len in (0..40).chain([1000]) {
        let want: std::vec::Vec<_> = (0..len).map(|at| (numbers.below(7), at)).collect();
        let mut sorted = refused_each(len.min(1), || {
            let mut items = Vec::from(want.clone());
            items.sort_by_key(|item| item.0).map(|()| items)
        });
        let mut want = want;
        want.sort_by_key(|item| item.0);
        assert_eq!(*sorted, want);
        sorted.sort_by_key(|item| usize::MAX - item.1).unwrap();
        want.sort_by_key(|item| usize::MAX - item.1);
        assert_eq!(*sorted, want);
    }
}

#[test]
fn string() {
    let (mut text, mut want) = (String::new(Global), std::string::String::new());
    for step in 0..2000u32 {
        let c = char::from_u32(step * 97).unwrap_or('a');
        text.push(c).unwrap();
        want.push(c);
        text.push_str("né").unwrap();
        want.push_str("né");
        write!(text, "{step:>5} {c}").unwrap();
        want += &format!("{step:>5} {c}");
        if step % 100 == 0 {
            let (at, _) = want.char_indices().nth(step as usize / 100).unwrap();
            text.truncate(at);
            want.truncate(at);
        }
        assert_eq!(text.as_str(), want);
        assert_eq!(text.as_bytes(), want.as_bytes());
    }
    assert_eq!(format!("{text} {text:?}"), format!("{want} {want:?}"));
    assert_eq!(format!("{:>4}|{:<4}", String::from(want.clone()), ""), format!("{want:>4}|{:<4}", ""));
    let bytes = Vec::from_slice(Global, text.as_bytes()).unwrap();
    assert_eq!(String::from_utf8(bytes).unwrap().into_std(), want);
    assert!(String::from_utf8(Vec::from_slice(Global, &[0xFF]).unwrap()).is_err());
    text.clear();
    assert!(text.is_empty() && text.capacity() > 0);
}

#[test]
fn string_refused() {
    assert_eq!(refused_each(1, || String::with_capacity(Global, 9)).capacity(), 9);
    assert_eq!(&*refused_each(1, || String::from_str(Global, "ab")), "ab");
    assert_eq!(&*refused_each(1, || String::formatted(Global, format_args!("{:>9}|", 12))), "       12|");
    let pushed = refused_each(1, || {
        let mut text = String::new(Global);
        text.push('é').and_then(|()| text.push_str("ab")).map(|()| text)
    });
    assert_eq!(&*pushed, "éab");
    let mut text = String::from_str(Global, "ab").unwrap();
    assert!(refusing(1, || text.push_str("a text that needs more memory")).0.is_err());
    assert!(refusing(1, || text.reserve(100)).0.is_err());
    assert_eq!(&*text, "ab");
}

#[test]
fn ordered_map() {
    for (seed, keys) in [(3, 20), (4, 300), (5, 100_000)] {
        let mut numbers = Numbers(seed);
        let (mut map, mut want) = (BTreeMap::new(Global), collections::BTreeMap::new());
        for step in 0..20_000 {
            let key = format!("{}", numbers.below(keys));
            assert_eq!(map.get(key.as_str()), want.get(&key));
            if numbers.below(3) > 0 {
                let owned = String::from_str(Global, &key).unwrap();
                assert_eq!(map.insert(owned, step).unwrap(), want.insert(key.clone(), step));
            }
            if let Some(value) = map.get_mut(key.as_str()) {
                *value += 1;
                *want.get_mut(&key).unwrap() += 1;
            }
            assert_eq!(map.is_empty(), want.is_empty());
        }
        assert!(
            map.iter()
                .map(|(key, value)| (key.as_str(), value))
                .eq(want.iter().map(|(key, value)| (key.as_str(), value)))
        );
        map.clear();
        assert!(map.is_empty() && map.iter().next().is_none() && map.get("1").is_none());
    }
}

// Keys that rise, fall, and come between others.
#[test]
fn ordered_map_refused() {
    for key_of in [|at| at, |at: u32| 1000 - at, |at| at * 617 % 1000] {
        let mut map = BTreeMap::new(Global);
        let mut refusals = 0;
        for at in 0..1000 {
            // Each allocation of this insertion is refused, and then none.
            for number in 1.. {
                let (inserted, was_refused) = refusing(number, || map.insert(key_of(at), at));
                assert_eq!(inserted.is_err(), was_refused);
                assert!(map.iter().map(|(key, _)| key).is_sorted());
                assert_eq!(map.iter().count() as u32, at + u32::from(!was_refused));
                if !was_refused {
                    break;
                }
                refusals += 1;
            }
        }
        assert!((0..1000).all(|at| map.get(&key_of(at)) == Some(&at)));
        assert!(refusals > 15);
    }
}

#[test]
fn trimmed_bytes() {
    let mut numbers = Numbers(8);
    for _ in 0..2000 {
        let text: std::string::String =
            (0..numbers.below(9)).map(|_| [' ', '\n', '\x0B', '\x0C', 'a'][numbers.below(5)]).collect();
        let is_space = |c: char| c.is_ascii_whitespace();
        assert_eq!(text.as_bytes().trimmed_ascii(), text.trim_matches(is_space).as_bytes());
        assert_eq!(text.as_bytes().trimmed_ascii_start(), text.trim_start_matches(is_space).as_bytes());
        assert_eq!(text.as_bytes().trimmed_ascii_end(), text.trim_end_matches(is_space).as_bytes());
    }
}

#[test]
fn sixteen_bytes() {
    let mut numbers = Numbers(6);
    for _ in 0..20_000 {
        let mut row =
            || -> [u8; 17] { std::array::from_fn(|_| [numbers.below(256), numbers.below(4)][numbers.below(2)] as u8) };
        let (a, b) = (row(), row());
        let (va, vb) = (u8x16::from_slice(&a), u8x16::from_slice(&b));
        let bits = |f: &dyn Fn(u8, u8) -> bool| (0..16).map(|at| u64::from(f(a[at], b[at])) << at).sum::<u64>();
        assert_eq!(va.simd_eq(vb).to_bitmask(), bits(&|a, b| a == b));
        assert_eq!(va.simd_ge(vb).to_bitmask(), bits(&|a, b| a >= b));
        assert_eq!((va | vb).simd_eq(u8x16::splat(3)).to_bitmask(), bits(&|a, b| a | b == 3));
        assert_eq!((va - vb).simd_ge(u8x16::splat(3)).to_bitmask(), bits(&|a, b| a.wrapping_sub(b) >= 3));
        let (eq, ge) = (va.simd_eq(vb), vb.simd_ge(va));
        assert_eq!((eq | ge).to_bitmask(), bits(&|a, b| a <= b));
        assert_eq!((eq & ge).to_bitmask(), bits(&|a, b| a == b));
    }
}

// Gives its bytes three at a time, is interrupted before each, and then ends or fails.
struct Slow(std::vec::Vec<u8>, bool, Option<ErrorKind>);

impl std::io::Read for Slow {
    fn read(&mut self, buf: &mut [u8]) -> std::io::Result<usize> {
        self.1 = !self.1;
        if self.1 {
            return Err(ErrorKind::Interrupted.into());
        }
        let taken = buf.len().min(3).min(self.0.len());
        match self.2 {
            Some(kind) if taken == 0 => return Err(kind.into()),
            _ => buf[..taken].copy_from_slice(&self.0[..taken]),
        }
        self.0.drain(..taken);
        Ok(taken)
    }
}

#[test]
fn reading_to_the_end() {
    let mut numbers = Numbers(7);
    for len in [0, 1, 8191, 8192, 8193, 100_000] {
        let bytes: std::vec::Vec<u8> = (0..len).map(|_| numbers.below(256) as u8).collect();
        let mut read = Vec::from_slice(Global, b"a").unwrap();
        assert_eq!(io::Read::read_to_end(&mut Cursor::new(&bytes), &mut read).unwrap(), len);
        assert_eq!(read[1..], bytes);
        let mut read = Vec::new(Global);
        assert_eq!(io::Read::read_to_end(&mut Slow(bytes.clone(), false, None), &mut read).unwrap(), len);
        assert_eq!(*read, bytes);
        let mut read = Vec::new(Global);
        let failed = io::Read::read_to_end(&mut Slow(bytes.clone(), false, Some(ErrorKind::Other)), &mut read);
        assert_eq!((failed.unwrap_err().kind(), &*read), (ErrorKind::Other, &*bytes));
        let (failed, _) = refusing(1, || io::Read::read_to_end(&mut Cursor::new(&bytes), &mut Vec::new(Global)));
        assert_eq!(failed.unwrap_err().kind(), ErrorKind::OutOfMemory);
    }
}

#[test]
fn files() {
    let rt = HostRuntime::new();
    let path = concat!(env!("CARGO_MANIFEST_DIR"), "/src/shim/tests.rs");
    let want = std::fs::read(path).unwrap();
    let mut file = fs::File::open(&rt, path).unwrap();
    assert_eq!(file.metadata().unwrap().len(), want.len() as u64);
    let mut part = [0; 100];
    for offset in [0, 1, 500, want.len() - 100] {
        file.read_exact_at(&mut part, offset as u64).unwrap();
        assert_eq!(part, want[offset..offset + 100]);
    }
    for offset in [want.len() as u64 - 99, want.len() as u64, i64::MAX as u64 - 50] {
        assert!(file.read_exact_at(&mut part, offset).is_err(), "{offset}");
    }
    // Reads at offsets leave the place where `read` goes on.
    let mut whole = Vec::new(Global);
    io::Read::read_to_end(&mut file, &mut whole).unwrap();
    assert_eq!(*whole, want);
    assert_eq!(fs::File::open(&rt, "no/such/file").unwrap_err().kind(), ErrorKind::NotFound);
}

// Takes what it is given only when it is flushed, as std's standard output may.
struct Held(std::vec::Vec<u8>, std::vec::Vec<u8>);

impl Write for Held {
    fn write(&mut self, bytes: &[u8]) -> std::io::Result<usize> {
        self.0.write(bytes)
    }

    fn flush(&mut self) -> std::io::Result<()> {
        if self.0.contains(&b'!') {
            return Err(ErrorKind::StorageFull.into());
        }
        self.1.append(&mut self.0);
        Ok(())
    }
}

#[test]
fn streams() {
    let mut out = io::Unbuffered(Held(std::vec::Vec::new(), std::vec::Vec::new()));
    assert_eq!(out.write(b"ab").unwrap(), 2);
    assert_eq!(out.0.1, b"ab");
    assert_eq!(out.write(b"c!").unwrap_err().kind(), ErrorKind::StorageFull);
    assert!(out.flush().is_err());
    let rt = HostRuntime::new();
    let words: std::vec::Vec<_> = env::args(&rt).unwrap().map(String::into_std).collect();
    assert_eq!(words, std::env::args().collect::<std::vec::Vec<_>>());
    let name = words[0].as_bytes();
    let mut buffer = [0; 4096];
    assert_eq!(rt.arg(0, &mut buffer), Ok(name.len()));
    assert_eq!(&buffer[..name.len()], name);
    assert_eq!(rt.arg(0, &mut buffer[..1]), Err(FillError::TooLong));
    assert_eq!(rt.arg(words.len(), &mut buffer), Err(FillError::NotPresent));
}

// The deepest name that is printed, in the stack that a thread has.
#[test]
fn deep_names_in_a_thread() {
    use crate::erased::binfarce_names::demangle::SymbolName;
    let name = format!("_RMC1a{}u", "R".repeat(498));
    let text = format!("<{}()>", "&".repeat(498));
    let thread = std::thread::Builder::new().stack_size(2 << 20);
    let read = thread.spawn(move || SymbolName::demangle(Global, &name).unwrap().trimmed.into_std());
    assert_eq!(read.unwrap().join().unwrap(), text);
}

// The programs among the erased tests: their stored runs, where the crate is in its repository; and of the one that has a line for
// each group of calls and the number of an allocation, runs in which that one is refused.
#[test]
#[cfg(feature = "stored")]
fn stored_runs() {
    let is = |code: ExitCode, want: u8| format!("{code:?}") == format!("{:?}", ExitCode::from(want));
    for &(name, main) in crate::erased::TEST_PROGRAMS {
        let folder = format!("{}/../crates/{name}", env!("CARGO_MANIFEST_DIR"));
        let stored = |file| std::fs::read_to_string(format!("{folder}/{file}"));
        let Ok(mut want) = stored("stdout") else { continue };
        if cfg!(target_pointer_width = "32") {
            // The one range that ends past 32 bits.
            want = want.replace("Ok(4294967295..4294967296)", "Err(MalformedInput)");
        }
        let data = [format!("{folder}/data"), folder.clone()].into_iter().find(|path| Path::new(path).is_dir());
        std::env::set_current_dir(data.unwrap()).unwrap();
        let (code, output) = printed(&stored("stdin").unwrap_or_default(), main);
        let other = (1..).zip(output.lines().zip(want.lines())).find(|(_, (line, wanted))| line != wanted);
        assert_eq!(other, None, "{name}, by the number of the line in stdout");
        assert_eq!(output.len(), want.len(), "{name}");
        assert!(is(code, 0), "{name}");
        if name != "test_memory" {
            continue;
        }
        for group in want.lines().filter_map(|line| line.split_once(':')) {
            for number in 1..=2000 {
                let input = format!("{} {number}\n", group.0);
                let ((code, output), was_refused) = refusing(2000, || printed(&input, main));
                assert!(was_refused, "{input}");
                if is(code, 3) {
                    break;
                }
                assert!(is(code, 0), "{input}: {code:?} {output}");
            }
        }
    }
}
