#!/usr/bin/env python3
"""tests/forms.py [--kit]: what makes tools/erase sound. Each rule of FORMS says what would go wrong without it, and has programs: what
the kit prints, and what the eraser names as it refuses the program, or None where the plain build must print the same. Other rows are
lines that can't be run. With --kit all programs are run by one `rt try`, unproved, and each must print what its row says. Else status 1.
"""
import collections
import pathlib
import shutil
import subprocess
import sys
import tempfile

TOP = pathlib.Path(__file__).resolve().parent.parent
Program = collections.namedtuple("Program", "items body prints refused")
Line = collections.namedtuple("Line", "text refused file", defaults=["main.rt"])

# What is printed behind each program.
END = "== end of a program"
TWO = """trait A {{
    fn f(&self) -> u8;
}}

{0} {{
    fn f(&self) -> u8 {{
        1
    }}
}}

{1} {{
    fn f(&self) -> u8 {{
        2
    }}
}}
"""
PAIR = "#[derive(Drop)]\nstruct W<T: Drop>(T);\n\n" + TWO.format("impl<T> W<&T>", "impl<T: Drop> A for W<T>")
COUNT = """use std::alloc::{AllocError, Global};
use std::cell::Cell;

fn sorted(alloc: Global) -> Result<u32, AllocError> {
    let calls = Cell::new(0u32);
    let mut items = Vec::from_slice(alloc, &[3u8, 1, 2, 5, 4, 9, 8, 7])?;
    items.sort_by_key(|x| {
        calls.set(calls.get().wrapping_add(1));
        *x
    })?;
    Ok(calls.get())
}
"""
OWN = """#[derive(Drop)]
struct S;

impl Iterator for S {
    type Item = u8;

    fn next(&mut self) -> Option<u8> {
        None
    }
}

impl S {
    fn collect(self, alloc: std::alloc::Global) -> Result<Vec<u8>, std::alloc::AllocError> {
        Vec::from_slice(alloc, &[1])
    }
}
"""
SIGNED = """#[derive(Clone, Copy)]
struct S(u8);

impl S {
    fn cast_signed(self) -> i8 {
        -1
    }
}
"""
SAYS, SAID = "fn says(count: &Cell<u8>) {}\n", """let count = Cell::new(0);
    says(&count);
    let _ = println!(rt; "{}", count.get());"""
OTHER = "mod other {\n    use std::cell::Cell;\n\n    pub fn says(count: &Cell<u8>) {\n        count.set(1);\n    }\n}\n\n"
ROOM = """use std::alloc::{AllocError, Global};

fn room(alloc: Global) -> Result<usize, AllocError> {
    let mut text = String::new(alloc);
    text.push('a')?;
    Ok(text.capacity())
}
"""
FORMATS = """let s = S;
    let (n, z, c, b, w) = (-7i8, 0u8, 'é', true, "äö");
    let _ = println!(rt; "[{c:>3}][{b:>6}][{w:>4}][{n:04}][{n:x}][{n:>5}][{z:02x}][{z:>3}][{:016x}][{s:>5}]", 255u64);"""
SHOWN = """use std::fmt;

#[derive(Clone, Copy)]
struct S;

impl fmt::Display for S {
    fn fmt<W: fmt::Write>(&self, f: &mut fmt::Formatter<W>) -> fmt::Result {
        write!(f, "ab")
    }
}
"""
TEXTS = """for line in "a\\r\\nb\\r\\n\\nc\\r".lines() {
        let _ = println!(rt; "{}", line.len());
    }
    for word in "a\\u{85}b\\u{2003}c\\u{180e}d\\u{a0}e".split_whitespace() {
        let _ = println!(rt; "{}", word.len());
    }
    let (a, b) = ("a=b=cd".split_once('=').map_or(0, |it| it.1.len()), "a=b=cd".rsplit_once('=').map_or(0, |it| it.1.len()));
    let _ = println!(rt; "{a} {b} {} {}", "a\\u{3000} ".trim_end().len(), "xaxx".trim_matches('x').len());"""
NUMBERS = """let (a, b) = ("+5".parse::<u8>().is_ok(), "-0".parse::<u8>().is_ok());
    let (c, d) = (u8::from_str_radix("+f", 16).unwrap_or(99), u64::from_str_radix("", 16).is_err());
    let _ = println!(rt; "{a} {b} {c} {d} {} {}", 5u8.wrapping_sub(6), 0x81u8.rotate_right(1));"""
MAPPED = "let mut n = 0u8;\n    for (a, b) in [1u8, 2, 3].iter().map(|x| {\n        n = n.wrapping_add(1);\n        *x\n    }){} {\n" \
    "        let _ = (a, b);\n    }"

FORMS = {
    "An impl is of a type of the sources, or of one that was looked at: else another impl may be found, since a type of std can be "
    "another one in Rust, as the error of `u16::try_from(1u8)` is.": [
        Program("use std::num::TryFromIntError;\n\n"
                + TWO.format("impl A for Result<u16, TryFromIntError>", "impl<E> A for &Result<u16, E>"),
                'let _ = println!(rt; "{}", (&u16::try_from(1u8)).f());', "1", "impl A for Result<u16,TryFromIntError>"),
        Line("impl<X: Clone> A for X { fn f(&self) {} }", "impl<X:Clone>A for X"),
        Line("impl A for std::convert::Infallible {}", "std::convert"), Line("std::iter::once(1).f();", "std::iter"),
        Line("use a::W as S; struct S; trait A {} impl A for S {}", "impl A for S"), Line("pub use a::W as V;", "pub use a::W as V;"),
        Line("impl Drop for S {}", "impl Drop for S"), Line("impl std::ops::Deref for S {}", "impl core::ops::Deref for S")],
    "A type has no two functions or constants of one name, unless two traits have them under the same bounds: else another one may be "
    "called, since a bound can hold in one language alone.": [
        Program("use std::io;\n\n#[derive(Drop)]\nstruct W<X: Drop>(X);\n\n"
                + TWO.format("impl<X: Copy + Drop> W<X>", "impl<X: Drop> A for W<X>"),
                'let _ = println!(rt; "{}", W(io::Error::from(io::ErrorKind::Other)).f());', "1", "f"),
        Line("struct W<X>(X); trait A {} trait B {} impl<X> A for W<X> where X: Copy { fn f() {} } impl<X> B for W<X> { fn f() {} }",
             "f"),
        Line("struct W<X>(X); trait A {} impl<X: Copy> W<X> { const N: u8 = 1; } impl<X> A for W<X> { const N: u8 = 2; }", "N"),
        Line("struct S; trait T { fn map(&self); } impl Iterator for S { fn next(&mut self) {} } impl T for S { fn map(&self) {} }", "T"),
        Program("""#[derive(Drop)]
struct S;

impl Iterator for S {
    type Item = u8;

    fn next(&mut self) -> Option<u8> {
        None
    }
}

impl S {
    fn count(&self) -> usize {
        5
    }
}
""", 'let _ = println!(rt; "{}", S.count());', "0", "count"),
        Line("fn f<T: Index<u8>>(w: W<T::Output>) { w.f(); }", "Index"), Line("fn f<T: Deref>(w: W<T::Target>) { w.f(); }", "Deref")],
    "A trait's functions have no body: else another impl may be found in one, since there `Self` may have no size, and Rust passes over "
    "the impls for types that have one.": [
        Program(PAIR + "\ntrait B {\n    fn g(&self) -> u8 {\n        let w = W(self);\n        w.f()\n    }\n}\n\nimpl B for u8 {}\n",
                'let _ = println!(rt; "{}", 3u8.g());', "1", "f"),
        Line("trait B { fn g(&self) -> u8 { let w = W(self); w.f() } }", "trait B"),
        Line("trait B { fn g(&mut self) -> u8 { let w: W<&mut Self> = W(self); w.f() } }", "trait B"),
        Line("trait T { fn f(w: W<&Self>) { w.f(); } }", "trait T")],
    "A function that does nothing goes as a law only if its crate doesn't name it, a module of laws has no impl, and nothing is imported "
    "by `*`: else what is hidden by what goes, or by an import of the shim, may take its place.": [
        Program("use std::cell::Cell;\n\n" + SAYS, SAID, "0", None), Line("impl S {}", "impl", "laws.rt"),
        Program("use other::*;\nuse std::cell::Cell;\n\n" + OTHER + SAYS, SAID, "0", "use other::*;")],
    "No function has a name that the eraser rewrites, or that all types have: else its calls would become calls of the shim or of std.": [
        Program(OWN, 'let count = S.collect(rt.alloc()).map_or(9, |it| it.len());\n    let _ = println!(rt; "{count}");', "1",
                "fn collect"),
        Program(SIGNED, 'let _ = println!(rt; "{}", S(1).cast_signed());', "-1", "fn cast_signed"),
        Line("fn into(self) -> u8 { 1 }", "fn into")],
    "A closure that may be called more or less often only reads, and nothing it reads may keep count: else the count may differ.": [
        Program(COUNT, 'let _ = println!(rt; "{}", sorted(rt.alloc()).unwrap_or(0));', "24",
                ".sort_by_key(|x|{calls.set(calls.get().wrapping_add(1));*x})"),
        Program("", MAPPED.replace("{}", ".zip([1u8].iter())", 1) + '\n    let _ = println!(rt; "{n}");', "2", ".zip([1u8].iter())"),
        Program("", 'let n = [1u8, 2].iter().zip([3u8].iter()).count();\n    let _ = println!(rt; "{n}");', "1", None),
        Program("""fn below(n: &mut u8, x: u8) -> bool {
    *n = n.wrapping_add(1);
    x < 4
}
""", '''let mut n = 0u8;
    let at = [1u8, 2, 3, 4, 5].as_slice().partition_point(|x| below(&mut n, *x));
    let _ = println!(rt; "{at} {n}");''', "3 4", ".partition_point(|x|below(&mut n,*x))"),
        Line("fn below(n: &mut u8, x: u8) -> bool { true } fn g(n: &mut u8) { a.partition_point(|x| below(n, *x)); }",
             ".partition_point(|x|below(n,*x))"),
        Line("a.partition_point(|x| { n += 1; *x < 4 });", ".partition_point(|x|{n+=1;*x<4})"), Line("a.map(f).rev();", ".rev()"),
        Line("a.iter().zip(b.map(|x| { n += 1; x }));", ".zip(b.map(|x|{n+=1;x}))"),
        Line("a.sort_by_key::<u8, _>(f);", ".sort_by_key::"), Line("Iterator::zip(a.map(f), b);", "::zip"),
        Line("a.trim_matches(|c| { n += 1; c == b });", ".trim_matches(|c|{n+=1;c==b})")],
    "Of std only KNOWN is called or named, which the sources call already, and its programs print the same: else Rust may have "
    "something else of that name.": [
        Program(SHOWN, FORMATS,
                "[  é][  true][  äö][-007][f9][   -7][00][  0][00000000000000ff][ab]", None),
        Program("", TEXTS, "1\n1\n0\n2\n1\n1\n5\n1\n4 2 1 1", None),
        Program("", NUMBERS, "true false 15 true 255 192", None),
        Line("a.max_by_key(|x| x.0);", "max_by_key"), Line("core::mem::take(&mut a);", "core::mem"), Line("fn r#f() {}", "r#"),
        Line("let a: fmt::Alignment;", "Alignment"),
        Line("use std::mem::MaybeUninit;", "use std::mem::MaybeUninit;"), Line("std::thread::spawn(a);", "std::thread"),
        Line("std::sync::mpsc::channel();", "std::sync"), Line("size_of::<(u8, u32, u8)>()", "size_of"), Line("line!();", "line"),
        Line("stringify!(a + b);", "stringify"), Line("module_path!();", "module_path"), Line("#[from] A", "#[from]"),
        Line("macro_rules! m { ($s:stmt) => {} }", "macro_rules"), Line("a.binary_search(&1);", "binary_search"),
        Line("a.sort_unstable_by_key(|x| x.0);", "sort_unstable_by_key"), Line("a.is_alphanumeric();", "is_alphanumeric")],
    "Numbers are whole, and a format asks for no precision and, but in tests, for no `{:?}`: else the text may differ, as roundings do, "
    "and the tables of characters that `{:?}` shows.": [
        Program("", 'let _ = println!(rt; "{:.0}", 2.5f64);', "2", '"{:.0}"'), Line("let a = 2.5;", "2.5"),
        Line('write!(f, r"{:.0}", x);', 'r"{:.0}"'), Line("let a = 1e5;", "1e5"),
        Program("", 'let _ = println!(rt; "{:?}", "\\u{1fae9}");', '"\U0001fae9"', '"{:?}"')],
    "The room that memory has is only asked for in a sum of memory: else its number may differ, since the shim's grows otherwise.": [
        Program(ROOM, 'let _ = println!(rt; "{}", room(rt.alloc()).unwrap_or(0));', "8", "capacity")],
    "What fails for want of memory is called by the shim's names alone: else Rust would end the process.": [
        Line("a.map(|x| x.clone());", "clone"), Line("a.to_vec();", "to_vec")],
    "A range without an end is an index: else Rust's overflows at its type's last number, where Rattle's ends.": [
        Line("(250u8..).take(9);", "250u8.."), Line("(x?..).take(9).count();", "?.."), Line("for x in a(b).. {}", "(b).."), Line("f([9..]);", "9.."),
        Line("S { a, b: if c { 2 } else { 1 }, d: 1.. }", "1..")],
    "What becomes a `usize` has 32 bits at most, in a sum or a product 16, unless it was looked at: else a machine of 32 bits cuts off bits "
    "that one of 64 keeps.": [
        Program("", """let n = 1u64.wrapping_shl(32).wrapping_add(1);
    let _ = println!(rt; "{}", n as usize);""", "4294967297", "u64: Narrow"),
        Program("", """let (n, m) = (7u32, 3usize);
    let _ = println!(rt; "{}", m + n as usize);""", "10", "usize: From<u32>"),
        Program("", """let v = [1u16, 300];
    let (a, b) = (2 + *v.get(1).unwrap_or(&0) as usize * 2, v[0] as u8 as usize + 1);
    let mut c = 0usize;
    c += v[0] as usize;
    let _ = println!(rt; "{a} {b} {c} {} {}", 9u32.trailing_zeros() as usize % 4 + 1, -(-5i8) as u32 as usize);""", "602 2 1 1 5", None)],
    "No module has a crate's name, and what one branch of `if let` has borrowed isn't used in another: else paths would lead to the crate, "
    "and a borrow would last longer, since Rust's edition here is an older one.": [
        Program("mod core {\n    pub fn f() -> u8 {\n        2\n    }\n}\n", 'let _ = println!(rt; "{}", core::f());', "2", "mod core"),
        Line("use a::core;", "use a::core;"),
        Program("use std::cell::{Cell, RefCell};\n", """let (c, n) = (RefCell::new(0u8), Cell::new(1u8));
    if let Err(_) = c.try_borrow_mut() {
        n.set(2);
    } else if c.try_borrow_mut().is_ok() {
        n.set(3);
    }
    let _ = println!(rt; "{}", n.get());""", "3", "if-let-rescope"),
        Program("use std::cell::{Cell, RefCell};\n", """let (c, n) = (RefCell::new(0u8), Cell::new(1u8));
    n.set(u8::from(c.try_borrow_mut().is_ok()) + 4);
    let _ = println!(rt; "{}", n.get());""", "5", None)],
    "What gives a struct its other fields is no item of a list: else Rust reads the item, also where no field is left.": [
        Line("S { a: 1, ..v[i] }", "{a:1,..v[i]}")],
    "A word of clauses is one only where a clause can be, and each bracket is closed: else code would go with the clause.": [
        Line("let ghost = 1;", "ghost=1;"), Line("if requires { f() }", "requires{f()}"), Line("}", "}"),
        Line('#[derive(Debug, Drop, Error)]\npub enum E { #[error("bad {{0}}")] A(u8) }', '#[error("bad {{0}}")]')],
}

def source_of(form):
    """The source of a program, or of a crate with these lines."""
    if isinstance(form, Line):
        return f"//! A crate.\n\nfn f() {{\n    {form.text}\n}}\n"
    return f"#![tactic(auto)]\n\n{form.items}\nfn main(rt: HostRuntime) {{\n    {form.body}\n}}\n"

def by_kit(top, programs):
    """What the kit prints for each of these programs, which are modules of one crate, or why it refuses that."""
    (folder := top / "a/src").mkdir(parents=True)
    (top / "crates.txt").write_text("a:\n")
    modules = [f"p{at}" for at in range(len(programs))]
    for name, program in zip(modules, programs):
        (folder / f"{name}.rt").write_text(f"{program.items}\npub fn run(rt: &HostRuntime) {{\n    {program.body}\n}}\n")
    calls = "".join(f"    {name}::run(&rt);\n    let _ = println!(rt; \"{END}\");\n" for name in modules)
    named = "".join(f"mod {name};\n" for name in modules)
    (folder / "main.rt").write_text(f"#![tactic(auto)]\n\n{named}\nfn main(rt: HostRuntime) {{\n{calls}}}\n")
    ran = subprocess.run(["rt", "try"], cwd=top / "a", stdin=subprocess.DEVNULL, capture_output=True, text=True)
    texts = [it.strip() for it in ran.stdout.split(END)[:-1]]
    return texts if len(texts) == len(programs) else [ran.stderr] * len(programs)

def by_eraser(top, form):
    """What the eraser says, or what Cargo's build prints."""
    (folder := top / "crates/a/src").mkdir(parents=True, exist_ok=True)
    (top / "crates.txt").write_text("a:\nb: a\n")
    for it in folder.iterdir():
        it.unlink()
    (folder / getattr(form, "file", "main.rt")).write_text(source_of(form))
    erased = subprocess.run([top / "tools/erase"], capture_output=True, text=True)
    if erased.returncode:
        return erased.stderr
    rustc = ["rustc", "--edition", "2021", "-D", "if-let-rescope", "-D", "tail-expr-drop-order", "--cfg", 'feature="std"', "-o", top / "a", top / "rust/src/main.rs"]
    built = subprocess.run(rustc, capture_output=True, text=True)
    return built.stderr if built.returncode else subprocess.run([top / "a"], capture_output=True, text=True).stdout.strip()

def faults(is_kit):
    """The forms that end otherwise than is said."""
    with tempfile.TemporaryDirectory() as folder:
        top = pathlib.Path(folder)
        shutil.copytree(TOP / "tools", top / "tools")
        shutil.copytree(TOP / "rust/src/shim", top / "rust/src/shim")
        (top / "rust/src/main.rs").write_text("#![allow(dead_code, unused)]\nextern crate alloc;\nmod shim;\nmod erased {\n    pub mod a;\n}\n"
                                              "fn main() {\n    erased::a::main(shim::HostRuntime::new());\n}\n")
        all_forms = [(rule, form) for rule, forms in FORMS.items() for form in forms]
        if is_kit:
            programs = [(rule, form) for rule, form in all_forms if isinstance(form, Program)]
            for (rule, form), said in zip(programs, by_kit(top, [form for _, form in programs])):
                if said != form.prints:
                    yield f"{rule}\n{source_of(form)}prints by the kit: {said}"
            return
        for rule, form in all_forms:
            said = by_eraser(top, form)
            # What goes by types, and by how long a value lives, Rust refuses.
            is_refused = said and (f"`{form.refused}`" in said and said.startswith(f"crates/a/src/{getattr(form, 'file', 'main.rt')}:")
                                   or said.startswith("error") and str(form.refused) in said)
            if said and not (is_refused if form.refused else said == form.prints):
                yield f"{rule}\n{source_of(form)}isn't refused by `{form.refused}`: {said}"

wrong = [*faults(sys.argv[1:] == ["--kit"])]
print(*wrong, f"{len(FORMS)} rules, {sum(map(len, FORMS.values()))} forms, {len(wrong)} faults", sep="\n")
sys.exit(1 if wrong else 0)
