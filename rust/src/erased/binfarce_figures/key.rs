// From crates/binfarce_figures/src/key.rt, by tools/erase.

//! What sizes are summed by.

use crate::shim::String;
use crate::erased::binfarce_figures::generic::{Shape, is_of_name, push_rewritten};
use crate::erased::binfarce_figures::module::push_module;
use crate::erased::binfarce_figures::stacks::push_stack;
use crate::erased::binfarce::SectionFunction;
use crate::erased::binfarce_legacy::legacy;
use crate::erased::binfarce_names::demangle::{Demangler, Kind, SymbolName, push_crate};
use crate::erased::binfarce_text::suffixes::without_llvm;
use crate::erased::binfarce_tools::list::push_section;
use crate::erased::binfarce_tools::tables::Tables;
use crate::shim::alloc::{AllocError, Global};

/// What sizes are summed by.
#[derive(Debug, Clone, Copy, PartialEq)]
#[non_exhaustive]
pub enum Key {
    /// The crate: that of `crate_of`, and for a legacy name that begins with `<` the name before its first `::`.
    Crate,
    /// The module: the crate, and the modules of the first path in the trimmed name that begins with it. The last name of
    /// a path is no module, nor is one whose first letter is upper-case, as those of types, and what comes after that.
    Module,
    /// The trimmed name.
    Function,
    /// The trimmed name with `<..>` in place of its generic arguments.
    Generic,
    /// The section: its name, or its number in brackets where it has none. Where one section is selected, it is `text`.
    Section,
    /// The crate, and the parts of the trimmed name, with `;` between them.
    Stack,
}

/// How sizes are grouped.
#[derive(Debug, Clone, Copy, PartialEq)]
pub struct Grouping {
    /// What they are summed by.
    pub key: Key,
    /// Whether the functions of Rust's standard library have the key `[std]`: those of the crates that it alone has.
    pub joins_std: bool,
}

/// What keys are made with, one after the other: memory that is kept for the next one.
pub(crate) struct KeyMaker {
    alloc: Global,
    demangler: Demangler,
    // The crate of a module or a stack.
    crate_name: String,
    // That as it is shown.
    root: String,
    // The trimmed name, or the parts of a stack.
    name: String,
}

impl KeyMaker {
    /// Without memory. Nothing is allocated.
    pub(crate) fn new(alloc: Global) -> KeyMaker {
        KeyMaker {
            alloc,
            demangler: Demangler::new(alloc),
            crate_name: String::new(alloc),
            root: String::new(alloc),
            name: String::new(alloc),
        }
    }
}

/// Overwrites the text by the crate that a function of this name is counted for.
pub(crate) fn put_crate(alloc: Global, text: &mut String, name: &str) -> Result<(), AllocError> {
    text.clear();
    if push_crate(alloc, text, name)? {
        return Ok(());
    }
    put_inner_crate(alloc, text, name)?;
    if text.as_str().is_empty() {
        return text.push_str("[unknown]");
    }
    Ok(())
}

// Overwrites the text by the crate of the type or trait that a legacy name begins with; empty if there is none.
fn put_inner_crate(alloc: Global, text: &mut String, name: &str) -> Result<(), AllocError> {
    text.clear();
    match legacy::mangling(without_llvm(name)) {
        Some((part, _)) => {
            let mut path = String::new(alloc);
            legacy::push_trimmed(&mut path, part)?;
            put_last_name(text, first_part(path.as_str()))
        }
        None => Ok(()),
    }
}

// A path up to its first `::`, or all of it.
fn first_part(path: &str) -> &str {
    match path.split_once("::") {
        Some((first, _)) => first,
        None => path,
    }
}

// Overwrites the text by the name that a front ends with.
fn put_last_name(text: &mut String, front: &str) -> Result<(), AllocError> {
    text.clear();
    for c in front.chars() {
        if is_of_name(c) {
            text.push(c)?;
        } else {
            text.clear();
        }
    }
    Ok(())
}

// Overwrites the text by the crate that a function of this name is counted for, where its answer is known: it has the
// crate of a v0 name.
fn put_crate_of(
    alloc: Global,
    text: &mut String,
    name: &str,
    answer: &SymbolName,
) -> Result<(), AllocError> {
    if answer.kind == Kind::Legacy {
        return put_crate(alloc, text, name);
    }
    text.clear();
    match &answer.crate_name {
        Some(crate_name) => text.push_str(crate_name.as_str()),
        None => text.push_str("[unknown]"),
    }
}

// Appends the module of a stored name. Its answer is made once.
fn push_module_of(maker: &mut KeyMaker, text: &mut String, name: &str) -> Result<(), AllocError> {
    let answer = maker.demangler.demangle(name)?;
    put_crate_of(maker.alloc, &mut maker.crate_name, name, &answer)?;
    push_module(text, maker.crate_name.as_str(), answer.trimmed.as_str())
}

// Appends the stack of a stored name. Its answer is made once: its trimmed text, and the crate of a v0 name.
fn push_stack_of(maker: &mut KeyMaker, text: &mut String, name: &str) -> Result<(), AllocError> {
    let answer = maker.demangler.demangle(name)?;
    put_crate_of(maker.alloc, &mut maker.crate_name, name, &answer)?;
    push_stack(
        text,
        &mut maker.root,
        &mut maker.name,
        maker.crate_name.as_str(),
        answer.trimmed.as_str(),
    )
}

// Appends the name of a stored name without its generic arguments.
fn push_generic(maker: &mut KeyMaker, text: &mut String, name: &str) -> Result<(), AllocError> {
    maker.name.clear();
    maker.demangler.push_trimmed(&mut maker.name, name)?;
    push_rewritten(text, Shape::Generic, maker.name.as_str())
}

/// Overwrites the text by the key of a function symbol, where one section of this size is selected, or all.
pub(crate) fn put_key(
    maker: &mut KeyMaker,
    text: &mut String,
    tables: &Tables<'_>,
    function: SectionFunction<'_>,
    size: Option<u64>,
    grouping: Grouping,
) -> Result<(), AllocError> {
    let name = function.function.name;
    if grouping.joins_std {
        put_crate(maker.alloc, text, name)?;
        if is_std(text.as_str()) {
            text.clear();
            return text.push_str("[std]");
        }
        if grouping.key == Key::Crate {
            return Ok(());
        }
    }
    text.clear();
    match grouping.key {
        Key::Crate => put_crate(maker.alloc, text, name),
        Key::Module => push_module_of(maker, text, name),
        Key::Function => maker.demangler.push_trimmed(text, name),
        Key::Generic => push_generic(maker, text, name),
        Key::Section if size.is_some() => text.push_str("text"),
        Key::Section => push_section(text, tables, function.section),
        Key::Stack => push_stack_of(maker, text, name),
    }
}

// Whether a crate is one of Rust's standard library, and of nothing else.
fn is_std(crate_name: &str) -> bool {
    match crate_name {
        "std" | "core" | "alloc" | "proc_macro" | "test" | "std_detect" => true,
        "compiler_builtins" | "unwind" | "panic_abort" | "panic_unwind" => true,
        "rustc_std_workspace_core" | "rustc_std_workspace_alloc" => true,
        "rustc_std_workspace_std" => true,
        _ => false,
    }
}
