//! What mustn't compile outside of this crate; and each without its mistake, which must.

/// ```compile_fail
/// use binfarce::erased;
/// ```
/// ```compile_fail
/// use binfarce::shim;
/// ```
/// ```compile_fail
/// use binfarce::figures::Form;
/// ```
/// ```
/// use binfarce::{Form, figures};
/// ```
struct Modules;

/// ```compile_fail
/// use binfarce::figures::{Naming, Shown};
/// let shown = Shown { order: None, first: None, naming: Naming::Trimmed, has_total: true };
/// ```
/// ```
/// use binfarce::figures::{Naming, Shown};
/// let Shown { order: None, first: None, naming: Naming::Trimmed, has_total: true, .. } = Shown::new() else { panic!() };
/// ```
/// ```compile_fail
/// use binfarce::figures::{Figures, Key};
/// let figures = Figures { grouping: Key::Crate.into(), first: None, has_percent: false };
/// ```
/// ```
/// use binfarce::figures::{Figures, Key};
/// let Figures { grouping, first: None, has_percent: false, .. } = Figures::by(Key::Crate) else { panic!() };
/// ```
/// ```compile_fail
/// use binfarce::figures::{Grouping, Key};
/// let grouping = Grouping { key: Key::Crate, joins_std: false };
/// ```
/// ```
/// use binfarce::figures::{Grouping, Key};
/// let Grouping { key: Key::Crate, joins_std: false, .. } = Grouping::by(Key::Crate) else { panic!() };
/// ```
struct Options;

/// ```compile_fail
/// let of = |growth| {
///     let binfarce::figures::Growth { old, new } = growth;
/// };
/// ```
/// ```
/// let of = |growth| {
///     let binfarce::figures::Growth { old, new, .. } = growth;
/// };
/// ```
/// ```compile_fail
/// let of = |section| {
///     let binfarce::Section { segment, name, address, offset, size, has_bytes } = section;
/// };
/// ```
/// ```
/// let of = |section| {
///     let binfarce::Section { segment, name, address, offset, size, has_bytes, .. } = section;
/// };
/// ```
/// ```compile_fail
/// let of = |name| binfarce::FunctionSymbol { name, address: 0, size: 0 };
/// ```
/// ```compile_fail
/// let of = |section, function| binfarce::SectionFunction { section, info: 0, version: 0, function };
/// ```
/// ```compile_fail
/// let of = |it: binfarce::LoadAddress| { let binfarce::LoadAddress { address, code } = it; };
/// ```
/// ```compile_fail
/// let of = |it| { let binfarce::CodeSegment { address, offset, size, memory_size, align } = it; };
/// ```
/// ```compile_fail
/// let of = |it| match it { binfarce::SectionType::Elf(_) | binfarce::SectionType::Macho(_) | binfarce::SectionType::Pe => 0 };
/// ```
/// ```compile_fail
/// let of = |it| { let binfarce::Frame { path, function, offset } = it; };
/// ```
/// ```
/// use binfarce::{CodeSegment, Frame, FunctionSymbol, LoadAddress, SectionFunction, SectionType};
/// let of = |it| { let FunctionSymbol { name, address, size, .. } = it; };
/// let of = |it| { let SectionFunction { section, info, version, function, .. } = it; };
/// let of = |it| { let LoadAddress { address, code, .. } = it; };
/// let of = |it| { let CodeSegment { address, offset, size, memory_size, align, .. } = it; };
/// let of = |it| match it { SectionType::Elf(_) | SectionType::Macho(_) | SectionType::Pe => 0, _ => 1 };
/// let of = |it| { let Frame { path, function, offset, .. } = it; };
/// ```
struct Answers;
