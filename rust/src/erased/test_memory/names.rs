// From crates/test_memory/src/names.rt, by tools/erase.

//! Names: the answer, or `AllocError`; no name becomes Unknown since an allocation failed.

use crate::shim::String;
use crate::erased::binfarce::demangle::{Demangler, Kind, SymbolName, crate_of};
use crate::shim::alloc::{AllocError, Global};
use crate::erased::test_image_samples::tally::{Row, Tally};

struct Name {
    name: &'static str,
    kind: Kind,
    complete: &'static str,
    trimmed: &'static str,
    crate_name: Option<&'static str>,
    // The answer of `crate_of`.
    crate_of: Option<&'static str>,
}

const NAMES: [Name; 9] = [
    Name { kind: Kind::Legacy, crate_name: None, crate_of: Some("foo"),
        name: "_ZN3foo3barE",
        complete: "foo::bar",
        trimmed: "foo" },
    Name { kind: Kind::Legacy, crate_name: None, crate_of: Some("{{closure}}"),
        name: "_ZN28_$u7b$$u7b$closure$u7d$$u7d$E",
        complete: "{{closure}}",
        trimmed: "{{closure}}" },
    Name { name: "_ZN4testE", kind: Kind::Legacy, complete: "test", trimmed: "test", crate_name: None, crate_of: Some("test") },
    Name { name: "foo", kind: Kind::Unknown, complete: "foo", trimmed: "foo", crate_name: None, crate_of: None },
    Name { kind: Kind::V0, crate_name: Some("core"), crate_of: Some("core"),
        name: "_RNCINkXs25_NgCsbmNqQUJIY6D_4core5sliceINyB9_4IterhENuNgNoBb_4iter8iterator8Iterator9rpositionNCNgNpB9_6memchr7memrchrs_0E0Bb_",
        complete: "<core[846817f741e54dfd]::slice::Iter<u8> as core[846817f741e54dfd]::iter::iterator::Iterator>::rposition::<core[846817f741e54dfd]::slice::memchr::memrchr::{closure#1}>::{closure#0}",
        trimmed: "<core::slice::Iter<u8> as core::iter::iterator::Iterator>::rposition::<core::slice::memchr::memrchr::{closure#1}>::{closure#0}" },
    Name { kind: Kind::V0, crate_name: Some("alloc"), crate_of: Some("alloc"),
        name: "_RINbNbCskIICzLVDPPb_5alloc5alloc8box_freeDINbNiB4_5boxed5FnBoxuEp6OutputuEL_ECs1iopQbuBiw2_3std",
        complete: "alloc[f15a878b47eb696b]::alloc::box_free::<dyn alloc[f15a878b47eb696b]::boxed::FnBox<(), Output = ()>>",
        trimmed: "alloc::alloc::box_free::<dyn alloc::boxed::FnBox<(), Output = ()>>" },
    // Twenty targets.
    Name { kind: Kind::V0, crate_name: Some(""), crate_of: Some(""),
        name: "_RMC0TSaSbScSdSeSfShSiSjSlSmSnSoSpSsStSuSxSySzB3_B5_B7_B9_Bb_Bd_Bf_Bh_Bj_Bl_Bn_Bp_Br_Bt_Bv_Bx_Bz_BB_BD_BF_E",
        complete: "<([i8], [bool], [char], [f64], [str], [f32], [u8], [isize], [usize], [i32], [u32], [i128], [u128], [_], [i16], [u16], [()], [i64], [u64], [!], [i8], [bool], [char], [f64], [str], [f32], [u8], [isize], [usize], [i32], [u32], [i128], [u128], [_], [i16], [u16], [()], [i64], [u64], [!])>",
        trimmed: "<([i8], [bool], [char], [f64], [str], [f32], [u8], [isize], [usize], [i32], [u32], [i128], [u128], [_], [i16], [u16], [()], [i64], [u64], [!], [i8], [bool], [char], [f64], [str], [f32], [u8], [isize], [usize], [i32], [u32], [i128], [u128], [_], [i16], [u16], [()], [i64], [u64], [!])>" },
    // A target after the first 256 positions.
    Name { kind: Kind::V0, crate_name: Some(""), crate_of: Some(""),
        name: "_RMC0TNtC1a260xxxxxxxxxxxxxxxxxxxxxxxxxxxxxxxxxxxxxxxxxxxxxxxxxxxxxxxxxxxxxxxxxxxxxxxxxxxxxxxxxxxxxxxxxxxxxxxxxxxxxxxxxxxxxxxxxxxxxxxxxxxxxxxxxxxxxxxxxxxxxxxxxxxxxxxxxxxxxxxxxxxxxxxxxxxxxxxxxxxxxxxxxxxxxxxxxxxxxxxxxxxxxxxxxxxxxxxxxxxxxxxxxxxxxxxxxxxxxxxxxxxxxxxxxxxxxxxxxxxxShB4n_E",
        complete: "<(a[0]::xxxxxxxxxxxxxxxxxxxxxxxxxxxxxxxxxxxxxxxxxxxxxxxxxxxxxxxxxxxxxxxxxxxxxxxxxxxxxxxxxxxxxxxxxxxxxxxxxxxxxxxxxxxxxxxxxxxxxxxxxxxxxxxxxxxxxxxxxxxxxxxxxxxxxxxxxxxxxxxxxxxxxxxxxxxxxxxxxxxxxxxxxxxxxxxxxxxxxxxxxxxxxxxxxxxxxxxxxxxxxxxxxxxxxxxxxxxxxxxxxxxxxxxxxxxxxxxxxxxx, [u8], [u8])>",
        trimmed: "<(a::xxxxxxxxxxxxxxxxxxxxxxxxxxxxxxxxxxxxxxxxxxxxxxxxxxxxxxxxxxxxxxxxxxxxxxxxxxxxxxxxxxxxxxxxxxxxxxxxxxxxxxxxxxxxxxxxxxxxxxxxxxxxxxxxxxxxxxxxxxxxxxxxxxxxxxxxxxxxxxxxxxxxxxxxxxxxxxxxxxxxxxxxxxxxxxxxxxxxxxxxxxxxxxxxxxxxxxxxxxxxxxxxxxxxxxxxxxxxxxxxxxxxxxxxxxxxxxxxxxxx, [u8], [u8])>" },
    // 98,304 steps.
    Name { kind: Kind::Unknown, crate_name: None, crate_of: None,
        name: "_RMC0TTTTTTTTTTTTTTTpBh_EBg_EBf_EBe_EBd_EBc_EBb_EBa_EB9_EB8_EB7_EB6_EB5_EB4_EB3_E",
        complete: "_RMC0TTTTTTTTTTTTTTTpBh_EBg_EBf_EBe_EBd_EBc_EBb_EBa_EB9_EB8_EB7_EB6_EB5_EB4_EB3_E",
        trimmed: "_RMC0TTTTTTTTTTTTTTTpBh_EBg_EBf_EBe_EBd_EBc_EBb_EBa_EB9_EB8_EB7_EB6_EB5_EB4_EB3_E" },
];

fn is_text(text: Option<&String>, expected: Option<&str>) -> bool {
    match (text, expected) {
        (None, None) => true,
        (Some(text), Some(expected)) => text.as_str() == expected,
        _ => false,
    }
}

fn is_demangled(demangler: &mut Demangler, row: &Name) -> Row {
    let answer = demangler.demangle(row.name)?;
    Ok(
        answer.kind == row.kind
            && answer.complete.as_str() == row.complete
            && answer.trimmed.as_str() == row.trimmed
            && is_text(answer.crate_name.as_ref(), row.crate_name),
    )
}

// Both texts of each name: of a demangler of its own, or of one that is kept, which answers the next names as before
// after an allocation that failed.
pub(crate) fn add_names(alloc: Global, tally: &mut Tally, keeps: bool) {
    let mut demangler = Demangler::new(alloc);
    for row in &NAMES {
        if keeps {
            tally.add(row.name, is_trimmed(alloc, &mut demangler, row));
        } else {
            demangler = Demangler::new(alloc);
        }
        tally.add(row.name, is_demangled(&mut demangler, row));
    }
}

// Where an allocation fails, the text has to be unchanged.
fn is_trimmed(alloc: Global, demangler: &mut Demangler, row: &Name) -> Row {
    const BEFORE: &str = "text before ";
    let mut text = String::from_str(alloc, BEFORE)?;
    match demangler.push_trimmed(&mut text, row.name) {
        Ok(()) => Ok(text.as_str().strip_prefix(BEFORE) == Some(row.trimmed)),
        Err(error) => {
            if text.as_str() == BEFORE {
                Err(error)
            } else {
                Ok(false)
            }
        }
    }
}

pub(crate) fn add_trimmed(alloc: Global, tally: &mut Tally) {
    for row in &NAMES {
        tally.add(row.name, is_trimmed(alloc, &mut Demangler::new(alloc), row));
    }
}

fn is_crate(alloc: Global, row: &Name) -> Row {
    let found = crate_of(alloc, row.name)?;
    Ok(is_text(found.as_ref(), row.crate_of))
}

pub(crate) fn add_crates(alloc: Global, tally: &mut Tally) {
    for row in &NAMES {
        tally.add(row.name, is_crate(alloc, row));
    }
}

// A name of tuples, each twice in the next, and how many there are.
const TUPLES: [(&str, usize); 2] = [
    ("_RMC0TTTTTTpB8_EB7_EB6_EB5_EB4_EB3_E", 6),
    (
        "_RMC0TTTTTTTTTTTTTTpBg_EBf_EBe_EBd_EBc_EBb_EBa_EB9_EB8_EB7_EB6_EB5_EB4_EB3_E",
        14,
    ),
];

// Both members of a text `(member, member)` that are the same.
fn same_members(text: &str) -> Option<&str> {
    let members = text.strip_prefix('(')?.strip_suffix(')')?;
    let (first, rest) = members.split_at_checked((members.len() / 2).saturating_sub(1))?;
    let second = rest.strip_prefix(", ")?;
    if first == second { Some(first) } else { None }
}

// What is left of the text of an impl of nested tuples, once as many as these are taken off.
fn innermost(text: &str, tuples: usize) -> Option<&str> {
    let mut inner = text.strip_prefix('<')?.strip_suffix('>')?;
    for _ in 0..tuples {
        inner = same_members(inner)?;
    }
    Some(inner)
}

fn is_nested(alloc: Global, name: &str, tuples: usize) -> Row {
    let answer = SymbolName::demangle(alloc, name)?;
    Ok(
        answer.kind == Kind::V0
            && innermost(answer.complete.as_str(), tuples) == Some("_")
            && innermost(answer.trimmed.as_str(), tuples) == Some("_")
            && is_text(answer.crate_name.as_ref(), Some("")),
    )
}

pub(crate) fn add_tuples(alloc: Global, tally: &mut Tally) {
    for (name, tuples) in &TUPLES {
        tally.add(name, is_nested(alloc, name, *tuples));
    }
}
