// By tools/erase.

//! The proved sources without their clauses, a module for each crate.

// Some parameters, fields, functions and imports of tests are there for clauses alone.
#![allow(dead_code, unused_imports, unused_variables)]

pub mod binfarce_text;
pub mod binfarce_legacy;
pub mod binfarce_v0_grammar;
pub mod binfarce_v0_state;
pub mod binfarce_v0;
pub mod binfarce_names;
pub mod binfarce_filtering;
pub mod binfarce_bytes;
pub mod binfarce_foreign;
pub mod binfarce_elf;
pub mod binfarce_elf_memory;
pub mod binfarce_macho;
pub mod binfarce_pe;
pub mod binfarce_tables;
pub mod binfarce;
#[cfg(test)]
#[cfg(feature = "stored")]
pub mod binfarce_image;
pub mod binfarce_rows;
#[cfg(any(test, feature = "programs"))]
pub mod binfarce_words;
#[cfg(any(test, feature = "programs"))]
pub mod binfarce_limits;
pub mod binfarce_identity;
pub mod binfarce_chart;
pub mod binfarce_tools;
pub mod binfarce_figures;
#[cfg(any(test, feature = "programs"))]
pub mod binfarce_needs;
pub mod binfarce_addresses;
pub mod binfarce_frames;
pub mod binfarce_logs;
pub mod binfarce_sections;
#[cfg(any(test, feature = "programs"))]
pub mod binfarce_io;
#[cfg(any(test, feature = "programs"))]
pub mod binfarce_jobs;
#[cfg(any(test, feature = "programs"))]
pub mod binfarce_calls;
#[cfg(any(test, feature = "c"))]
pub mod binfarce_c;
#[cfg(any(test, feature = "programs"))]
pub mod binfarce_list;
#[cfg(any(test, feature = "programs"))]
pub mod binfarce_size;
#[cfg(any(test, feature = "programs"))]
pub mod binfarce_command;
#[cfg(test)]
#[cfg(feature = "stored")]
pub mod test_samples;
#[cfg(test)]
#[cfg(feature = "stored")]
pub mod test_image_samples;
#[cfg(test)]
#[cfg(feature = "stored")]
pub mod test_reading;
#[cfg(test)]
#[cfg(feature = "stored")]
pub mod test_limits;
#[cfg(test)]
#[cfg(feature = "stored")]
pub mod test_needs;
#[cfg(test)]
#[cfg(feature = "stored")]
pub mod test_identities;
#[cfg(test)]
#[cfg(feature = "stored")]
pub mod test_lookups;
#[cfg(test)]
#[cfg(feature = "stored")]
pub mod test_memory;
#[cfg(test)]
#[cfg(feature = "stored")]
pub mod test_names;
#[cfg(test)]
#[cfg(feature = "stored")]
pub mod test_formats;

#[cfg(test)]
#[cfg(feature = "stored")]
pub const TEST_PROGRAMS: &[(&str, crate::shim::test::Main)] = &[
    ("test_limits", test_limits::main),
    ("test_needs", test_needs::main),
    ("test_identities", test_identities::main),
    ("test_lookups", test_lookups::main),
    ("test_memory", test_memory::main),
    ("test_names", test_names::main),
    ("test_formats", test_formats::main),
];
