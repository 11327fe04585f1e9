// From crates/binfarce_logs/src/pages.rt, by tools/erase.

//! Where a mapping of a segment begins, for each size of pages by which it may be loaded: 4, 16 and 64 KiB.

// The largest page that loads a segment of this alignment; 1 if none does.
pub(crate) fn largest_page(align: u64) -> u64 {
    if align == 0 {
        1
    } else if align % 65536 == 0 {
        65536
    } else if align % 16384 == 0 {
        16384
    } else if align % 4096 == 0 {
        4096
    } else {
        1
    }
}

// The beginning of the page of this size in which an address is.
fn page_at(page: u64, address: u64) -> u64 {
    address - address % page
}

// Whether a mapping at this offset in the file may begin with the page of this size that an address is in.
fn may_begin(largest: u64, offset: u64, page: u64, address: u64) -> bool {
    largest > 1 && page_at(page, address) % largest == offset % largest
}

// Where it begins, of a segment that begins at this address.
pub(crate) fn beginning(largest: u64, offset: u64, address: u64) -> Option<u64> {
    if may_begin(largest, offset, 4096, address) {
        Some(page_at(4096, address))
    } else if may_begin(largest, offset, 16384, address) {
        Some(page_at(16384, address))
    } else if may_begin(largest, offset, 65536, address) {
        Some(page_at(65536, address))
    } else {
        None
    }
}

// Where a mapping begins whose offset isn't known: where the pages of all sizes begin with the same address.
pub(crate) fn only_beginning(largest: u64, address: u64) -> Option<u64> {
    if largest > 1 && page_at(largest, address) == page_at(4096, address) {
        Some(page_at(4096, address))
    } else {
        None
    }
}
