//! Instances of generics over the constants of each type that they may have: the ends of every integer, both
//! booleans, and characters of each class. `const-names.sh` takes their names.

use std::hint::black_box;

// A function for each type, and its calls.
macro_rules! instances {
    ($call:ident: $($name:ident, $type:ty: $($value:expr),+;)+) => {
        $(#[inline(never)]
        fn $name<const VALUE: $type>() {
            black_box(VALUE);
        })+
        fn $call() {
            $($($name::<{ $value }>();)+)+
        }
    };
}

instances! { integers:
    signed_8, i8: i8::MIN, -1, 0, 1, i8::MAX;
    signed_16, i16: i16::MIN, -1, 0, i16::MAX;
    signed_32, i32: i32::MIN, -1, 0, i32::MAX;
    signed_64, i64: i64::MIN, -1, 0, i64::MAX;
    signed_128, i128: i128::MIN, i64::MIN as i128 - 1, -1, 0, u64::MAX as i128 + 1, i128::MAX;
    signed_size, isize: isize::MIN, -1, 0, isize::MAX;
    unsigned_8, u8: 0, 1, u8::MAX;
    unsigned_16, u16: 0, u16::MAX;
    unsigned_32, u32: 0, u32::MAX;
    unsigned_64, u64: 0, u64::MAX;
    unsigned_128, u128: 0, u64::MAX as u128, u64::MAX as u128 + 1, u128::MAX;
    unsigned_size, usize: 0, usize::MAX;
}

instances! { others:
    boolean, bool: false, true;
    ascii, char: ' ', '!', '"', '0', 'A', '[', ']', '_', 'a', '{', '}', '~';
    escaped, char: '\'', '\\';
    control, char: '\0', '\t', '\n', '\r', '\u{1b}', '\u{1f}', '\u{7f}', '\u{80}', '\u{9f}';
    beyond_ascii, char: '\u{a0}', 'ü', 'α', 'ᚠ', '\u{d7ff}', '\u{e000}', '中', '\u{feff}', '\u{ffff}';
    beyond_16_bits, char: '\u{10000}', '🦀', '\u{10ffff}';
}

// Constants below types, impls, traits and closures, and in what back references stand for.
struct Held<const SIZE: i16, const KEPT: bool, const MARK: char>;

trait Shown {
    fn show(&self);
}

impl<const SIZE: i16, const KEPT: bool, const MARK: char> Held<SIZE, KEPT, MARK> {
    #[inline(never)]
    fn hold(&self) {
        // A type within the impl: its path has the impl's constants as placeholders.
        struct Guard;
        impl Drop for Guard {
            #[inline(never)]
            fn drop(&mut self) {
                black_box(0);
            }
        }
        let _guard = Guard;
        let closure = || black_box((SIZE, KEPT, MARK));
        closure();
    }
}

impl<const SIZE: i16, const KEPT: bool, const MARK: char> Shown for Held<SIZE, KEPT, MARK> {
    #[inline(never)]
    fn show(&self) {
        black_box((SIZE, KEPT, MARK));
    }
}

#[inline(never)]
fn both<First, Second>(_first: &First, _second: &Second) {
    black_box(0);
}

fn main() {
    integers();
    others();
    let (first, second) = (Held::<-2, false, '\''>, Held::<0x7fff, true, 'z'>);
    first.hold();
    second.hold();
    first.show();
    second.show();
    both(&first, &second);
    both(&[first], &(second, Held::<-2, false, '\''>));
}
