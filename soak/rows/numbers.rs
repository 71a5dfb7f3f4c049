//! Numbers: what std's `parse`, `from_str_radix` and `format!` say of texts, and tables by hand.

use super::small_texts::texts_of;
use super::{Row, Rows};
use crate::kinds::numbers::Fault::{Empty, NotDigit, TooLarge};
use crate::kinds::numbers::{
    ask_decimal, ask_decimal_written, ask_decimals, ask_hex, ask_numbers, ask_numbers_of_radix, number_of, taken_of, Decimal,
    Fault, TYPES,
};

pub static ROWS: &[Row] = &[
    ("numbers_are_those_of_parse", |rows| TEXTS.split(' ').chain([""]).for_each(|text| ask_as_parse(text, rows))),
    ("every_number_of_one_byte", |rows| (-129..257).for_each(|number: i16| ask_as_parse(&number.to_string(), rows))),
    ("small_texts_in_each_radix", |rows| {
        for text in texts_of(b"-+019aFz ", 3) {
            let text = String::from_utf8(text).expect("ASCII");
            [2, 8, 10, 16, 35, 36].into_iter().for_each(|radix| ask_radix(radix, &text, rows));
        }
    }),
    ("every_radix_has_its_digits", |rows| {
        for radix in 2..37 {
            ["1z", "-10", "Zz", "7", "110", "ff", "-80"].into_iter().for_each(|text| ask_radix(radix, text, rows));
        }
    }),
    ("the_first_fault_of_a_number", faults),
    ("the_digits_at_the_start", starts),
    ("digits_are_appended", |rows| {
        let numbers = [0, u64::MAX.into(), -128_i128 as u128, u128::MAX];
        let many: String = (0..10_000).map(|number| number.to_string()).collect();
        for text in ["", "0", "018446744073709551615", "018446744073709551615-128", many.as_str()] {
            numbers.into_iter().for_each(|number| rows.ask(|asked| ask_decimals(number, text.as_bytes(), asked)));
        }
    }),
    ("decimal_numbers_are_read", |rows| {
        rows.each(DECIMALS, |(text, decimal), asked| ask_decimal(text.as_bytes(), Ok(decimal), asked))
    }),
    ("decimal_numbers_are_written", |rows| {
        rows.each(WRITTEN, |(decimal, text), asked| ask_decimal_written(decimal, text, asked))
    }),
    ("the_first_fault_of_a_decimal_number", |rows| {
        rows.each(FAULTS, |(text, fault), asked| ask_decimal(text.as_bytes(), Err(fault), asked))
    }),
    ("parts_that_std_writes", parts),
    ("hexadecimal_digits_are_those_of_format", |rows| {
        for number in [0, 1, 9, 10, 15, 16, 255, 256, 0xdead_beef, 1 << 60, u64::MAX - 1, u64::MAX] {
            rows.each([0, 1, 2, 15, 16, 17, 20], |width, asked| ask_hex(number, width, b"-", asked));
        }
    }),
];

/// The largest and the least number of each type and one beyond it, among others, with a space between each two.
static TEXTS: &str = "0 0042 255 256 25x 65535 65536 4294967295 4294967296 18446744073709551615 18446744073709551616 \
    340282366920938463463374607431768211455 340282366920938463463374607431768211456 - --1 -x 1- -0 -007 127 128 -128 -129 \
    32767 32768 -32768 -32769 2147483647 2147483648 -2147483648 -2147483649 9223372036854775807 9223372036854775808 \
    -9223372036854775808 -9223372036854775809 170141183460469231731687303715884105728 \
    -170141183460469231731687303715884105728 -170141183460469231731687303715884105729";

/// What `parse` reads as each of the types.
macro_rules! parsed_as {
    ($text:expr; $($kind:ty),*) => {
        [$($text.parse::<$kind>().ok().map(|number| number.to_string())),*]
    };
}

/// Asks for the numbers that a text writes, which has no `+` at its start.
fn ask_as_parse(text: &str, rows: &mut Rows) {
    let parsed = parsed_as!(text; u8, u16, u32, u64, u128, usize, i8, i16, i32, i64, i128, isize);
    for (kind, parsed) in TYPES.into_iter().zip(parsed) {
        assert_eq!(number_of(text.as_bytes(), 10, kind).ok(), parsed, "{text}");
    }
    rows.ask(|asked| ask_numbers(text.as_bytes(), asked));
}

/// Asks for the numbers of a radix. For `from_str_radix` a text that begins with `+` is a number, and not here.
fn ask_radix(radix: u32, text: &str, rows: &mut Rows) {
    let signed = i8::from_str_radix(text, radix).ok().filter(|_| !text.starts_with('+'));
    let unsigned = u8::from_str_radix(text, radix).ok().filter(|_| !text.starts_with('+'));
    let read = |kind: usize| number_of(text.as_bytes(), radix, TYPES[kind]).ok();
    assert_eq!(read(I8), signed.map(|number| number.to_string()), "{text}");
    assert_eq!(read(U8), unsigned.map(|number| number.to_string()), "{text}");
    rows.ask(|asked| ask_numbers_of_radix(radix, text.as_bytes(), asked));
}

/// The types of one byte, by their numbers in `TYPES`.
const U8: usize = 0;
const I8: usize = 6;

/// A text, a type, and what the text writes as that.
static NUMBERS: [(&str, usize, Result<i16, Fault>); 22] = [
    ("-128", I8, Ok(-128)),
    ("-0", I8, Ok(0)),
    ("", I8, Err(Empty)),
    ("-", I8, Err(Empty)),
    ("+1", I8, Err(NotDigit(0))),
    ("--1", I8, Err(NotDigit(1))),
    ("-1-", I8, Err(NotDigit(2))),
    ("- 1", I8, Err(NotDigit(1))),
    ("128", I8, Err(TooLarge(2))),
    ("-129", I8, Err(TooLarge(3))),
    ("-00200x", I8, Err(TooLarge(5))),
    ("007", U8, Ok(7)),
    ("", U8, Err(Empty)),
    ("x", U8, Err(NotDigit(0))),
    ("+1", U8, Err(NotDigit(0))),
    ("-1", U8, Err(NotDigit(0))),
    ("-", U8, Err(NotDigit(0))),
    ("12 ", U8, Err(NotDigit(2))),
    ("25x6", U8, Err(NotDigit(2))),
    ("256", U8, Err(TooLarge(2))),
    ("256x", U8, Err(TooLarge(2))),
    ("00300", U8, Err(TooLarge(4))),
];

/// The numbers of a table are those that the plain loop reads, and the library reads what that loop reads.
fn faults(rows: &mut Rows) {
    for (text, kind, number) in NUMBERS {
        assert_eq!(number_of(text.as_bytes(), 10, TYPES[kind]), number.map(|number| number.to_string()), "{text}");
        rows.ask(|asked| ask_numbers(text.as_bytes(), asked));
    }
}

/// A text, a type, and the number at the start of the text as that, with what follows it.
static STARTS: [(&str, usize, Result<(i16, &str), Fault>); 15] = [
    ("-7", I8, Ok((-7, ""))),
    ("-5-6", I8, Ok((-5, "-6"))),
    ("5-6", I8, Ok((5, "-6"))),
    ("-128.", I8, Ok((-128, "."))),
    ("", I8, Err(Empty)),
    ("-", I8, Err(Empty)),
    ("--7", I8, Err(NotDigit(1))),
    ("-1280", I8, Err(TooLarge(4))),
    ("7", U8, Ok((7, ""))),
    ("007.5", U8, Ok((7, ".5"))),
    ("25 6", U8, Ok((25, " 6"))),
    ("", U8, Err(Empty)),
    (" 7", U8, Err(NotDigit(0))),
    ("256", U8, Err(TooLarge(2))),
    ("2560.", U8, Err(TooLarge(2))),
];

fn starts(rows: &mut Rows) {
    for (text, kind, taken) in STARTS {
        let taken = taken.map(|(number, rest)| (number.to_string(), rest.as_bytes()));
        assert_eq!(taken_of(text.as_bytes(), TYPES[kind]), taken, "{text}");
        rows.ask(|asked| ask_numbers(text.as_bytes(), asked));
    }
}

/// A text, and the decimal number that it writes.
static DECIMALS: [(&str, Decimal); 19] = [
    ("-12.50", (true, 125, 1)),
    ("12.5", (false, 125, 1)),
    ("7", (false, 7, 0)),
    ("0.05", (false, 5, 2)),
    ("0", (false, 0, 0)),
    ("-0", (true, 0, 0)),
    ("-0.00", (true, 0, 0)),
    ("00.10", (false, 1, 1)),
    ("2.000", (false, 2, 0)),
    ("100", (false, 100, 0)),
    ("100.001", (false, 100001, 3)),
    ("1.0203", (false, 10203, 4)),
    ("18446744073709551615", (false, u64::MAX, 0)),
    ("18446744073709551615.0000", (false, u64::MAX, 0)),
    ("1844674407370955161.5", (false, u64::MAX, 1)),
    ("-0.18446744073709551615", (true, u64::MAX, 20)),
    ("000000000000000000000000000000.5", (false, 5, 1)),
    ("0.50000000000000000000000000000", (false, 5, 1)),
    ("0.0000000000000000000000000000000000000000", (false, 0, 0)),
];

/// A decimal number, and its text.
static WRITTEN: [(Decimal, &str); 10] = [
    ((true, 125, 1), "-12.5"),
    ((false, 5, 2), "0.05"),
    ((false, 7, 0), "7"),
    ((true, 0, 0), "-0"),
    ((false, 0, 2), "0.00"),
    ((false, 150, 2), "1.50"),
    ((false, u64::MAX, 0), "18446744073709551615"),
    ((true, u64::MAX, 19), "-1.8446744073709551615"),
    ((false, u64::MAX, 20), "0.18446744073709551615"),
    ((false, u64::MAX, 22), "0.0018446744073709551615"),
];

/// A text, and why it does not write a decimal number.
static FAULTS: [(&str, Fault); 28] = [
    ("", Empty),
    ("-", Empty),
    ("+1", NotDigit(0)),
    (".5", NotDigit(0)),
    (".", NotDigit(0)),
    ("-.5", NotDigit(1)),
    ("--1", NotDigit(1)),
    ("5.", NotDigit(1)),
    ("-5.", NotDigit(2)),
    ("5..", NotDigit(2)),
    ("5.x", NotDigit(2)),
    ("5.-1", NotDigit(2)),
    ("1e3", NotDigit(1)),
    ("x.5", NotDigit(0)),
    ("1.2.3", NotDigit(3)),
    ("1.2.000", NotDigit(3)),
    ("1.5x000", NotDigit(3)),
    ("1,5", NotDigit(1)),
    (" 1", NotDigit(0)),
    ("1 ", NotDigit(1)),
    ("18446744073709551616", TooLarge(19)),
    ("-18446744073709551616", TooLarge(20)),
    ("00018446744073709551616", TooLarge(22)),
    ("18446744073709551616.", TooLarge(19)),
    ("18446744073709551616x", TooLarge(19)),
    ("1844674407370955161.6", TooLarge(20)),
    ("18446744073709551615.01", TooLarge(21)),
    ("-0.0000000000000000000018446744073709551616", TooLarge(42)),
];

/// A number with one to three places, as `format!` writes it, is read without the zeros at its end.
fn parts(rows: &mut Rows) {
    for digits in 0..2001_u64 {
        for (places, scale) in [(1, 10), (2, 100), (3, 1000)] {
            let text = format!("{}.{:0places$}", digits / scale, digits % scale);
            let (mut left, mut kept) = (digits, places);
            while kept > 0 && left % 10 == 0 {
                (left, kept) = (left / 10, kept - 1);
            }
            rows.ask(|asked| ask_decimal(text.as_bytes(), Ok((false, left, kept)), asked));
        }
    }
}
