//! The value and count cases of the recorded lists, always the same and in
//! the same order.

use crate::schema::FieldType;
use crate::values::FIELD_TYPES;
use std::collections::HashSet;

/// The letters of the short values: digits, the marks of numbers, dates and
/// times, a space, capital letters, and byte strings that are invalid, cut
/// off or complete UTF-8.
pub const LETTERS: [&[u8]; 20] = [
    b"0",
    b"1",
    b"3",
    b"9",
    b"+",
    b"-",
    b".",
    b":",
    b"w",
    b" ",
    b"A",
    b"N",
    b"Y",
    b"\xff",
    b"\xe2\x82",
    b"\xc0\x80",
    b"\xed\xa0\x80",
    b"\xf4\x90",
    b"\xf0\x9f\x98\x80",
    b"\xc3\xa9",
];

/// A list that keeps the first of equal cases.
struct Cases<C> {
    list: Vec<C>,
    known: HashSet<C>,
}

impl<C: Clone + Eq + std::hash::Hash> Cases<C> {
    fn new() -> Self {
        Self {
            list: Vec::new(),
            known: HashSet::new(),
        }
    }

    fn add(&mut self, case: C) {
        if self.known.insert(case.clone()) {
            self.list.push(case);
        }
    }
}

/// All value cases: a field type and a value.
pub fn value_cases() -> Vec<(FieldType, Vec<u8>)> {
    let mut cases = Cases::new();
    for field_type in FIELD_TYPES {
        for value in short_values() {
            cases.add((field_type, value));
        }
        for value in examples(field_type) {
            cases.add((field_type, value.as_bytes().to_vec()));
        }
        for value in values_for(field_type) {
            cases.add((field_type, value));
        }
    }
    cases.list
}

/// All count cases.
pub fn count_cases() -> Vec<Vec<u8>> {
    let mut cases = Cases::new();
    for value in short_values() {
        cases.add(value);
    }
    for value in COUNTS {
        cases.add(value.as_bytes().to_vec());
    }
    for zeros in [1, 2, 18, 19, 20, 21, 30] {
        for count in [
            "",
            "0",
            "1",
            "7",
            "18446744073709551615",
            "18446744073709551616",
        ] {
            cases.add(format!("{}{count}", "0".repeat(zeros)).into_bytes());
        }
    }
    for digits in 1..=25 {
        for digit in ["1", "9"] {
            cases.add(digit.repeat(digits).into_bytes());
        }
    }
    for value in damaged("18446744073709551615", b"0:9/+ ") {
        cases.add(value);
    }
    for byte in 0..=255u8 {
        cases.add(vec![byte]);
        cases.add(vec![b'1', byte]);
    }
    cases.list
}

const COUNTS: &[&str] = &[
    "007",
    "2",
    "42",
    "4096",
    "2147483647",
    "2147483648",
    "4294967295",
    "4294967296",
    "9223372036854775807",
    "9223372036854775808",
    "1844674407370955161",
    "1844674407370955162",
    "18446744073709551609",
    "18446744073709551610",
    "18446744073709551614",
    "18446744073709551615",
    "18446744073709551616",
    "18446744073709551617",
    "18446744073709551619",
    "18446744073709551620",
    "18446744073709551625",
    "18446744073709551626",
    "18446744073709552000",
    "184467440737095516150",
    "36893488147419103232",
    "36893488147419103233",
    "99999999999999999999",
    "100000000000000000000",
    "340282366920938463463374607431768211456",
    "+1",
    "-1",
    " 1",
    "1 ",
    "1a",
    "a1",
    "1.0",
    "1e3",
    "0x1",
    "1_000",
    "1,000",
    "\u{661}",
    "\u{ff11}",
];

/// No letter, one letter, two letters.
fn short_values() -> Vec<Vec<u8>> {
    words_up_to(2, &LETTERS)
}

/// All values of up to `length` letters, the shorter ones first.
fn words_up_to(length: usize, letters: &[&[u8]]) -> Vec<Vec<u8>> {
    let mut all = vec![Vec::new()];
    let mut last = all.clone();
    for _ in 0..length {
        last = last
            .iter()
            .flat_map(|word| letters.iter().map(move |letter| [word, *letter].concat()))
            .collect();
        all.extend(last.iter().cloned());
    }
    all
}

/// The examples in FIX's descriptions of the data types (FIX 4.4, and FIX 5.0
/// for the types that came later), as far as a description gives any: Int,
/// Float, Percentage, Boolean, String, the lists, MonthYear, the UTC and Tz
/// types and Tenor. For the others, ordinary values. The descriptions do not
/// lie in docs/, so the examples stand here as they are remembered.
pub fn examples(field_type: FieldType) -> &'static [&'static str] {
    match field_type {
        FieldType::Int => &["723", "-723", "99999", "-99999", "00023", "23"],
        FieldType::Length => &["30", "5"],
        FieldType::SeqNum => &["1", "117"],
        FieldType::NumInGroup => &["1", "2"],
        FieldType::TagNum => &["35", "447", "5000"],
        FieldType::DayOfMonth => &["1", "15", "31"],
        FieldType::Float => &["00023.23", "23.23", "23.0", "23.0000", "23", "23."],
        FieldType::Qty => &["1000", "1000.5", "100"],
        FieldType::Price => &["23.23", "-23.23", "99.95"],
        FieldType::PriceOffset => &["0.25", "-0.25"],
        FieldType::Amt => &["6847.00", "-100.50"],
        FieldType::Percentage => &[".05", ".9525", "0.0525", "0.9525"],
        FieldType::Char => &["A", "m", "M", "1"],
        FieldType::Boolean => &["Y", "N"],
        FieldType::String => &["morstatt", "Morstatt", "AT&T"],
        FieldType::MultipleCharValue => &["2 A F"],
        FieldType::MultipleStringValue => &["2 A F", "AV AN A"],
        FieldType::Country => &["US", "DE", "JP"],
        FieldType::Currency => &["USD", "EUR", "JPY"],
        FieldType::Exchange => &["XNYS", "XLON", "N"],
        FieldType::MonthYear => &["200303", "20030320", "200303w2"],
        FieldType::UtcTimestamp => &[
            "20011217-09:30:47",
            "20011217-09:30:47.123",
            "20011217-09:30:47.123456",
            "20011217-09:30:47.123456789",
            "20011217-09:30:47.123456789123",
            "19981231-23:59:59",
            "19981231-23:59:60",
            "19990101-00:00:00",
        ],
        FieldType::UtcTimeOnly => &["13:20:00", "13:20:00.123", "13:20:00.000"],
        FieldType::UtcDateOnly => &["20030910"],
        FieldType::LocalMktDate => &["20030910"],
        FieldType::LocalMktTime => &["07:00:00", "13:30"],
        FieldType::TzTimeOnly => &["07:39Z", "02:39-05", "15:39+08", "13:09+05:30"],
        FieldType::TzTimestamp => &[
            "20060901-07:39Z",
            "20060901-02:39-05",
            "20060901-15:39+08",
            "20060901-13:09+05:30",
        ],
        FieldType::Data => &["raw data", "a=b"],
        FieldType::XmlData => &["<FIXML></FIXML>"],
        FieldType::Language => &["en", "es", "fr"],
        FieldType::Pattern => &["[a-z]+"],
        FieldType::Tenor => &["D5", "M12", "W13", "Y1"],
        FieldType::Reserved => &["100"],
    }
}

/// The longer values for the form test of one type.
fn values_for(field_type: FieldType) -> Vec<Vec<u8>> {
    match field_type {
        FieldType::Int
        | FieldType::Length
        | FieldType::SeqNum
        | FieldType::NumInGroup
        | FieldType::TagNum => bytes_of(INTEGERS),
        FieldType::DayOfMonth => days_of_month(),
        FieldType::Float
        | FieldType::Qty
        | FieldType::Price
        | FieldType::PriceOffset
        | FieldType::Amt
        | FieldType::Percentage => bytes_of(DECIMALS),
        FieldType::Char => characters(),
        FieldType::Boolean => bytes_of(&["y", "n", "YN", "Y ", " Y", "true", "0", "1", "YY"]),
        FieldType::MultipleCharValue | FieldType::MultipleStringValue => multi_value_lists(),
        FieldType::Country => codes(2),
        FieldType::Currency => codes(3),
        FieldType::MonthYear => month_years(),
        FieldType::UtcDateOnly | FieldType::LocalMktDate => dates(),
        FieldType::UtcTimeOnly => times(),
        FieldType::UtcTimestamp => timestamps(),
        FieldType::String
        | FieldType::Exchange
        | FieldType::LocalMktTime
        | FieldType::TzTimeOnly
        | FieldType::TzTimestamp
        | FieldType::Data
        | FieldType::XmlData
        | FieldType::Language
        | FieldType::Pattern
        | FieldType::Tenor
        | FieldType::Reserved => {
            let mut values = bytes_of(&["A  B", "20240230-25:61:61", "-", "."]);
            values.push((0..=255).collect());
            values
        }
    }
}

const INTEGERS: &[&str] = &[
    "-00",
    "-007",
    "007",
    "--1",
    "---",
    "-1-",
    "1-1",
    "-+1",
    "+-1",
    "+01",
    " 1 ",
    "1 1",
    "1.0",
    "-1.0",
    "-0.",
    "1e5",
    "1,000",
    "0x1F",
    "12a",
    "a12",
    "-a",
    "2147483647",
    "-2147483648",
    "4294967295",
    "4294967296",
    "18446744073709551615",
    "18446744073709551616",
    "-18446744073709551616",
    "99999999999999999999999999999999999999999",
    "000000000000000000000000000000",
    "/",
    "1/",
    "1:",
    "\u{2212}1",
    "\u{661}",
    "\u{ff11}",
    "1\0",
    "\n1",
];

const DECIMALS: &[&str] = &[
    "5.",
    "-5.",
    ".5",
    "-.5",
    "-.",
    "--5",
    "-.-",
    "..5",
    "5..",
    "1..2",
    "1.2.3",
    ".1.",
    "1.-2",
    "-1.2",
    "-0",
    "-0.0",
    "0.0",
    "00.00",
    "1.2-",
    "+1.5",
    "-+1",
    "+-1",
    "1e5",
    "1E-5",
    "1,000",
    "1,5",
    "1 000",
    " 1.5",
    "1.5 ",
    "12a",
    "1.a",
    "NaN",
    "inf",
    "99999999999999999999999999999999999999999",
    "0.00000000000000000000000000000000000001",
    "000000000000000000000000000000.000000000000000000000000000000",
    "1/2",
    "1:2",
    "\u{2212}1.5",
    "1\u{66b}5",
    "1.\0",
];

/// All numbers of one and two digits, leading zeros, and numbers that come
/// to a day when they are cut to 32 or 64 bits.
fn days_of_month() -> Vec<Vec<u8>> {
    let mut values = bytes_of(INTEGERS);
    for day in 0..100 {
        values.push(format!("{day}").into_bytes());
        values.push(format!("{day:02}").into_bytes());
    }
    for zeros in [1, 2, 3, 8, 18, 30] {
        for day in [
            "0", "1", "9", "10", "29", "30", "31", "32", "40", "99", "100", "310",
        ] {
            values.push(format!("{}{day}", "0".repeat(zeros)).into_bytes());
        }
    }
    values.extend(bytes_of(&[
        "100",
        "101",
        "131",
        "310",
        "311",
        "255",
        "256",
        "257",
        "287",
        "65536",
        "65537",
        "65567",
        "4294967294",
        "4294967295",
        "4294967296",
        "4294967297",
        "4294967326",
        "4294967327",
        "4294967328",
        "04294967297",
        "18446744073709551616",
        "18446744073709551617",
        "18446744073709551647",
        "10000000000",
        "-31",
        "+31",
        " 31",
        "31 ",
        "31.",
        "3 1",
        "3:",
    ]));
    values
}

/// Values at the boundaries of UTF-8: every byte by itself, then first bytes
/// with the second, third and fourth bytes next to their limits.
fn characters() -> Vec<Vec<u8>> {
    let mut values: Vec<Vec<u8>> = (0..=255u8).map(|byte| vec![byte]).collect();
    for first in [
        0x7f, 0x80, 0xbf, 0xc0, 0xc1, 0xc2, 0xdf, 0xe0, 0xe1, 0xec, 0xed, 0xee, 0xef, 0xf0, 0xf1,
        0xf3, 0xf4, 0xf5, 0xf8, 0xff,
    ] {
        for second in [
            0x00, 0x41, 0x7f, 0x80, 0x8f, 0x90, 0x9f, 0xa0, 0xbf, 0xc0, 0xff,
        ] {
            values.push(vec![first, second]);
        }
    }
    for first in [0xe0, 0xe1, 0xed, 0xee, 0xef, 0xf0, 0xf1, 0xf4] {
        for second in [0x80, 0x8f, 0x90, 0x9f, 0xa0, 0xbf] {
            for third in [0x41, 0x7f, 0x80, 0xbf, 0xc0] {
                values.push(vec![first, second, third]);
            }
        }
    }
    for first in [0xf0, 0xf1, 0xf3, 0xf4] {
        for second in [0x80, 0x8f, 0x90, 0xbf] {
            for third in [0x41, 0x80] {
                for fourth in [0x41, 0x80, 0xbf, 0xc0] {
                    values.push(vec![first, second, third, fourth]);
                }
            }
        }
    }
    values.extend(bytes_of(&["AB", "A ", "ABC", "\u{1f600}A", "e\u{301}"]));
    values
}

/// Lists with spaces in all places, over whole and cut characters.
fn multi_value_lists() -> Vec<Vec<u8>> {
    let mut values = words_up_to(3, &[b"A", b" ", b"\xe2", b"\x82", b"\xff"]);
    values.extend(words_up_to(2, &[b"A ", b"\xf0\x9f\x98", b"\x80", b" "]));
    values.extend(bytes_of(&[
        "A B",
        "A  B",
        " A B",
        "A B ",
        "A B C",
        "A B  C",
        "AB C",
        "A BC",
        "A B CD",
        "AB CD",
        "A  ",
        "  A",
        "   ",
        "A B C D E F G H",
        "A\tB",
        "A,B",
        "\u{1f600} \u{e9}",
        "\u{1f600}\u{e9} A",
        "A\u{a0}B",
        "A \u{3000} B",
    ]));
    values.push(b"A \xe2\x82 B".to_vec());
    values.push(b"A \xe2\x82\xac B".to_vec());
    values.push(b"A \xe2 \x82 B".to_vec());
    values.push(b"\xc0\x80 A".to_vec());
    values.push(b"\xff \xff \xff".to_vec());
    values
}

/// Codes of lengths around `length`, with each byte at the limits of the
/// letters in each place.
fn codes(length: usize) -> Vec<Vec<u8>> {
    let mut values = Vec::new();
    for count in 0..=5 {
        values.push(b"US".repeat(3)[..count].to_vec());
        values.push(b"ab".repeat(3)[..count].to_vec());
    }
    for place in 0..length {
        for byte in *b"@AZ[`az{0 \xff-" {
            let mut value = b"Mxm"[..length].to_vec();
            value[place] = byte;
            values.push(value);
        }
    }
    values.extend(bytes_of(&[
        "\u{e9}",
        "\u{e9}A",
        "U\u{e9}",
        "\u{20ac}",
        "\u{17f}\u{17f}",
    ]));
    values
}

fn month_years() -> Vec<Vec<u8>> {
    let mut values = digit_strings(4..=10);
    for year_month in ["202402", "202413", "202400", "000001", "999912"] {
        for week in [
            "w", "w0", "w1", "w2", "w3", "w4", "w5", "w6", "w9", "w/", "w:", "w01", "w1 ",
        ] {
            values.push(format!("{year_month}{week}").into_bytes());
        }
    }
    values.extend(bytes_of(&[
        "202402W1",
        "202402x1",
        "20240w1",
        "2024021w",
        "20240201w1",
        "2024w1",
        "w1",
        "w1202402",
        "202402 1",
        "202402-1",
        "2024-02",
        "202402w\u{661}",
        "20240\u{e9}",
        "20240\u{e9}w1",
        "2024\u{e9}w1",
        "2024021\u{e9}",
        "202402w1w1",
    ]));
    values.extend(date_ranges(""));
    values.extend(month_ranges());
    for good in ["202402", "202402w5", "20240229"] {
        values.extend(damaged(good, b"w-"));
    }
    values.extend(damaged("202412w1", b"/:\xff"));
    values
}

fn dates() -> Vec<Vec<u8>> {
    let mut values = digit_strings(5..=10);
    values.extend(bytes_of(&[
        "00000000",
        "99999999",
        "2024-02-29",
        "2024022\u{e9}",
        "202402w1",
        "20240229 ",
        " 20240229",
        "-2024022",
        "2024022.",
        "20240230",
        "20240431",
    ]));
    values.extend(date_ranges(""));
    values.extend(damaged("20240229", b"/:\xff"));
    values
}

fn times() -> Vec<Vec<u8>> {
    let mut values = Vec::new();
    values.extend(time_forms(""));
    values.extend(time_ranges(""));
    for good in ["09:30:00", "23:59:60.123"] {
        values.extend(damaged(good, b":./ \xff"));
    }
    values
}

fn timestamps() -> Vec<Vec<u8>> {
    let mut values = Vec::new();
    values.extend(time_forms("20240229-"));
    values.extend(time_ranges("20240229-"));
    values.extend(date_ranges("-09:30:00"));
    for digits in 0..=10 {
        values.push(format!("{}-09:30:00", &"2024022912"[..digits]).into_bytes());
    }
    values.extend(bytes_of(&[
        "20240229",
        "09:30:00",
        "-",
        "--",
        "20240229-",
        "-09:30:00",
        "20240229--09:30:00",
        "-20240229-09:30:00",
        "20240229-09:30:00-",
        "20240229 09:30:00",
        "20240229T09:30:00",
        "2024022909:30:00",
        "20240229-09:30:00Z",
        "20240229-09:30:00-05",
        "20240229-09-30-00",
        "2024-02-29-09:30:00",
        "20240229-09:30:00.-1",
        "20240229.5-09:30:00",
        "20240229-09:30:00.123-456",
        "20260230-25:99:99",
        "20240229\u{2010}09:30:00",
    ]));
    for good in ["20240229-09:30:00", "20011217-09:30:47.123"] {
        values.extend(damaged(good, b"-:\xff"));
    }
    values
}

/// Times with missing parts, parts of other lengths and fractions of 0 to 14
/// digits, each behind `before`.
fn time_forms(before: &str) -> Vec<Vec<u8>> {
    let mut values = Vec::new();
    for digits in 0..=14 {
        values.push(format!("{before}09:30:00.{}", &"12345678901234"[..digits]));
    }
    for hour in ["", "9", "09", "009"] {
        for minute in ["", "3", "30", "030"] {
            for second in ["", "0", "00", "000"] {
                values.push(format!("{before}{hour}:{minute}:{second}"));
            }
        }
    }
    for time in [
        "09",
        "0930",
        "093000",
        "09:30",
        "09:30:",
        ":30:00",
        "09::00",
        "09:30:00:",
        ":09:30:00",
        "09:30:00:00",
        "09:30:00.1.2",
        "09:30:00..1",
        "09:30.5",
        "09:30.5:00",
        ".123",
        ".",
        "09:30:00.12a",
        "09:30:00. 12",
        "09:30:00.+12",
        "09:30:00,123",
        "09:30:00.123Z",
        "09:30:00 ",
        " 09:30:00",
        "-9:30:00",
        "+9:30:00",
        "09.30.00",
        "09:30:00.1\u{e9}",
        "09:30:0\u{e9}",
        "9\u{e9}:30:00",
        "\u{661}:30:00",
        "09:30:00.\u{661}",
    ] {
        values.push(format!("{before}{time}"));
    }
    values.into_iter().map(String::into_bytes).collect()
}

/// Hours, minutes and seconds around their limits, each behind `before`.
fn time_ranges(before: &str) -> Vec<Vec<u8>> {
    let mut values = Vec::new();
    for hour in ["00", "01", "19", "20", "23", "24", "25", "29", "30", "99"] {
        values.push(format!("{before}{hour}:30:00"));
    }
    for minute in ["00", "01", "59", "60", "61", "99"] {
        values.push(format!("{before}09:{minute}:00"));
    }
    for second in ["00", "01", "59", "60", "61", "62", "69", "70", "99"] {
        for fraction in ["", ".5", ".999999999999"] {
            values.push(format!("{before}09:30:{second}{fraction}"));
        }
    }
    for time in [
        "00:00:00",
        "23:59:59",
        "23:59:60",
        "23:60:59",
        "24:00:00",
        "23:59:61",
        "24:60:61",
        "00:00:60",
        "24:00:00.0",
    ] {
        values.push(format!("{before}{time}"));
    }
    values.into_iter().map(String::into_bytes).collect()
}

/// Months and days around their limits, each with `behind` behind it.
fn date_ranges(behind: &str) -> Vec<Vec<u8>> {
    let mut values = Vec::new();
    for year in ["0000", "2024", "9999"] {
        for month in ["00", "01", "02", "09", "10", "12", "13", "20", "99"] {
            for day in ["00", "01", "09", "10", "29", "30", "31", "32", "40", "99"] {
                if year == "2024" || ["00", "01", "31", "32"].contains(&day) {
                    values.push(format!("{year}{month}{day}{behind}").into_bytes());
                }
            }
        }
    }
    values
}

/// YYYYMM with months around their limits.
fn month_ranges() -> Vec<Vec<u8>> {
    let months = [
        "00", "01", "02", "09", "10", "11", "12", "13", "19", "20", "99",
    ];
    ["0000", "2024", "9999"]
        .iter()
        .flat_map(|year| {
            months
                .iter()
                .map(move |month| format!("{year}{month}").into_bytes())
        })
        .collect()
}

/// Strings of digits of these lengths.
fn digit_strings(lengths: std::ops::RangeInclusive<usize>) -> Vec<Vec<u8>> {
    lengths
        .flat_map(|length| {
            ["2024022912", "0000000000", "9999999999"]
                .map(|digits| digits.as_bytes()[..length].to_vec())
        })
        .collect()
}

/// `good` with each place replaced by each of `bytes`, each place deleted,
/// and one byte more in each place.
fn damaged(good: &str, bytes: &[u8]) -> Vec<Vec<u8>> {
    let good = good.as_bytes();
    let mut values = Vec::new();
    for place in 0..good.len() {
        for byte in bytes.iter().chain(b"A ") {
            let mut value = good.to_vec();
            value[place] = *byte;
            values.push(value);
        }
        let mut value = good.to_vec();
        value.remove(place);
        values.push(value);
    }
    for place in 0..=good.len() {
        let mut value = good.to_vec();
        value.insert(place, b'0');
        values.push(value);
    }
    values
}

fn bytes_of(values: &[&str]) -> Vec<Vec<u8>> {
    values
        .iter()
        .map(|value| value.as_bytes().to_vec())
        .collect()
}
