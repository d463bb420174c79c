//! Bytes that are no sheet.

use crate::common::*;
use second::{authority, fit, form, group, print, run};

/// Every question must give the same refusal.
fn refused(text: &[u8], number: u32, line: u32) {
    let expected = (number, line);
    assert_eq!(verdict(text), expected);
    assert_eq!(pair(second::read(text)), expected);
    assert_eq!(pair(fit(text, 0, 0)), expected);
    assert_eq!(pair(form(text, 0)), expected);
    assert_eq!(pair(run(text, 8)), expected);
    assert_eq!(pair(authority(text, 8, 256)), expected);
    assert_eq!(pair(group(text, 8, &[256])), expected);
    assert_eq!(print(text), format!("verdict={number}\nline={line}\n"));
}

#[test]
fn empty_text_and_missing_final_byte() {
    refused(b"", 3, 1);
    refused(b"\n", 3, 1);
    refused(b"types=1", 3, 1);
    refused(b"types=1\n", 3, 2);
    refused(&CLERK[..CLERK.len() - 1], 3, 20);
}

#[test]
fn bytes_over_127_and_other_strange_bytes() {
    for byte in [0, 9, 11, 13, 32, b'+', b'-', b'.', b'A', 127, 128, 200, 255] {
        for place in [0, 6, 50] {
            let mut text = CLERK.to_vec();
            text.insert(place, byte);
            let breaks = CLERK[..place].iter().filter(|b| **b == b'\n').count();
            refused(&text, 3, breaks as u32 + 1);
        }
    }
    refused(&[255; 300], 3, 1);
}

#[test]
fn carriage_returns() {
    let text = String::from_utf8_lossy(CLERK).replace('\n', "\r\n");
    refused(text.as_bytes(), 3, 1);
    refused(&with_line(CLERK, 20, "call=2,2,0\r"), 3, 20);
}

#[test]
fn long_texts() {
    let mut text = CLERK.to_vec();
    text.resize(65_535, b'x');
    refused(&text, 3, 21);
    text.push(b'x');
    refused(&text, 2, 0);
    text.resize(70_000, b'x');
    refused(&text, 2, 0);
    refused(&[0; 70_000], 2, 0);
    refused(&[b'\n'; 65_536], 2, 0);
    refused(&[b'\n'; 65_535], 3, 1);
}

#[test]
fn long_numbers() {
    for digits in ["65536", "99999", "100000", "123456", "000000"] {
        refused(&with_line(CLERK, 4, &format!("def={digits},0,0")), 3, 4);
        refused(&with_line(CLERK, 20, &format!("call=2,2,{digits}")), 3, 20);
    }
    let long = "7".repeat(600);
    refused(&with_line(CLERK, 1, &format!("types={long}")), 3, 1);
    refused(&with_line(CLERK, 19, &format!("new={long},1")), 3, 19);
    // The highest decimal is in shape, and then over its limit.
    refused(&with_line(CLERK, 1, "types=65535"), 4, 1);
    refused(&with_line(CLERK, 20, "call=65535,2,0"), 7, 20);
}

#[test]
fn leading_zeros() {
    for zeros in ["00", "01", "002"] {
        refused(&with_line(CLERK, 11, &format!("copy={zeros}")), 3, 11);
    }
}
