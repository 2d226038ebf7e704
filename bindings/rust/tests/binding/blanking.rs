//! Blanking.

use sim0mq::{blank, blanked, judge, MOST_BYTES};

use crate::{carrying, told, with, S};

#[test]
fn the_sample_has_zero_in_its_double_alone() {
    let copy = blanked(S).unwrap();
    assert_eq!(copy, [&S[..69], &[0; 8]].concat());
    assert_eq!(judge(&copy), judge(S));
}

#[test]
fn the_rest_of_the_output_stays() {
    let mut out = [0xAA; 80];
    assert_eq!(blank(S, &mut out), Ok(77));
    assert_eq!(out[..77], blanked(S).unwrap());
    assert_eq!(out[77..], [0xAA; 3]);
}

#[test]
fn a_refusal_leaves_the_output() {
    let mut out = [0xAA; 76];
    assert_eq!(told(blank(S, &mut out).unwrap_err()), (14, 0));
    assert_eq!(told(blank(&with(&[(64, 4)]), &mut out).unwrap_err()), (6, 64));
    assert_eq!(out, [0xAA; 76]);
    assert_eq!(told(blank(S, &mut []).unwrap_err()), (14, 0));
    assert_eq!(told(blank(&[], &mut []).unwrap_err()), (1, 0));
}

#[test]
fn refused_messages_have_no_blanked_copy() {
    assert_eq!(told(blanked(&[]).unwrap_err()), (1, 0));
    assert_eq!(told(blanked(&with(&[(68, 33)])).unwrap_err()), (9, 68));
    assert_eq!(told(blanked(&vec![0; 10 * MOST_BYTES]).unwrap_err()), (8, 0));
}

#[test]
fn counts_and_marks_stay() {
    let payload = b"\x09\0\0\0\x05Alice\x1A\x65\x03\xD2\x15\x40\xA3\x88\0\0\0\0\0";
    let copy = blanked(&carrying(2, payload)).unwrap();
    assert_eq!(copy, carrying(2, b"\x09\0\0\0\x05\0\0\0\0\0\x1A\x65\x03\xD2\x15\0\0\0\0\0\0\0\0"));
}
