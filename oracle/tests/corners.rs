//! Corners of `refusals.md`.

use oracle::checker::{check, Pass, Refusal};
use oracle::kinds::Kind;

const NO: u32 = 0x10000000;
/// A signature of an empty context and an empty stack, with nothing known.
const PLAIN: [u32; 9] = [0x03000000, NO, NO, NO, NO, NO, NO, NO, NO];

fn answer(image: &[u32]) -> Option<(u8, usize, Pass)> {
    check(&Kind::Stage, image).err().map(|Refusal { number, place, pass }| (number, place, pass))
}

fn layout(number: u8, place: usize) -> Option<(u8, usize, Pass)> {
    Some((number, place, Pass::Layout))
}

fn naming(number: u8, place: usize) -> Option<(u8, usize, Pass)> {
    Some((number, place, Pass::Naming))
}

fn flow(number: u8, place: usize) -> Option<(u8, usize, Pass)> {
    Some((number, place, Pass::Flow))
}

/// A signature with a head and its first registers; the others are nonsense.
fn signature(head: u32, registers: &[u32]) -> Vec<u32> {
    let mut words = vec![head];
    words.extend(registers);
    words.resize(9, NO);
    words
}

#[test]
fn ends_and_cuts() {
    assert_eq!(answer(&[]), layout(3, 0));
    assert_eq!(answer(&[0x01000000]), layout(3, 1));
    assert_eq!(answer(&[0x02000003, 0x10000000]), layout(2, 1));
    assert_eq!(answer(&[0x02000003, 0x11000000]), layout(2, 2));
    assert_eq!(answer(&[&PLAIN[..], &[0x05000003, 0x32000000]].concat()), layout(2, 10));
    assert_eq!(answer(&[&PLAIN[..], &[0x05000003, 0x20000000]].concat()), layout(2, 11));
    assert_eq!(answer(&PLAIN[..5]), layout(2, 5));
    assert_eq!(answer(&[0x04000300, 1, 2]), layout(2, 3));
}

#[test]
fn at_one_head_fields_come_before_limits() {
    assert_eq!(answer(&[0x02010000]), layout(2, 0));
    assert_eq!(answer(&[0x02000000]), layout(3, 0));
    assert_eq!(answer(&[0x02000011]), layout(3, 0));
    assert_eq!(answer(&[0x03010000]), layout(2, 0));
    assert_eq!(answer(&[0x03010021]), layout(2, 0));
    assert_eq!(answer(&[0x03000021]), layout(3, 0));
    assert_eq!(answer(&[0x030000A1]), layout(3, 0));
    assert_eq!(answer(&[0x04010000]), layout(2, 0));
    assert_eq!(answer(&[0x04000000]), layout(3, 0));
    assert_eq!(answer(&[0x05000041]), layout(3, 0));
}

#[test]
fn sections_in_order_and_in_number() {
    assert_eq!(answer(&[0x02000001, 0x11000000, 0x01000000]), layout(2, 2));
    assert_eq!(answer(&[0x06000000]), layout(2, 0));
    assert_eq!(answer(&[0x01000000; 17]), layout(3, 16));
    assert_eq!(answer(&[0x01000000; 16]), layout(3, 16));
    // 17 tuples of 16 cells would be 272.
    let tuple = [&[0x04001000][..], &[0; 16]].concat();
    assert_eq!(answer(&tuple.repeat(17)), layout(3, 16 * 17));
    assert_eq!(answer(&[0x04000100, 0].repeat(65)), layout(3, 128));
}

#[test]
fn names_come_before_labels() {
    // The shape is not there, and the code is no label.
    assert_eq!(answer(&[&[0x02000001, 0x12010010][..], &PLAIN, &[0x05000001, 0x32000000]].concat()), naming(4, 1));
    assert_eq!(answer(&[&[0x02000001, 0x12000010][..], &PLAIN, &[0x05000001, 0x32000000]].concat()), naming(5, 1));
    // A raised context: block 1 is not there, and 16 is no label.
    let blocks = [0x05000001, 0x32000000];
    assert_eq!(answer(&[&PLAIN[..], &signature(0x03100180, &[]), &blocks].concat()), naming(4, 9));
    assert_eq!(answer(&[&PLAIN[..], &signature(0x03100080, &[]), &blocks].concat()), naming(5, 9));
    // A raise to what is no label until a block that is not there.
    assert_eq!(answer(&[&PLAIN[..], &[0x05000002, 0x2D100001, 0x32000000]].concat()), naming(4, 10));
}

#[test]
fn layout_far_behind_comes_first() {
    assert_eq!(answer(&[&[0x01000010][..], &PLAIN, &[0x05000001, 0x33000000]].concat()), layout(2, 11));
}

#[test]
fn tuples() {
    let shapes = [0x02000001, 0x12000000, 0x02000001, 0x12000000];
    let rest = [&PLAIN[..], &[]].concat();
    let end = [0x05000001, 0x32000000];
    let image = |tuples: &[u32]| [&shapes[..], &rest, tuples, &end].concat();
    let first = shapes.len() + rest.len();
    assert_eq!(answer(&image(&[0x04000100, 0])), None);
    assert_eq!(answer(&image(&[0x04000100, 1])), naming(4, first + 1));
    assert_eq!(answer(&image(&[0x04000100, 1, 0x04000101, 0])), naming(7, first + 1));
    // A tuple of another shape, whose own head names a shape that is not there.
    assert_eq!(answer(&image(&[0x04000100, 1, 0x04000109, 0])), naming(7, first + 1));
    // A wrong number of cells comes before its plain words; a shape that is not there before that.
    assert_eq!(answer(&image(&[0x04000200, 9, 9])), naming(7, first));
    assert_eq!(answer(&image(&[0x04000209, 9, 9])), naming(4, first));
}

#[test]
fn the_start() {
    let end = [0x05000001, 0x32000000];
    assert_eq!(answer(&[&signature(0x03000000, &[0x1100000F]), &end[..]].concat()), None);
    assert_eq!(answer(&[&signature(0x03000000, &[0x13000000]), &end[..]].concat()), naming(6, 9));
    assert_eq!(answer(&[&signature(0x03000080, &[]), &end[..]].concat()), naming(6, 9));
    assert_eq!(answer(&[&signature(0x03000001, &[]), &[NO][..], &end].concat()), naming(6, 10));
    // A signature that is not there is 4, and faults before block 0 come first.
    assert_eq!(answer(&[&signature(0x03000080, &[]), &[0x05000101, 0x32000000][..]].concat()), naming(4, 9));
    assert_eq!(answer(&[&signature(0x03100080, &[]), &end[..]].concat()), naming(5, 0));
}

#[test]
fn everything_is_asked_where_control_goes() {
    // Block 0 has integers of label 1 in r0 and r1. Signature 1 wants r0 public (10) and r1 as code (12).
    let start = signature(0x03000000, &[0x11000001, 0x11000001]);
    let other = signature(0x03000000, &[0x11000000, 0x13000000]);
    let blocks = [0x05000002, 0x22070001, 0x30070000, 0x05000101, 0x32000000];
    assert_eq!(answer(&[&start[..], &other, &blocks].concat()), flow(10, 20));
    // A wrong context and a failing label is 10 too.
    let raised = signature(0x03000080, &[0x11000000]);
    let ends = [0x05000002, 0x22070001, 0x30070000, 0x05000101, 0x31000000];
    assert_eq!(answer(&[&start[..], &raised, &ends].concat()), flow(10, 20));
    // A wrong context and a wrong sort is 11.
    let raised = signature(0x03000080, &[NO, NO, 0x11000000]);
    assert_eq!(answer(&[&start[..], &raised, &ends].concat()), flow(11, 20));
}

#[test]
fn lowers() {
    let start = signature(0x03000000, &[0x11000001]);
    let blocks = [0x05000001, 0x31000001, 0x05000101, 0x32000000];
    // In an empty context, to a block where a label fails.
    assert_eq!(answer(&[&start[..], &signature(0x03000000, &[0x11000000]), &blocks].concat()), flow(10, 19));
    // With only the depth wrong it is 11.
    let deep = [&signature(0x03000001, &[])[..], &[NO]].concat();
    assert_eq!(answer(&[&start[..], &deep, &blocks].concat()), flow(11, 20));
    // Labels of slots are compared only at equal depth: a wrong depth leaves 12.
    let raised = [0x05000002, 0x2D000001, 0x31000001, 0x05000101, 0x32000000];
    let deep = [&signature(0x03000001, &[])[..], &[0x11000000]].concat();
    assert_eq!(answer(&[&start[..], &deep, &raised].concat()), flow(12, 21));
}

#[test]
fn raises() {
    // In a context raised to 2 until block 0: a raise to 1 until block 2, whose context is empty, is 10; to 2 it is 11.
    let raised = signature(0x03020080, &[]);
    let blocks = |label: u32| {
        let raise = 0x2D000002 | label << 16;
        [0x05000001, 0x32000000, 0x05000102, raise, 0x31000002, 0x05000001, 0x32000000]
    };
    assert_eq!(answer(&[&PLAIN[..], &raised, &blocks(1)].concat()), flow(10, 21));
    assert_eq!(answer(&[&PLAIN[..], &raised, &blocks(2)].concat()), flow(11, 21));
    // A raise to an equal label is fine: until block 1, which is in that context.
    let again = [0x05000001, 0x32000000, 0x05000102, 0x2D020001, 0x31000001];
    assert_eq!(answer(&[&PLAIN[..], &raised, &again].concat()), None);
    // A context raised to label 0 is not an empty one.
    assert_eq!(answer(&[&PLAIN[..], &[0x05000002, 0x2D000000, 0x32000000]].concat()), flow(11, 11));
}

#[test]
fn stacks() {
    let block = |words: [u32; 3]| answer(&[&PLAIN[..], &[0x05000004], &words, &[0x32000000]].concat());
    assert_eq!(block([0x27000020, 0x27000000, 0x28000020]), None);
    assert_eq!(block([0x27000020, 0x27000001, 0x28000020]), flow(9, 11));
    assert_eq!(block([0x27000021, 0x27000001, 0x28000020]), flow(9, 10));
    assert_eq!(block([0x27000002, 0x28000003, 0x28000000]), flow(9, 11));
    assert_eq!(block([0x27000001, 0x29000000, 0x2A000001]), flow(9, 12));
    assert_eq!(block([0x27000001, 0x29000001, 0x2A000000]), flow(9, 11));
    // What was pushed is nonsense, and stays so when it is copied about.
    assert_eq!(block([0x27000001, 0x29000000, 0x24000000]), flow(8, 12));
}

#[test]
fn blocks_that_nothing_goes_to_are_checked() {
    let blocks = [0x05000001, 0x32000000, 0x05000002, 0x24000000, 0x32000000];
    assert_eq!(answer(&[&PLAIN[..], &blocks].concat()), flow(8, 12));
}
