//! Operators read and written, and the refusals' numbers and causes.

mod common;

use common::{B, C, D};
use zoghvari::{read, script_bytes, write, Cause, Operator, Refusal};

#[test]
fn the_examples_as_operators() {
    let wanted = [
        Operator::new(1, &[1, 1, 1, 1, 0, 0, 0]),
        Operator::new(3, &[1, 0, 1, 2, 0, 100, 0, 0]),
        Operator::new(5, &[1, 1, 2, 2, 2, 2, 0]),
    ];
    let script = [&B[..], &C, &D].concat();
    assert_eq!(script_bytes(&wanted), Ok(script.clone()));
    let mut at = 0;
    for op in wanted {
        let (got, next) = read(&script, at).expect("an operator stands here");
        assert_eq!(got, op);
        at = next;
    }
    assert_eq!((at, read(&script, at)), (script.len(), Err(Refusal::Number)));
}

#[test]
fn f_codes_numbers_and_coordinates() {
    assert_eq!(read(&[0x0E], 0), Err(Refusal::Code));
    assert_eq!(read(&[0x81, 0x00], 0), Err(Refusal::Number));
    let solid = |x| Operator::new(1, &[1, 1, 1, 1, x, 0, -x]);
    let mut out = [0xEE; 19];
    assert_eq!(write(&solid(50_000), &mut out), Ok(12));
    assert_eq!(read(&out, 0), Ok((solid(50_000), 12)));
    assert_eq!(write(&solid(50_001), &mut out), Err(Refusal::Range));
}

#[test]
fn padded_numbers() {
    let kev = Operator::new(4, &[1]);
    for script in [&[4, 1][..], &[4, 0x81, 0], &[4, 0x81, 0x80, 0], &[0x84, 0x80, 0, 0x81, 0x80, 0]] {
        assert_eq!(read(script, 0), Ok((kev, script.len())));
    }
    for cut_or_long in [&[4, 0x81][..], &[4, 0x81, 0x80], &[4, 0x81, 0x80, 0x80, 0], &[0x84]] {
        assert_eq!(read(cut_or_long, 0), Err(Refusal::Number));
    }
    for no_code in [&[0x8E, 0][..], &[0x80, 0], &[0x80, 0x80, 0]] {
        assert_eq!(read(no_code, 0), Err(Refusal::Code));
    }
    assert_eq!(script_bytes(&[kev]), Ok(vec![4, 1]));
}

#[test]
fn a_refused_write_writes_nothing() {
    let mut out = [0xEE; 7];
    assert_eq!(write(&Operator::new(1, &[1, 1, 1, 1, 0, 0, 0]), &mut out), Err(Refusal::NoRoom));
    assert_eq!(write(&Operator::new(2, &[1, 1]), &mut out), Err(Refusal::Range));
    assert_eq!(write(&Operator::new(14, &[1]), &mut out), Err(Refusal::Code));
    assert_eq!(out, [0xEE; 7]);
}

#[test]
fn who_causes_a_refusal() {
    let all = [
        (Refusal::Lengths, 1, Cause::Lender),
        (Refusal::Unsound { rule: 4 }, 2, Cause::Lender),
        (Refusal::Number, 3, Cause::Author),
        (Refusal::Code, 4, Cause::Author),
        (Refusal::Range, 5, Cause::Author),
        (Refusal::Free, 6, Cause::Author),
        (Refusal::InUse, 7, Cause::Author),
        (Refusal::Condition, 8, Cause::Author),
        (Refusal::NoRoom, 9, Cause::Sizer),
        (Refusal::NoNumber, 10, Cause::Sizer),
        (Refusal::LogEnded, 11, Cause::Asker),
        (Refusal::NoPolygon, 12, Cause::Author),
        (Refusal::TooLong, 13, Cause::Sizer),
    ];
    for (refusal, number, cause) in all {
        assert_eq!((refusal.number(), refusal.cause()), (number, cause));
    }
    assert_eq!(Refusal::Unsound { rule: 4 }.to_string(), "refusal 2, rule 4");
}
