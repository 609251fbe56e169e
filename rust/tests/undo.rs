//! The undo promise by way of the wrapper, and refusals that lose nothing.

mod common;

use common::{after, empty, live, B, C, D, LOG, SMALL};
use zoghvari::{Cause, Ran, Refusal, Session, Table, Undone};

/// FF begins a number that goes on, and the script ends there: refusal 3. The operators before it stand.
fn broken(script: &[u8]) -> Vec<u8> {
    [script, &[0xFF]].concat()
}

#[test]
fn a_list_of_scripts_is_undone_to_the_byte() {
    let mut table = after(&[&B]);
    let first = table.clone();
    let scripts = [broken(&C), D.to_vec(), D.to_vec(), vec![0x0E], broken(&[])];
    let refusals = [Some(Refusal::Number), None, Some(Refusal::InUse), Some(Refusal::Code), Some(Refusal::Number)];
    let mut sum = 0;
    for (script, refusal) in scripts.iter().zip(refusals) {
        let ran = table.run(script);
        assert_eq!(ran.refusal, refusal);
        sum += ran.done;
    }
    assert_eq!(sum, 2);
    assert_ne!(table.links(), first.links());
    assert_eq!(table.undo(sum), Undone { refusal: None, undone: sum });
    assert_eq!((table.links(), table.points()), (first.links(), first.points()));
    assert_eq!((table.start(), live(&table)), (first.start(), live(&first)));
}

#[test]
fn undo_in_two_parts_is_undo_in_one() {
    let mut whole = after(&[&B, &C, &D]);
    let mut parts = whole.clone();
    assert_eq!(whole.undo(3).refusal, None);
    assert_eq!((parts.undo(1).refusal, parts.undo(2).refusal), (None, None));
    assert_eq!(whole, parts);
    assert_eq!(whole.links(), empty().links());
}

#[test]
fn the_log_ends_and_what_was_undone_stands() {
    let mut table = after(&[&B, &C]);
    assert_eq!(table.undo(5), Undone { refusal: Some(Refusal::LogEnded), undone: 2 });
    assert_eq!((table.links(), table.start()), (empty().links(), LOG));
}

#[test]
fn a_refusal_changes_no_byte() {
    let mut table = after(&[&B, &C]);
    let held = table.clone();
    for script in [&B[..], &[0x0E], &[0x81, 0x00], &[0x04], &[0x04, 0x05], &[0x04, 0x03], &[0x02, 0x01]] {
        let ran = table.run(script);
        assert!(ran.refusal.is_some() && ran.done == 0 && ran.used == 0);
        assert_eq!(table, held);
    }
}

#[test]
fn a_full_log_refuses_and_keeps() {
    let (links, points, ..) = empty().into_parts();
    let mut table = Table::from_parts(links, points, vec![7; 3], vec![7; 8], Session { log: 3, redo: 8 });
    assert_eq!(table.run(&[&B[..], &C[..]].concat()), Ran { refusal: Some(Refusal::NoRoom), done: 1, used: 8 });
    assert_eq!((table.log(), table.start()), (&[7, 2, 1][..], 1));
    assert_eq!(table.undo(1), Undone { refusal: None, undone: 1 });
    assert_eq!((table.links(), table.log(), table.redo_log()), (empty().links(), &[7, 2, 1][..], &B[..]));
}

#[test]
fn memory_that_is_wrong_is_refused() {
    let (links, points, log, redo, session) = after(&[&B]).into_parts();
    let past = Session { log: LOG + 1, ..session };
    let mut beyond = Table::from_parts(links.clone(), points.clone(), log.clone(), redo.clone(), past);
    assert_eq!(beyond.run(&C), Ran { refusal: Some(Refusal::Lengths), done: 0, used: 0 });
    assert_eq!(beyond.start(), LOG + 1);
    let mut bent = links;
    bent[5] = 0; // the solid is free, and its face still names it
    let mut bent = Table::from_parts(bent, points, log, redo, session);
    let rule_2 = Refusal::Unsound { rule: 2 };
    assert_eq!((bent.check(), bent.count().unwrap_err()), (Err(rule_2), rule_2));
    let held = bent.clone();
    assert_eq!((bent.run(&C).refusal, bent.undo(1).refusal), (Some(rule_2), Some(rule_2)));
    assert_eq!(bent.redo(1).refusal, Some(rule_2));
    assert_eq!((bent, rule_2.number(), rule_2.cause()), (held, 2, Cause::Lender));
}

#[test]
fn a_log_that_cannot_be_had_is_a_wrong_length() {
    // The first is more than any vector may have, the second more than a machine has addresses for.
    for length in [usize::MAX, isize::MAX as usize] {
        assert_eq!(Table::new(SMALL, length).unwrap_err(), Refusal::Lengths);
        assert_eq!(Table::with_logs(SMALL, 0, length).unwrap_err(), Refusal::Lengths);
        assert_eq!(Table::with_logs(SMALL, length, 0).unwrap_err(), Refusal::Lengths);
    }
    let table = Table::new(SMALL, 100_000).unwrap();
    assert_eq!((table.log(), table.start()), (&[0; 100_000][..], 100_000));
    assert_eq!((table.redo_log(), table.redo_start()), (&[0; 100_000][..], 100_000));
}
