//! Redo by way of the wrapper: forward again to the byte, what empties the redo log, and refusals that lose nothing.

mod common;

use common::{after, after_on, empty, live, operators, undone, B, C, D, LOG, SMALL};
use zoghvari::{script_bytes, Capacities, Operator, Ran, Redone, Refusal, Session, Table, Undone};

const POCKET: &[u8] = include_bytes!("../../examples/pocket.script");

/// All of a table but the redo log's bytes, which undo writes and redo leaves.
fn besides_redo_bytes(table: &Table) -> (&[u16], &[i32], &[u8], Session) {
    (table.links(), table.points(), table.log(), table.session())
}

#[test]
fn undo_too_far_and_redo_give_all_back() {
    let first = after(&[&B, &C, &D]);
    for too_far in 0..=3 {
        let mut table = first.clone();
        assert_eq!(table.undo(too_far), Undone { refusal: None, undone: too_far });
        assert_eq!(table.redo(too_far), Redone { refusal: None, done: too_far });
        assert_eq!(besides_redo_bytes(&table), besides_redo_bytes(&first));
    }
}

#[test]
fn each_step_back_is_the_table_of_the_step_forward() {
    let script = operators(POCKET);
    let mut table = after_on(Table::new(Capacities::all(64), 19 * script.len()).unwrap(), &[POCKET]);
    let mut passed = vec![table.clone()];
    for _ in &script {
        assert_eq!(table.undo(1).undone, 1);
        passed.push(table.clone());
    }
    // The inverse of an inverse is the operator itself: what was undone is the script.
    assert_eq!((undone(&table), live(&table)), (POCKET, &[][..]));
    for before in passed.iter().rev().skip(1) {
        assert_eq!(table.redo(1).done, 1);
        assert_eq!(besides_redo_bytes(&table), besides_redo_bytes(before));
    }
}

#[test]
fn undo_writes_the_redo_log_alone_and_redo_leaves_it() {
    let (links, points, log, _, session) = after(&[&B, &C]).into_parts();
    let mut table = Table::from_parts(links, points, log.clone(), vec![0xEE; LOG], session);
    assert_eq!(table.undo(1).refusal, None);
    assert_eq!((table.log(), table.session()), (&log[..], Session { log: LOG - 2, redo: LOG - C.len() }));
    assert_eq!(table.redo_log(), [&[0xEE; LOG - C.len()][..], &C].concat());
    let held = table.redo_log().to_vec();
    assert_eq!(table.redo(1).refusal, None);
    assert_eq!((table.redo_log(), table.redo_start()), (&held[..], LOG));
}

#[test]
fn redo_in_two_parts_is_redo_in_one() {
    let mut whole = after(&[&B, &C, &D]);
    assert_eq!(whole.undo(3).refusal, None);
    let mut parts = whole.clone();
    assert_eq!((whole.redo(3).done, parts.redo(1).done, parts.redo(2).done), (3, 1, 2));
    assert_eq!(whole, parts);
}

#[test]
fn a_run_empties_the_redo_log() {
    let mut table = after(&[&B, &C, &D]);
    assert_eq!(table.undo(2).undone, 2);
    let bytes = table.redo_log().to_vec();
    // A script that is refused behind its first operator empties it too.
    let script = [&C[..], &[0x0E]].concat();
    assert_eq!(table.run(&script), Ran { refusal: Some(Refusal::Code), done: 1, used: C.len() });
    assert_eq!((table.redo_start(), undone(&table), table.redo_log()), (LOG, &[][..], &bytes[..]));
    assert_eq!(table.redo(1), Redone { refusal: Some(Refusal::LogEnded), done: 0 });
}

#[test]
fn a_run_that_does_nothing_keeps_the_redo_log() {
    let mut table = after(&[&B, &C, &D]);
    assert_eq!(table.undo(1).undone, 1);
    let held = table.clone();
    for script in [&[][..], &[0x0E], &B, &[0xFF]] {
        assert_eq!(table.run(script).done, 0);
        assert_eq!(table, held);
    }
    assert_eq!(table.redo(1), Redone { refusal: None, done: 1 });
    assert_eq!(live(&table), live(&after(&[&B, &C, &D])));
}

#[test]
fn clearing_empties_it_and_a_refused_clearing_does_not() {
    let mut table = after(&[&B, &C]);
    assert_eq!(table.undo(1).undone, 1);
    let held = table.clone();
    assert_eq!((table.clear(Capacities::all(3)), table.session()), (Err(Refusal::Lengths), held.session()));
    assert_eq!((table.clear(SMALL), table.session()), (Ok(()), Session { log: LOG, redo: LOG }));
    assert_eq!((table.log(), table.redo_log()), (held.log(), held.redo_log()));
}

#[test]
fn the_redo_log_ends_and_what_was_done_stands() {
    let mut table = after(&[&B, &C]);
    assert_eq!(table.undo(2).undone, 2);
    assert_eq!(table.redo(5), Redone { refusal: Some(Refusal::LogEnded), done: 2 });
    assert_eq!(besides_redo_bytes(&table), besides_redo_bytes(&after(&[&B, &C])));
}

#[test]
fn a_redo_log_of_no_bytes_refuses_undo() {
    let mut table = after_on(Table::with_logs(SMALL, LOG, 0).unwrap(), &[&B, &C]);
    let held = table.clone();
    assert_eq!(table.undo(1), Undone { refusal: Some(Refusal::NoRoom), undone: 0 });
    assert_eq!(table.undo(0), Undone { refusal: None, undone: 0 });
    assert_eq!(table.redo(1), Redone { refusal: Some(Refusal::LogEnded), done: 0 });
    assert_eq!(table, held);
}

#[test]
fn a_full_redo_log_refuses_and_keeps() {
    // There is room for the last operator and not for the one before.
    let mut table = after_on(Table::with_logs(SMALL, LOG, C.len() + B.len() - 1).unwrap(), &[&B, &C]);
    assert_eq!(table.undo(2), Undone { refusal: Some(Refusal::NoRoom), undone: 1 });
    assert_eq!((table.links(), undone(&table)), (after(&[&B]).links(), &C[..]));
    assert_eq!(table.redo(1), Redone { refusal: None, done: 1 });
    assert_eq!(table.links(), after(&[&B, &C]).links());
}

/// A solid and ten spurs. Their inverses are short, so that a log of 24 bytes holds them; the script is far longer.
fn spurs() -> (Table, usize) {
    let spur = |i| Operator::new(3, &[1, i32::from(i > 1), i, i + 1, 0, 100 * i, 0, 0]);
    let operators: Vec<_> = [Operator::new(1, &[1, 1, 1, 1, 0, 0, 0])].into_iter().chain((1..=10).map(spur)).collect();
    let script = script_bytes(&operators).unwrap();
    (after_on(Table::new(Capacities::all(16), 24).unwrap(), &[&script]), operators.len())
}

#[test]
fn a_redo_log_as_long_as_the_log_may_be_too_short_and_a_longer_one_goes_on() {
    let (mut table, done) = spurs();
    let first = table.clone();
    let some = table.undo(done);
    assert!(some.refusal == Some(Refusal::NoRoom) && 0 < some.undone && some.undone < done);
    let (links, points, log, redo, session) = table.into_parts();
    let longer = [vec![0; 19 * done], redo].concat();
    let session = Session { redo: session.redo + 19 * done, ..session };
    let mut table = Table::from_parts(links, points, log, longer, session);
    assert_eq!(table.undo(done - some.undone), Undone { refusal: None, undone: done - some.undone });
    assert_eq!(table.links(), Table::new(Capacities::all(16), 0).unwrap().links());
    assert_eq!(table.redo(done), Redone { refusal: None, done });
    assert_eq!((table.links(), table.points(), table.log()), (first.links(), first.points(), first.log()));
}

#[test]
fn who_gives_up_redo_can_go_on_undoing() {
    let (mut table, done) = spurs();
    let mut undone = 0;
    for _ in 0..done {
        undone += table.undo(done - undone).undone;
        let (links, points, log, redo, session) = table.into_parts();
        let session = Session { redo: redo.len(), ..session };
        table = Table::from_parts(links, points, log, redo, session);
    }
    assert_eq!((undone, table.links()), (done, Table::new(Capacities::all(16), 0).unwrap().links()));
}

#[test]
fn a_full_log_refuses_redo() {
    let (links, points, _, redo, session) = empty().into_parts();
    let mut redo = redo;
    redo[LOG - B.len()..].copy_from_slice(&B);
    let session = Session { log: 1, redo: session.redo - B.len() };
    let mut table = Table::from_parts(links, points, vec![7], redo, session);
    let held = table.clone();
    assert_eq!(table.redo(1), Redone { refusal: Some(Refusal::NoRoom), done: 0 });
    assert_eq!(table, held);
}

#[test]
fn starts_beyond_their_logs() {
    let (links, points, log, redo, session) = after(&[&B]).into_parts();
    let table = |session| Table::from_parts(links.clone(), points.clone(), log.clone(), redo.clone(), session);
    let (past_log, past_redo) = (Session { log: LOG + 1, ..session }, Session { redo: LOG + 1, ..session });
    for past in [past_log, past_redo] {
        let mut refused = table(past);
        assert_eq!(refused.undo(0), Undone { refusal: Some(Refusal::Lengths), undone: 0 });
        assert_eq!(refused.redo(0), Redone { refusal: Some(Refusal::Lengths), done: 0 });
        assert_eq!(refused, table(past));
    }
    // A run does not look where the redo log starts. Behind one that did something, undo and redo are in order again.
    let mut table = table(past_redo);
    assert_eq!((table.run(&[]).refusal, table.session()), (None, past_redo));
    assert_eq!((table.run(&C).refusal, table.redo_start()), (None, LOG));
    assert_eq!((table.undo(1).refusal, table.redo(1).refusal), (None, None));
}
