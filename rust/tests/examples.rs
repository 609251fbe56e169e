//! Examples a to e, g and h of the specification, word by word.

mod common;

use common::{after, after_on, empty, live, operators, B, C, D, E, LOG, SMALL};
use zoghvari::{Capacities, Counts, Operator, Ran, Refusal, Table};

#[test]
fn a_the_empty_script_does_nothing() {
    let mut table = empty();
    let first = table.clone();
    assert_eq!(table.run(&[]), Ran { refusal: None, done: 0, used: 0 });
    assert_eq!(table.undo(0).refusal, None);
    assert_eq!(table, first);
}

#[test]
fn b_a_solid_of_one_lone_loop() {
    let mut table = empty();
    assert_eq!(table.run(&B), Ran { refusal: None, done: 1, used: 8 });
    let mut words = vec![1, 2, 2, 2, 2, 1, 1, 1, 0, 0, 1, 0, 1, 0, 0, 0];
    words.extend([0; 16]);
    words.extend([1, 0]);
    assert_eq!(table.links(), words);
    assert_eq!(table.points(), [0; 6]);
    assert_eq!((live(&table), table.start()), (&[0x02, 0x01][..], LOG - 2));
    let counts = Counts { solids: 1, faces: 1, loops: 1, edges: 0, vertices: 1, rings: 0, holes: 0 };
    assert_eq!(table.count(), Ok(counts));
}

#[test]
fn c_an_edge() {
    let table = after(&[&B, &C]);
    assert_eq!(table.links()[10..13], [1, 1, 0]);
    assert_eq!(table.links()[16..24], [1, 1, 2, 2, 2, 1, 1, 1]);
    assert_eq!(table.links()[32..], [2, 2]);
    assert_eq!(table.points()[3..], [100, 0, 0]);
    assert_eq!(live(&table), [0x04, 0x01, 0x02, 0x01]);
}

#[test]
fn d_a_second_face() {
    let table = after(&[&B, &C, &D]);
    assert_eq!(table.links()[10..16], [1, 2, 0, 2, 1, 0]);
    let loops: Vec<u16> = table.links()[16..32].chunks(4).map(|half| half[1]).collect();
    assert_eq!(loops, [2, 1, 1, 2]);
    assert_eq!(table.links()[32..], [3, 3]);
    assert_eq!(live(&table), [0x06, 0x04, 0x04, 0x01, 0x02, 0x01]);
    assert_eq!(table.check(), Ok(()));
}

#[test]
fn e_the_take_down() {
    let cleared = |loops| Table::new(Capacities { loops, ..SMALL }, 2 * LOG).unwrap();
    let table = |loops| after_on(cleared(loops), &[&B, &E]);
    let counts = Counts { solids: 1, faces: 1, loops: 2, edges: 1, vertices: 1, rings: 1, holes: 1 };
    // With two loops none is free, and none of the three operators calls for one.
    for loops in [2, 3] {
        assert_eq!(table(loops).count(), Ok(counts));
        let saved = table(loops).invert().expect("a face is free");
        assert_eq!(saved.done, 3);
        // An inverse's inverse is the operator itself: what building logs is the take-down, operator by operator.
        let built = after_on(cleared(loops), &[&saved.script]);
        let steps = [Operator::new(10, &[2, 2, 0]), Operator::new(6, &[2]), Operator::new(2, &[1])];
        assert_eq!(operators(live(&built)), steps);
        assert_eq!((built.links(), built.points()), (table(loops).links(), table(loops).points()));
    }
}

#[test]
fn g_a_number_in_use_and_a_condition() {
    let mut table = after(&[&B]);
    assert_eq!(table.run(&B).refusal, Some(Refusal::InUse));
    let mut table = after(&[&B, &C]);
    assert_eq!(table.run(&[0x02, 0x01]).refusal, Some(Refusal::Condition));
}

#[test]
fn h_capacities() {
    assert!(Table::new(Capacities { edges: 4096, ..SMALL }, 0).is_ok());
    assert_eq!(Table::new(Capacities { edges: 4097, ..SMALL }, 0).unwrap_err(), Refusal::Lengths);
    assert_eq!(Table::new(Capacities { faces: 0, ..SMALL }, 0).unwrap_err(), Refusal::Lengths);
    let mut table = after(&[&B]);
    let held = table.clone();
    assert_eq!(table.clear(Capacities::all(3)), Err(Refusal::Lengths));
    assert_eq!(table, held);
    assert_eq!(table.clear(SMALL), Ok(()));
    assert_eq!((table.links(), table.session()), (empty().links(), empty().session()));
}
