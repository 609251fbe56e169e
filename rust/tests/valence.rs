//! How many half-edges start at a vertex, by its word, against a walk around it.

mod common;

use common::{after, after_on, empty, B, C, D, E, SMALL};
use zoghvari::{script_bytes, Capacities, Operator, Refusal, Session, Table};

/// The start and the next of half-edge `k`, from the words of the table.
fn half(table: &Table, k: usize) -> (usize, usize) {
    let links = table.links();
    let [s, f, l] = [links[0], links[1], links[2]].map(usize::from);
    let place = 5 + s + 2 * f + 3 * l + 4 * (k - 1);
    (links[place].into(), links[place + 2].into())
}

fn mate(k: usize) -> usize {
    if k % 2 == 1 {
        k + 1
    } else {
        k - 1
    }
}

/// How many half-edges start where `first` does: next of the mate, until it comes back.
fn around(table: &Table, first: usize) -> usize {
    let (mut k, mut met) = (first, 0);
    loop {
        met += 1;
        k = half(table, mate(k)).1;
        if k == first {
            return met;
        }
    }
}

/// The words by number; `None` for free ones.
fn valences(table: &Table) -> Vec<Option<usize>> {
    (1..=usize::from(table.links()[4])).map(|v| table.valence(v)).collect()
}

/// Of every half-edge in use, the walk around its start finds what the start's word says.
fn walks_agree(table: &Table) {
    for k in 1..=2 * usize::from(table.links()[3]) {
        let (start, _) = half(table, k);
        if start != 0 {
            assert_eq!(table.valence(start), Some(around(table, k)));
        }
    }
}

#[test]
fn the_examples_of_the_specification() {
    assert_eq!(valences(&empty()), [None, None]);
    assert_eq!(valences(&after(&[&B])), [Some(0), None]);
    assert_eq!(valences(&after(&[&B, &C])), [Some(1), Some(1)]);
    assert_eq!(valences(&after(&[&B, &C, &D])), [Some(2), Some(2)]);
    // An edge from a vertex to itself starts there twice.
    assert_eq!(valences(&after(&[&B, &E])), [Some(2), None]);
    walks_agree(&after(&[&B, &C, &D]));
}

#[test]
fn undo_and_redo_bring_it_back() {
    let mut table = after(&[&B, &C, &D]);
    for wanted in [[Some(1), Some(1)], [Some(0), None], [None, None]] {
        assert_eq!(table.undo(1).undone, 1);
        assert_eq!(valences(&table), wanted);
    }
    assert_eq!(table.redo(3).done, 3);
    assert_eq!(valences(&table), [Some(2), Some(2)]);
}

/// A star of spokes from vertex 1: mev at the corner of half-edge 1, which is the first spoke's.
fn star(spokes: i32) -> Table {
    let mev = |e: i32| Operator::new(3, &[1, i32::from(e > 1), e, e + 1, 0, 100 * e, 0, 0]);
    let script: Vec<Operator> = (1..=spokes).map(mev).collect();
    let edges = u16::try_from(spokes).expect("few spokes");
    let capacities = Capacities { edges, vertices: edges + 2, ..SMALL };
    let cleared = Table::new(capacities, 19 * (script.len() + 1)).expect("the capacities are allowed");
    after_on(cleared, &[&B, &script_bytes(&script).expect("the operators are in range")])
}

#[test]
fn many_edges_at_one_corner() {
    let table = star(64);
    assert_eq!(table.valence(1), Some(64));
    assert!((2..=65).all(|v| table.valence(v) == Some(1)));
    assert_eq!(table.valence(66), None);
    walks_agree(&table);
    assert_eq!(table.check(), Ok(()));
}

#[test]
fn numbers_that_the_table_does_not_have() {
    let table = after(&[&B, &C]);
    for v in [0, 3, 4, 4_096, 4_097, 65_536, usize::MAX] {
        assert_eq!(table.valence(v), None);
    }
}

#[test]
fn words_from_elsewhere() {
    let parts = |links| Table::from_parts(links, vec![0; 6], vec![], vec![], Session { log: 0, redo: 0 });
    assert_eq!(parts(vec![]).valence(1), None);
    assert_eq!(parts(vec![1, 2, 2, 2]).valence(1), None);
    assert_eq!(parts(vec![65_535; 5]).valence(65_535), None);
    assert_eq!(parts(vec![0; 5]).valence(1), None);
    // As they were before the words counted: 1 for each vertex in use. They break rule 5.
    let mut links = after(&[&B, &C]).links().to_vec();
    links[32..].fill(1);
    let old = parts(links);
    assert_eq!((old.valence(1), old.check()), (Some(0), Err(Refusal::Unsound { rule: 5 })));
}
