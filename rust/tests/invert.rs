//! The take-down by way of the wrapper: a table as a script, and refusals that lose nothing.

mod common;

use common::{after_on, live, operators, B, C, D, E, SMALL};
use zoghvari::{script_bytes, Capacities, Inverted, Operator, Ran, Redone, Refusal, Session, Table, Undone};

const POCKET: &[u8] = include_bytes!("../../examples/pocket.script");
const CAPACITIES: Capacities = Capacities::all(64);
/// So many operators at the front of the pocket's script make the block, a box.
const BLOCK: usize = 13;

/// A block with a pocket and a through hole. Its log holds bytes that no run wrote, before the start and behind it.
fn pocket() -> Table {
    let (links, points, ..) = Table::new(CAPACITIES, 0).unwrap().into_parts();
    let session = Session { log: 4_000, redo: 4_096 };
    after_on(Table::from_parts(links, points, vec![0xEE; 4_096], vec![0xEE; 4_096], session), &[POCKET])
}

/// The take-down's example: one face with a ring, and a hole; so many log bytes are free.
fn ring(loops: u16, free: usize) -> Table {
    let built = after_on(Table::new(Capacities { loops, ..SMALL }, 64).unwrap(), &[&B, &E]);
    let (links, points, ..) = built.into_parts();
    Table::from_parts(links, points, vec![0xEE; free + 5], vec![], Session { log: free, redo: 0 })
}

#[test]
fn a_saved_table_is_built_again_to_the_byte() {
    let first = pocket();
    let mut table = first.clone();
    let saved = table.invert().expect("there is room");
    let mut built = Table::new(CAPACITIES, 19 * saved.done).unwrap();
    assert_eq!((table.links(), table.points()), (built.links(), built.points()));
    assert_eq!(built.run(&saved.script), Ran { refusal: None, done: saved.done, used: saved.script.len() });
    assert_eq!((built.links(), built.points()), (first.links(), first.points()));
}

#[test]
fn the_script_is_the_log_between_the_starts() {
    let first = pocket();
    let mut table = first.clone();
    let saved = table.invert().unwrap();
    let (from, to) = (table.start(), first.start());
    assert_eq!(table.log()[from..to], saved.script);
    assert_eq!((&table.log()[..from], &table.log()[to..]), (&first.log()[..from], live(&first)));
}

#[test]
fn its_operators_are_within_the_bound_and_as_many_joins_as_holes() {
    let counts = pocket().count().unwrap();
    let saved = pocket().invert().unwrap();
    let script = operators(&saved.script);
    assert_eq!(script.len(), saved.done);
    assert!(19 * saved.done <= counts.invert_log_length());
    // kfmrh (9): the take-down makes no second solid of one, so each of them joins two faces of one solid.
    assert_eq!((script.iter().filter(|op| op.code == 9).count(), counts.holes), (1, 1));
}

#[test]
fn undo_by_the_count_gives_the_table_back_and_the_runs_before_can_be_undone() {
    let first = pocket();
    let mut table = first.clone();
    let saved = table.invert().unwrap();
    assert_eq!(table.undo(saved.done), Undone { refusal: None, undone: saved.done });
    assert_eq!((table.links(), table.points()), (first.links(), first.points()));
    assert_eq!((table.start(), live(&table)), (first.start(), live(&first)));
    assert_eq!(table.undo(operators(POCKET).len()).refusal, None);
    assert_eq!(table.links(), Table::new(CAPACITIES, 0).unwrap().links());
}

#[test]
fn it_empties_the_redo_log_and_its_undo_can_be_redone() {
    let mut table = pocket();
    assert_eq!(table.undo(2).undone, 2);
    let saved = table.invert().unwrap();
    assert_eq!(table.redo_start(), table.redo_log().len());
    let taken_down = table.clone();
    assert_eq!(table.undo(saved.done).refusal, None);
    assert_eq!(table.redo(saved.done), Redone { refusal: None, done: saved.done });
    assert_eq!((table.links(), table.session()), (taken_down.links(), taken_down.session()));
    assert_eq!((table.points(), table.log()), (taken_down.points(), taken_down.log()));
}

#[test]
fn of_an_empty_table_or_refused_it_keeps_the_redo_log() {
    // Of the first all is undone, so that it is empty; the second has too short a log.
    let (mut empty, mut full) = (pocket(), after_on(Table::with_logs(CAPACITIES, 128, 1_024).unwrap(), &[POCKET]));
    assert_eq!((empty.undo(42).undone, full.undo(1).undone), (42, 1));
    let (held, kept) = (empty.clone(), full.clone());
    assert_eq!((empty.invert().map(|saved| saved.done), full.invert()), (Ok(0), Err(Refusal::NoRoom)));
    assert_eq!((empty, full), (held, kept));
}

#[test]
fn the_room_asked_for_is_enough_and_one_byte_less_is_not() {
    for loops in [2, 3] {
        let room = ring(loops, 0).count().unwrap().invert_log_length();
        assert_eq!(room, 19 * (1 + 2 + 2 + 3 - 2));
        assert_eq!(ring(loops, room).invert().map(|saved| saved.done), Ok(3));
        let (mut table, held) = (ring(loops, room - 1), ring(loops, room - 1));
        assert_eq!((table.invert(), table), (Err(Refusal::NoRoom), held));
    }
}

#[test]
fn a_full_table_comes_down_where_no_step_calls_for_a_number() {
    let spur = |capacities| after_on(Table::new(capacities, 128).unwrap(), &[&B, &C]);
    for full in [Capacities { faces: 1, ..SMALL }, Capacities { loops: 1, ..SMALL }, Capacities { edges: 1, ..SMALL }] {
        assert_eq!(spur(full).invert().map(|saved| saved.done), Ok(2));
    }
    // No number of any kind is free here.
    let sheet = after_on(Table::new(SMALL, 128).unwrap(), &[&B, &C, &D]);
    let saved = sheet.clone().invert().unwrap();
    let built = after_on(Table::new(SMALL, 128).unwrap(), &[&saved.script]);
    assert_eq!((saved.done, built.links(), built.points()), (3, sheet.links(), sheet.points()));
    // Nor of a plain box: the first operators of the pocket's script, in a table that just holds it.
    let box_alone = Capacities { solids: 1, faces: 6, loops: 6, edges: 12, vertices: 8 };
    let block = drawn(box_alone, &operators(POCKET)[..BLOCK]);
    let saved = block.clone().invert().unwrap();
    let built = after_on(Table::new(box_alone, 4_096).unwrap(), &[&saved.script]);
    assert_eq!((saved.done, built.links(), built.points()), (13, block.links(), block.points()));
    // Nor here, but by the time that a loop and a face are called for the first solid is down.
    let behind = drawn(Capacities { solids: 2, ..SMALL }, &[&torus(2)[..], &[vertex(1, 1, 1, 1)]].concat());
    assert_eq!(behind.clone().invert().map(|saved| saved.done), Ok(5));
}

/// The table behind these operators, with room for a take-down.
fn drawn(capacities: Capacities, operators: &[Operator]) -> Table {
    after_on(Table::new(capacities, 4_096).unwrap(), &[&script_bytes(operators).unwrap()])
}

/// A solid of one vertex.
fn vertex(s: i32, f: i32, l: i32, v: i32) -> Operator {
    Operator::new(1, &[s, f, l, v, 7, 8, 9])
}

/// Solid, face, loop and vertex n with a handle: edges 1 and 2 from the vertex to itself, each crossing the other. On
/// the way the other number of two faces and loops is taken, and given back.
fn torus(n: i32) -> Vec<Operator> {
    let other = 3 - n;
    let handle = [
        Operator::new(5, &[n, 0, 0, 1, other, other, 0]),
        Operator::new(9, &[n, other]),
        Operator::new(8, &[n, 1, other, 2, 2, 0]),
    ];
    [&[vertex(n, n, n, n)][..], &handle].concat()
}

/// Tables whose take-down lacks a face, a loop and an edge, each with the inverses of the operators that it has done by
/// then, the last one's first.
fn lacking() -> [(Table, Vec<Operator>); 3] {
    let spur = Operator::new(3, &[1, 1, 3, 2, 0, 1, 2, 3]);
    let spurred = [&torus(1)[..], &[spur, vertex(2, 2, 2, 3)]].concat();
    // A vertex; a face of two lone loops, the second a ring; and an edge, the only one that there is.
    let rings = [
        vertex(1, 1, 1, 1),
        vertex(2, 2, 2, 2),
        Operator::new(3, &[2, 0, 1, 3, 0, 0, 0, 0]),
        Operator::new(7, &[1, 3]),
        vertex(3, 3, 4, 4),
        Operator::new(3, &[4, 0, 1, 5, 0, 0, 0, 0]),
    ];
    let small = Capacities { solids: 2, faces: 2, loops: 2, edges: 3, vertices: 3 };
    let few = Capacities { solids: 3, faces: 3, loops: 4, edges: 1, vertices: 5 };
    [
        (drawn(Capacities { loops: 3, ..small }, &spurred), vec![Operator::new(8, &[1, 4, 3, 3, 1, 0]), spur]),
        (drawn(small, &spurred), vec![spur]),
        (drawn(few, &rings), vec![rings[0]]),
    ]
}

#[test]
fn a_step_that_lacks_a_number_refuses_the_take_down_and_leaves_the_table() {
    for (held, logged) in lacking() {
        let mut table = held.clone();
        assert_eq!(table.invert(), Err(Refusal::NoNumber));
        assert_eq!((table.links(), table.points(), table.session()), (held.links(), held.points(), held.session()));
        // Only the bytes that the steps logged into differ, and they lie in front of the start.
        let start = held.start();
        let low = start - script_bytes(&logged).unwrap().len();
        assert_eq!((&table.log()[..low], live(&table)), (&held.log()[..low], live(&held)));
        assert_eq!(operators(&table.log()[low..start]), logged);
        // All that was done before can still be undone.
        assert_eq!(table.undo(operators(live(&held)).len()).refusal, None);
        assert_eq!(table.count().unwrap().solids, 0);
    }
}

#[test]
fn a_number_that_lacks_leaves_what_can_be_redone_and_the_log_is_looked_at_first() {
    for (held, _) in lacking() {
        let (links, points, ..) = held.clone().into_parts();
        let lent = |log: usize| {
            let session = Session { log, redo: 2 };
            Table::from_parts(links.clone(), points.clone(), vec![0xEE; log + 5], vec![0xDD; 9], session)
        };
        let room = held.count().unwrap().invert_log_length();
        let (mut table, before) = (lent(room), lent(room));
        assert_eq!(table.invert(), Err(Refusal::NoNumber));
        assert_eq!((table.session(), table.redo_log()), (before.session(), before.redo_log()));
        for free in [room - 1, 0] {
            let (mut short, before) = (lent(free), lent(free));
            assert_eq!((short.invert(), short), (Err(Refusal::NoRoom), before));
        }
    }
}

/// The same records in a table of other capacities, none smaller: the numbers that it has more are free.
fn moved(table: &Table, capacities: Capacities, log_length: usize) -> Table {
    let Capacities { solids, faces, loops, edges, vertices } = capacities;
    let (mut links, mut points, log, redo, session) = Table::new(capacities, log_length).unwrap().into_parts();
    let (mut from, mut to) = (5, 5);
    for (kind, new) in [solids, faces, loops, edges, vertices].into_iter().enumerate() {
        let width = [1, 2, 3, 8, 1][kind];
        let (old, new) = (width * table.links()[kind] as usize, width * new as usize);
        links[to..to + old].copy_from_slice(&table.links()[from..from + old]);
        (from, to) = (from + old, to + new);
    }
    points[..table.points().len()].copy_from_slice(table.points());
    Table::from_parts(links, points, log, redo, session)
}

#[test]
fn what_lacks_a_number_is_taken_down_where_there_are_more() {
    let larger = Capacities { solids: 4, faces: 4, loops: 5, edges: 5, vertices: 6 };
    for (held, logged) in lacking() {
        let first = moved(&held, larger, 1_024);
        assert_eq!(first.check(), Ok(()));
        let saved = first.clone().invert().unwrap();
        // Up to where the number lacked the steps were the same.
        assert!(saved.script.ends_with(&script_bytes(&logged).unwrap()) && saved.done > logged.len());
        let built = after_on(Table::new(larger, 1_024).unwrap(), &[&saved.script]);
        assert_eq!((built.links(), built.points()), (first.links(), first.points()));
    }
}

#[test]
fn an_empty_table_needs_no_room() {
    let mut table = Table::new(SMALL, 0).unwrap();
    let held = table.clone();
    assert_eq!((table.invert(), table), (Ok(Inverted { done: 0, script: vec![] }), held));
}

#[test]
fn memory_that_is_wrong_is_refused() {
    let (links, points, log, redo, session) = ring(3, 128).into_parts();
    let past = Session { log: log.len() + 1, ..session };
    let beyond = Table::from_parts(links.clone(), points.clone(), log.clone(), redo.clone(), past);
    let mut bent = links;
    bent[5] = 0; // the solid is free, and its face still names it
    let bent = Table::from_parts(bent, points, log, redo, session);
    for (mut table, refusal) in [(beyond, Refusal::Lengths), (bent, Refusal::Unsound { rule: 2 })] {
        let held = table.clone();
        assert_eq!((table.invert(), table), (Err(refusal), held));
    }
}
