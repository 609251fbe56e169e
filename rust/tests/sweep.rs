//! The sweep by way of the wrapper: a face lifted and given back to the byte, what it takes of numbers and log, and
//! refusals that change nothing.

mod common;

use common::{after, after_on, live, operators, undone, B, C};
use zoghvari::{script_bytes, Capacities, Cause, Counts, Operator, Redone, Refusal, Session, Table, Undone};

const POCKET: &[u8] = include_bytes!("../../examples/pocket.script");
/// So many operators at the front of the pocket's script make the block, a box, whose top is face 2.
const BLOCK: usize = 13;
/// And so many draw an outline on the top: face 2 has a ring then, and face 7 lies inside it.
const OUTLINE: usize = 19;
/// What the block has in use, and what one sweep of its top makes: 4 vertices, 8 edges, 4 faces and 4 loops.
const BOX: Capacities = Capacities { solids: 1, faces: 6, loops: 6, edges: 12, vertices: 8 };
const TALLER: Capacities = Capacities { solids: 1, faces: 10, loops: 10, edges: 20, vertices: 12 };
const UP: [i32; 3] = [0, 0, 500];

/// These operators of the pocket's script.
fn part(range: std::ops::Range<usize>) -> Vec<u8> {
    script_bytes(&operators(POCKET)[range]).unwrap()
}

/// What so many operators of the pocket's script make, in a table of these capacities.
fn drawn(capacities: Capacities, length: usize) -> Table {
    after_on(Table::new(capacities, 1_024).unwrap(), &[&part(0..length)])
}

/// The same with so many free log bytes, of a log whose bytes no run wrote.
fn with_free_bytes(table: Table, free: usize) -> Table {
    let (links, points, ..) = table.into_parts();
    Table::from_parts(links, points, vec![0xEE; free + 5], vec![0xEE; 1_024], Session { log: free, redo: 1_024 })
}

/// All of a table but the redo log's bytes, which undo writes and redo leaves.
fn besides_redo_bytes(table: &Table) -> (&[u16], &[i32], &[u8], Session) {
    (table.links(), table.points(), table.log(), table.session())
}

/// The sweep is refused so, and changes nothing.
fn refused(mut table: Table, face: usize, vector: [i32; 3], refusal: Refusal) {
    let held = table.clone();
    assert_eq!((table.sweep(face, vector), table), (Err(refusal), held));
}

/// The same capacities, with one number less of one kind that a sweep makes.
fn one_less(full: Capacities) -> [Capacities; 4] {
    let mut less = [full; 4];
    less[0].faces -= 1;
    less[1].loops -= 1;
    less[2].edges -= 1;
    less[3].vertices -= 1;
    less
}

#[test]
fn a_lifted_face_adds_what_its_corners_need_and_is_given_back() {
    let mut table = drawn(Capacities::all(64), BLOCK);
    let first = table.clone();
    let counts = Counts { solids: 1, faces: 6, loops: 6, edges: 12, vertices: 8, rings: 0, holes: 0 };
    assert_eq!(table.count(), Ok(counts));
    let done = table.sweep(2, [-10, 20, 500]).unwrap();
    assert_eq!((done, table.check()), (8, Ok(())));
    assert_eq!(table.count(), Ok(Counts { faces: 10, loops: 10, edges: 20, vertices: 12, ..counts }));
    // Each new point is a corner's, moved; the corners of the top are vertices 5 to 8.
    let moved: Vec<i32> = first.points()[12..24].chunks(3).flat_map(|p| [p[0] - 10, p[1] + 20, p[2] + 500]).collect();
    assert_eq!((&table.points()[..24], &table.points()[24..36]), (&first.points()[..24], &moved[..]));
    assert_eq!(table.undo(done), Undone { refusal: None, undone: done });
    assert_eq!((table.links(), table.points()), (first.links(), first.points()));
    assert_eq!((table.start(), live(&table)), (first.start(), live(&first)));
}

#[test]
fn the_pocket_by_sweeps_is_the_pocket_by_its_script() {
    let mut table = drawn(Capacities::all(64), 5);
    assert_eq!(table.sweep(2, [0, 0, 3_000]), Ok(8));
    let mut table = after_on(table, &[&part(BLOCK..OUTLINE)]);
    assert_eq!(table.sweep(7, [0, 0, -1_200]), Ok(8));
    let mut table = after_on(table, &[&part(OUTLINE + 8..33)]);
    assert_eq!(table.sweep(12, [0, 0, -1_800]), Ok(8));
    let mut table = after_on(table, &[&part(41..42)]);
    assert_eq!(table, drawn(Capacities::all(64), 42));
    // What was run and what was swept is undone together.
    assert_eq!((table.undo(42).undone, undone(&table)), (42, POCKET));
}

#[test]
fn undo_and_redo_of_a_sweep() {
    let mut table = drawn(Capacities::all(64), BLOCK);
    let done = table.sweep(2, UP).unwrap();
    let swept = table.clone();
    assert_eq!(table.undo(done).undone, done);
    assert_eq!(table.redo(done), Redone { refusal: None, done });
    assert_eq!(besides_redo_bytes(&table), besides_redo_bytes(&swept));
}

#[test]
fn it_empties_the_redo_log_and_a_refused_one_keeps_it() {
    let mut table = drawn(Capacities::all(64), BLOCK + 1);
    assert_eq!(table.undo(1).undone, 1);
    refused(table.clone(), 7, UP, Refusal::Free);
    let bytes = table.redo_log().to_vec();
    assert_eq!(table.sweep(2, UP), Ok(8));
    assert_eq!((table.redo_start(), table.redo_log()), (bytes.len(), &bytes[..]));
    assert_eq!(table.redo(1).refusal, Some(Refusal::LogEnded));
}

#[test]
fn rings_are_lifted_too() {
    let mut table = drawn(Capacities::all(64), OUTLINE);
    let counts = table.count().unwrap();
    assert_eq!((counts.rings, table.sweep(2, UP)), (1, Ok(16)));
    let (faces, loops, edges, vertices) = (counts.faces + 8, counts.loops + 8, counts.edges + 16, counts.vertices + 8);
    assert_eq!((table.check(), table.count()), (Ok(()), Ok(Counts { faces, loops, edges, vertices, ..counts })));
    // The outer loop, 2, comes before the ring, 8; in each all mev (3) come before any mef (5).
    assert_eq!(table.undo(16).undone, 16);
    let made: Vec<_> = operators(undone(&table)).iter().map(|op| (op.code, op.args[0])).collect();
    assert_eq!(made, [(3, 2), (5, 2), (3, 8), (5, 8)].map(|step| [step; 4]).concat());
}

#[test]
fn a_loop_of_one_corner() {
    // mef 1 0 0 1 2 2 0 on a lone vertex: two faces with one edge between them, from the vertex to itself.
    let circle = script_bytes(&[Operator::new(5, &[1, 0, 0, 1, 2, 2, 0])]).unwrap();
    let capacities = Capacities { solids: 1, faces: 3, loops: 3, edges: 3, vertices: 2 };
    let mut table = after_on(Table::new(capacities, 64).unwrap(), &[&B, &circle]);
    let first = table.clone();
    assert_eq!((table.sweep(1, UP), table.check()), (Ok(2), Ok(())));
    assert_eq!((table.undo(2).undone, table.links(), table.points()), (2, first.links(), first.points()));
    let steps = [Operator::new(3, &[1, 1, 2, 2, 0, 0, 0, 500]), Operator::new(5, &[1, 4, 4, 3, 3, 3, 2])];
    assert_eq!(operators(undone(&table)), steps);
}

#[test]
fn a_face_that_is_not_there() {
    let table = drawn(TALLER, BLOCK);
    for beyond in [0, 11, 65_538, usize::MAX] {
        refused(table.clone(), beyond, UP, Refusal::Range);
    }
    for free in [7, 10] {
        refused(table.clone(), free, UP, Refusal::Free);
    }
}

/// The block with a lone ring in its top, which has corners too: an edge to a new vertex there, taken away again.
fn spotted(capacities: Capacities) -> Table {
    let spot = [Operator::new(3, &[2, 17, 13, 9, 0, 0, 0, 3_000]), Operator::new(7, &[25, 7])];
    after_on(drawn(capacities, BLOCK), &[&script_bytes(&spot).unwrap()])
}

#[test]
fn a_lone_loop_is_not_lifted() {
    refused(after(&[&B]), 1, UP, Refusal::LoneLoop);
    assert_eq!((Refusal::LoneLoop.number(), Refusal::LoneLoop.cause()), (14, Cause::Asker));
    let table = spotted(Capacities::all(64));
    refused(table.clone(), 2, UP, Refusal::LoneLoop);
    assert_eq!(table.clone().sweep(1, UP), Ok(8));
}

#[test]
fn a_point_moved_out_of_range() {
    // The top's corners lie at -4000 and 4000, -3000 and 3000, and 3000.
    let table = drawn(Capacities::all(64), BLOCK);
    for inside in [[46_000, 47_000, 47_000], [-46_000, -47_000, -53_000], [0, 0, 0]] {
        assert_eq!(table.clone().sweep(2, inside), Ok(8));
    }
    let (least, most) = (i32::MIN, i32::MAX);
    for outside in [[46_001, 0, 0], [-46_001, 0, 0], [0, 47_001, 0], [0, -47_001, 0], [0, 0, 47_001], [0, 0, -53_001]] {
        refused(table.clone(), 2, outside, Refusal::Range);
    }
    for far in [[most, 0, 0], [0, least, 0], [0, 0, most], [least; 3]] {
        refused(table.clone(), 2, far, Refusal::Range);
    }
}

#[test]
fn just_enough_numbers_and_one_of_a_kind_less() {
    let mut table = drawn(TALLER, BLOCK);
    assert_eq!((table.sweep(2, UP), table.check()), (Ok(8), Ok(())));
    refused(table, 2, UP, Refusal::NoNumber);
    for less in one_less(TALLER) {
        refused(drawn(less, BLOCK), 2, UP, Refusal::NoNumber);
    }
}

#[test]
fn just_enough_log_and_a_byte_less() {
    let mut table = with_free_bytes(drawn(TALLER, BLOCK), 16);
    assert_eq!((table.sweep(2, UP), table.start(), &table.log()[16..]), (Ok(8), 0, &[0xEE; 5][..]));
    refused(with_free_bytes(drawn(TALLER, BLOCK), 15), 2, UP, Refusal::NoRoom);
    refused(with_free_bytes(drawn(TALLER, BLOCK), 0), 2, UP, Refusal::NoRoom);
}

#[test]
fn an_inverse_of_a_high_half_edge_takes_three_bytes() {
    let mut table = drawn(Capacities::all(128), BLOCK);
    for _ in 0..6 {
        assert_eq!(table.sweep(2, UP), Ok(8)); // 12 edges and 8 for each of these: 60
    }
    // Edges 61 to 64 are killed by half-edges up to 127, edges 65 to 68 by half-edges from 130 on.
    let room = 4 * 2 + 4 * 3;
    assert_eq!(with_free_bytes(table.clone(), room).sweep(2, UP), Ok(8));
    refused(with_free_bytes(table, room - 1), 2, UP, Refusal::NoRoom);
}

#[test]
fn refusals_come_in_their_order() {
    // No log byte is free, and in the first two tables too few numbers. Each call has the reasons for what comes later.
    let far = [0, 0, 60_000];
    let lone = with_free_bytes(spotted(Capacities { loops: 7, edges: 13, vertices: 9, ..BOX }), 0);
    refused(lone.clone(), 7, far, Refusal::Range);
    refused(lone, 2, far, Refusal::LoneLoop);
    let full = with_free_bytes(drawn(BOX, BLOCK), 0);
    refused(full.clone(), 2, far, Refusal::Range);
    refused(full, 2, UP, Refusal::NoNumber);
    let larger = with_free_bytes(drawn(Capacities::all(64), BLOCK), 0);
    refused(larger.clone(), 7, far, Refusal::Free);
    refused(larger, 2, UP, Refusal::NoRoom);
}

#[test]
fn memory_that_is_wrong_is_refused_first() {
    let (links, points, log, redo, session) = after(&[&B, &C]).into_parts();
    let short = Table::from_parts(links.clone(), points[1..].to_vec(), log.clone(), redo.clone(), session);
    let past = Session { log: log.len() + 1, ..session };
    let beyond = Table::from_parts(links.clone(), points.clone(), log.clone(), redo.clone(), past);
    let mut bent = links;
    bent[5] = 0; // the solid is free, and its face still names it
    let bent = Table::from_parts(bent, points, log, redo, session);
    for face in [0, 1, 2] {
        refused(short.clone(), face, UP, Refusal::Lengths);
        refused(beyond.clone(), face, UP, Refusal::Lengths);
        refused(bent.clone(), face, UP, Refusal::Unsound { rule: 2 });
    }
}
