//! Solids as OBJ text by way of the wrapper: what a reader of the text finds, and which solids have no text.

mod common;

use common::{after, after_on, operators, B, C, D, E, SMALL};
use zoghvari::{script_bytes, Capacities, Operator, Refusal, Table};

const POCKET: &[u8] = include_bytes!("../../examples/pocket.script");
/// So many operators at the front of the pocket's script make the block, a box.
const BLOCK: usize = 13;
/// And so many make an outline on its top too: the top, whose outer loop is 2, has a ring then, loop 8.
const OUTLINE: usize = 19;

/// What so many operators of the pocket's script make.
fn pocket(length: usize) -> Table {
    let script = script_bytes(&operators(POCKET)[..length]).unwrap();
    after_on(Table::new(Capacities::all(64), 4_096).unwrap(), &[&script])
}

/// The script of a triangle as solid 1, with vertices 1 to 3, or as solid 2, with vertices 4 to 6.
fn triangle(solid: i32, corners: [[i32; 3]; 3]) -> Vec<u8> {
    let (face, edge, vertex) = (2 * solid - 1, 3 * solid - 2, 3 * solid - 2);
    let half = 2 * edge - 1;
    let [[a, b, c], [d, e, f], [g, h, i]] = corners;
    let made = [
        Operator::new(1, &[solid, face, face, vertex, a, b, c]),
        Operator::new(3, &[face, 0, edge, vertex + 1, 0, d, e, f]),
        Operator::new(3, &[face, half + 1, edge + 1, vertex + 2, 0, g, h, i]),
        Operator::new(5, &[face, half, half + 3, edge + 2, face + 1, face + 1, 0]),
    ];
    script_bytes(&made).unwrap()
}

const CORNERS: [[i32; 3]; 3] = [[-5, 0, 5], [50_000, -50_000, 99], [100, -100, -1_234]];
const TEXT: &str = "v -0.05 0.00 0.05\nv 500.00 -500.00 0.99\nv 1.00 -1.00 -12.34\nf 2 3 1\nf 1 3 2\n";

/// Millimetres with two decimals, as hundredths.
fn hundredths(word: &str) -> i32 {
    let (whole, decimals) = word.trim_start_matches('-').split_once('.').expect("a point");
    let size = 100 * whole.parse::<i32>().unwrap() + decimals.parse::<i32>().unwrap();
    assert_eq!(decimals.len(), 2);
    if word.starts_with('-') {
        -size
    } else {
        size
    }
}

/// What a reader of a text finds: the points of its v lines, one coordinate after the other, and the corners of its f
/// lines.
fn found(text: &[u8]) -> (Vec<i32>, Vec<Vec<u16>>) {
    let text = std::str::from_utf8(text).unwrap();
    assert!(text.ends_with('\n'));
    let (mut points, mut faces) = (Vec::new(), Vec::new());
    for line in text.lines() {
        match line.split_once(' ').expect("a word and what follows") {
            ("v", rest) if faces.is_empty() => points.extend(rest.split(' ').map(hundredths)),
            ("f", rest) => faces.push(rest.split(' ').map(|word| word.parse().unwrap()).collect()),
            other => panic!("neither a point nor a face: {other:?}"),
        }
    }
    (points, faces)
}

const FACE: usize = 1;
const LOOP: usize = 2;
const HALF: usize = 3;

/// The record of an item, by its kind and number.
fn record(table: &Table, kind: usize, number: u16) -> &[u16] {
    let links = table.links();
    let (widths, items) = ([1, 2, 3, 4], [links[0], links[1], links[2], 2 * links[3]]);
    let base: usize = 5 + (0..kind).map(|k| widths[k] * items[k] as usize).sum::<usize>();
    let at = base + widths[kind] * (number as usize - 1);
    &links[at..at + widths[kind]]
}

/// The vertices of a face as its outer loop passes them, from its first half-edge on.
fn cycle(table: &Table, face: u16) -> Vec<u16> {
    let first = record(table, LOOP, record(table, FACE, face)[1])[1];
    let (mut starts, mut half) = (Vec::new(), first);
    while starts.is_empty() || half != first {
        starts.push(record(table, HALF, half)[0]);
        half = record(table, HALF, half)[2];
    }
    starts
}

#[test]
fn a_box_is_read_back_with_its_cycles_turned_round() {
    let table = pocket(BLOCK);
    let held = table.clone();
    let (points, mut faces) = found(&table.obj(1).unwrap());
    assert_eq!(table, held);
    // The box is all there is, so that a corner's place among the points is its vertex number.
    assert_eq!((points.len(), &points[..]), (24, &table.points()[..24]));
    for face in &mut faces {
        face[1..].reverse();
    }
    assert_eq!(faces, (1..=6).map(|face| cycle(&table, face)).collect::<Vec<_>>());
}

#[test]
fn the_insert_is_written_as_its_file_says() {
    let insert = include_bytes!("../../examples/insert.script");
    let table = after_on(Table::new(Capacities::all(64), 4_096).unwrap(), &[insert]);
    assert_eq!(table.obj(1).unwrap(), include_bytes!("../../examples/insert.obj"));
}

#[test]
fn coordinates_are_millimetres_with_two_decimals() {
    let table = after_on(Table::new(Capacities::all(8), 256).unwrap(), &[&triangle(1, CORNERS)]);
    assert_eq!(table.obj(1).unwrap(), TEXT.as_bytes());
}

#[test]
fn corners_are_counted_within_the_solid() {
    let other = [[0, 0, 0], [100, 0, 0], [0, 100, 0]];
    let two = [&triangle(1, other)[..], &triangle(2, CORNERS)];
    let table = after_on(Table::new(Capacities::all(8), 256).unwrap(), &two);
    assert_eq!(table.obj(2).unwrap(), TEXT.as_bytes());
    // A vertex that is made later may have a lower number: points come by number, and corners follow them.
    let swapped = [&triangle(2, CORNERS)[..], &triangle(1, other)];
    let table = after_on(Table::new(Capacities::all(8), 256).unwrap(), &swapped);
    assert_eq!(table.obj(2).unwrap(), TEXT.as_bytes());
}

#[test]
fn a_solid_that_is_not_there_has_no_text() {
    let table = pocket(BLOCK);
    for beyond in [0, 65, 65_537, usize::MAX] {
        assert_eq!(table.obj(beyond), Err(Refusal::Range));
    }
    for free in [2, 64] {
        assert_eq!(table.obj(free), Err(Refusal::Free));
    }
}

#[test]
fn a_face_that_is_no_polygon_has_no_line() {
    // A lone loop; a loop of two sides; two faces of two sides; a loop of one side, with a ring.
    for scripts in [&[&B[..]][..], &[&B, &C], &[&B, &C, &D], &[&B, &E]] {
        assert_eq!(after(scripts).obj(1), Err(Refusal::NoPolygon));
    }
    let triangle = triangle(2, CORNERS);
    let beside = after_on(Table::new(Capacities::all(8), 256).unwrap(), &[&B, &triangle]);
    assert_eq!((beside.obj(1), beside.obj(2)), (Err(Refusal::NoPolygon), Ok(TEXT.into())));
}

#[test]
fn a_ring_that_is_joined_to_the_outer_loop_is_shown() {
    let mut table = pocket(OUTLINE);
    assert_eq!((table.count().unwrap().rings, table.obj(1)), (1, Err(Refusal::NoPolygon)));
    let first = |l| i32::from(record(&table, LOOP, l)[1]);
    let mekr = Operator::new(8, &[2, first(2), 8, first(8), 13, 0]);
    assert_eq!(table.run(&script_bytes(&[mekr]).unwrap()).refusal, None);
    let (points, faces) = found(&table.obj(1).unwrap());
    // Around the block's rim, over to the outline, around it and back again.
    assert_eq!((points.len(), faces.len(), faces[1].len()), (3 * 12, 7, 4 + 1 + 4 + 1));
}

#[test]
fn memory_that_is_wrong_is_refused_first() {
    let (links, points, log, redo, session) = pocket(BLOCK).into_parts();
    let short = Table::from_parts(links.clone(), points[1..].to_vec(), log.clone(), redo.clone(), session);
    let mut bent = links;
    bent[5] = 0; // the solid is free, and its faces still name it
    let bent = Table::from_parts(bent, points, log, redo, session);
    for solid in [0, 1, 2] {
        assert_eq!((short.obj(solid), bent.obj(solid)), (Err(Refusal::Lengths), Err(Refusal::Unsound { rule: 2 })));
    }
    assert_eq!(Table::new(SMALL, 0).unwrap().obj(1), Err(Refusal::Free));
}
