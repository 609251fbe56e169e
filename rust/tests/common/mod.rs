//! The examples of the specification: capacities 1, 2, 2, 2, 2 and three scripts, each run on what the one before left,
//! and a script for the take-down, run on what the first one left.
#![allow(dead_code)] // each test file takes what it needs

use zoghvari::{read, Capacities, Operator, Table};

pub const SMALL: Capacities = Capacities { solids: 1, faces: 2, loops: 2, edges: 2, vertices: 2 };
pub const B: [u8; 8] = [0x01, 0x01, 0x01, 0x01, 0x01, 0x00, 0x00, 0x00];
pub const C: [u8; 10] = [0x03, 0x01, 0x00, 0x01, 0x02, 0x00, 0xC8, 0x01, 0x00, 0x00];
pub const D: [u8; 8] = [0x05, 0x01, 0x01, 0x02, 0x02, 0x02, 0x02, 0x00];
/// mef 1 0 0 1 2 2 0 and kfmrh 1 2, after B: one face with a ring, and a hole.
pub const E: [u8; 11] = [0x05, 0x01, 0x00, 0x00, 0x01, 0x02, 0x02, 0x00, 0x09, 0x01, 0x02];
pub const LOG: usize = 64;

pub fn empty() -> Table {
    Table::new(SMALL, LOG).expect("the capacities are allowed")
}

/// The table behind these scripts, each of which has to be accepted whole.
pub fn after(scripts: &[&[u8]]) -> Table {
    after_on(empty(), scripts)
}

/// The same from another table.
pub fn after_on(mut table: Table, scripts: &[&[u8]]) -> Table {
    for script in scripts {
        let ran = table.run(script);
        assert_eq!((ran.refusal, ran.used), (None, script.len()));
    }
    table
}

/// The operators of a script that can be read whole.
pub fn operators(script: &[u8]) -> Vec<Operator> {
    let (mut found, mut at) = (Vec::new(), 0);
    while at < script.len() {
        let (op, next) = read(script, at).expect("an operator stands here");
        found.push(op);
        at = next;
    }
    found
}

/// The live part of the log.
pub fn live(table: &Table) -> &[u8] {
    &table.log()[table.start()..]
}

/// The live part of the redo log.
pub fn undone(table: &Table) -> &[u8] {
    &table.redo_log()[table.redo_start()..]
}
