//! The archive's functions as include/zoghvari.h and include/zoghvari_sweep.h declare them, and a safe function for
//! each. All `unsafe` is here.
//!
//! Why each call is safe: the archive asks nothing of the bytes it is lent, reads and writes only inside the slices (a
//! pointer and a count of elements) and the session, and keeps no pointer. A `&mut` is lent to no one else during the
//! call.

/// Where the live parts of a table's two logs start. Both logs fill from their ends downward.
#[repr(C)]
#[derive(Clone, Copy, Debug, PartialEq, Eq)]
pub struct Session {
    /// From there on the log is a script that takes back what was done, the last operator first.
    pub log: usize,
    /// From there on the redo log is a script that does again what was undone, the last undone first.
    pub redo: usize,
}

#[repr(C)]
pub struct Operator {
    pub code: u8,
    pub count: u8,
    pub args: [i32; 8],
}

#[repr(C)]
pub struct Cleared {
    pub refusal: u8,
}

#[repr(C)]
pub struct Checked {
    pub refusal: u8,
    pub rule: u8,
}

#[repr(C)]
pub struct Counted {
    pub refusal: u8,
    pub rule: u8,
    /// Solids, faces, loops, edges, vertices, rings, holes.
    pub items: [usize; 7],
}

#[repr(C)]
pub struct Read {
    pub refusal: u8,
    pub next: usize,
    pub op: Operator,
}

#[repr(C)]
pub struct Written {
    pub refusal: u8,
    pub length: usize,
}

#[repr(C)]
pub struct Ran {
    pub refusal: u8,
    pub rule: u8,
    pub done: usize,
    pub used: usize,
    _start: usize, // the session has it
}

#[repr(C)]
pub struct Undone {
    pub refusal: u8,
    pub rule: u8,
    pub undone: usize,
    _start: usize,
}

#[repr(C)]
pub struct Redone {
    pub refusal: u8,
    pub rule: u8,
    pub done: usize,
}

#[repr(C)]
pub struct Inverted {
    pub refusal: u8,
    pub rule: u8,
    pub done: usize,
    _start: usize,
}

#[repr(C)]
pub struct Text {
    pub refusal: u8,
    pub rule: u8,
    pub length: usize,
}

#[repr(C)]
pub struct Done {
    pub refusal: u8,
    pub rule: u8,
    pub done: usize,
}

mod c {
    use super::{Checked, Cleared, Counted, Done, Inverted, Operator, Ran, Read, Redone, Session, Text, Undone, Written};

    extern "C" {
        #[rustfmt::skip]
        pub fn zoghvari_clear(
            links: *mut u16,
            links_n: usize,
            points: *mut i32,
            points_n: usize,
            log_n: usize,
            redo_n: usize,
            session: *mut Session,
            s: u16,
            f: u16,
            l: u16,
            e: u16,
            v: u16,
        ) -> Cleared;
        pub fn zoghvari_check(links: *const u16, links_n: usize, points: *const i32, points_n: usize) -> Checked;
        pub fn zoghvari_count(links: *const u16, links_n: usize, points: *const i32, points_n: usize) -> Counted;
        pub fn zoghvari_read(script: *const u8, script_n: usize, at: usize) -> Read;
        pub fn zoghvari_write(op: Operator, out: *mut u8, out_n: usize) -> Written;
        #[rustfmt::skip]
        pub fn zoghvari_run(
            links: *mut u16,
            links_n: usize,
            points: *mut i32,
            points_n: usize,
            log: *mut u8,
            log_n: usize,
            redo_n: usize,
            session: *mut Session,
            script: *const u8,
            script_n: usize,
        ) -> Ran;
        #[rustfmt::skip]
        pub fn zoghvari_undo(
            links: *mut u16,
            links_n: usize,
            points: *mut i32,
            points_n: usize,
            log: *const u8,
            log_n: usize,
            redo: *mut u8,
            redo_n: usize,
            session: *mut Session,
            n: usize,
        ) -> Undone;
        #[rustfmt::skip]
        pub fn zoghvari_redo(
            links: *mut u16,
            links_n: usize,
            points: *mut i32,
            points_n: usize,
            log: *mut u8,
            log_n: usize,
            redo: *const u8,
            redo_n: usize,
            session: *mut Session,
            n: usize,
        ) -> Redone;
        #[rustfmt::skip]
        pub fn zoghvari_invert(
            links: *mut u16,
            links_n: usize,
            points: *mut i32,
            points_n: usize,
            log: *mut u8,
            log_n: usize,
            redo_n: usize,
            session: *mut Session,
        ) -> Inverted;
        #[rustfmt::skip]
        pub fn zoghvari_obj(
            links: *const u16,
            links_n: usize,
            points: *const i32,
            points_n: usize,
            solid: usize,
            out: *mut u8,
            out_n: usize,
        ) -> Text;
        #[rustfmt::skip]
        pub fn zoghvari_sweep(
            links: *mut u16,
            links_n: usize,
            points: *mut i32,
            points_n: usize,
            log: *mut u8,
            log_n: usize,
            redo_n: usize,
            session: *mut Session,
            face: usize,
            dx: i32,
            dy: i32,
            dz: i32,
        ) -> Done;
    }
}

/// The capacities are those of solids, faces, loops, edges and vertices, in this order; of log and redo log the lengths
/// are handed in.
pub fn clear(links: &mut [u16], points: &mut [i32], logs: [usize; 2], at: &mut Session, caps: [u16; 5]) -> Cleared {
    let ([log_n, redo_n], [s, f, l, e, v]) = (logs, caps);
    let (lp, ln, pp, pn) = (links.as_mut_ptr(), links.len(), points.as_mut_ptr(), points.len());
    unsafe { c::zoghvari_clear(lp, ln, pp, pn, log_n, redo_n, at, s, f, l, e, v) }
}

pub fn check(links: &[u16], points: &[i32]) -> Checked {
    unsafe { c::zoghvari_check(links.as_ptr(), links.len(), points.as_ptr(), points.len()) }
}

pub fn count(links: &[u16], points: &[i32]) -> Counted {
    unsafe { c::zoghvari_count(links.as_ptr(), links.len(), points.as_ptr(), points.len()) }
}

pub fn read(script: &[u8], at: usize) -> Read {
    unsafe { c::zoghvari_read(script.as_ptr(), script.len(), at) }
}

pub fn write(op: Operator, out: &mut [u8]) -> Written {
    unsafe { c::zoghvari_write(op, out.as_mut_ptr(), out.len()) }
}

/// Of the redo log only the length is handed in.
#[rustfmt::skip]
pub fn run(
    links: &mut [u16],
    points: &mut [i32],
    log: &mut [u8],
    redo_n: usize,
    session: &mut Session,
    script: &[u8],
) -> Ran {
    let (lp, ln, pp, pn) = (links.as_mut_ptr(), links.len(), points.as_mut_ptr(), points.len());
    let (gp, gn) = (log.as_mut_ptr(), log.len());
    unsafe { c::zoghvari_run(lp, ln, pp, pn, gp, gn, redo_n, session, script.as_ptr(), script.len()) }
}

#[rustfmt::skip]
pub fn undo(
    links: &mut [u16],
    points: &mut [i32],
    log: &[u8],
    redo: &mut [u8],
    session: &mut Session,
    n: usize,
) -> Undone {
    let (lp, ln, pp, pn) = (links.as_mut_ptr(), links.len(), points.as_mut_ptr(), points.len());
    let (rp, rn) = (redo.as_mut_ptr(), redo.len());
    unsafe { c::zoghvari_undo(lp, ln, pp, pn, log.as_ptr(), log.len(), rp, rn, session, n) }
}

#[rustfmt::skip]
pub fn redo(
    links: &mut [u16],
    points: &mut [i32],
    log: &mut [u8],
    redo: &[u8],
    session: &mut Session,
    n: usize,
) -> Redone {
    let (lp, ln, pp, pn) = (links.as_mut_ptr(), links.len(), points.as_mut_ptr(), points.len());
    let (gp, gn) = (log.as_mut_ptr(), log.len());
    unsafe { c::zoghvari_redo(lp, ln, pp, pn, gp, gn, redo.as_ptr(), redo.len(), session, n) }
}

/// Of the redo log only the length is handed in.
#[rustfmt::skip]
pub fn invert(
    links: &mut [u16],
    points: &mut [i32],
    log: &mut [u8],
    redo_n: usize,
    session: &mut Session,
) -> Inverted {
    let (lp, ln, pp, pn) = (links.as_mut_ptr(), links.len(), points.as_mut_ptr(), points.len());
    unsafe { c::zoghvari_invert(lp, ln, pp, pn, log.as_mut_ptr(), log.len(), redo_n, session) }
}

pub fn obj(links: &[u16], points: &[i32], solid: usize, out: &mut [u8]) -> Text {
    let (lp, ln, pp, pn) = (links.as_ptr(), links.len(), points.as_ptr(), points.len());
    unsafe { c::zoghvari_obj(lp, ln, pp, pn, solid, out.as_mut_ptr(), out.len()) }
}

/// Of the redo log only the length is handed in.
#[rustfmt::skip]
pub fn sweep(
    links: &mut [u16],
    points: &mut [i32],
    log: &mut [u8],
    redo_n: usize,
    session: &mut Session,
    face: usize,
    vector: [i32; 3],
) -> Done {
    let (lp, ln, pp, pn) = (links.as_mut_ptr(), links.len(), points.as_mut_ptr(), points.len());
    let ((gp, gn), [dx, dy, dz]) = ((log.as_mut_ptr(), log.len()), vector);
    unsafe { c::zoghvari_sweep(lp, ln, pp, pn, gp, gn, redo_n, session, face, dx, dy, dz) }
}
