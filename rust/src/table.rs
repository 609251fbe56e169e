//! A table that owns its memory: links, points, the two logs and where they start.

use crate::{sys, Refusal, Session};

/// How many items of each kind a table has numbers for, each 1 to 4,096.
#[derive(Clone, Copy, Debug, PartialEq, Eq)]
pub struct Capacities {
    pub solids: u16,
    pub faces: u16,
    pub loops: u16,
    pub edges: u16,
    pub vertices: u16,
}

impl Capacities {
    /// The same capacity for each kind.
    pub const fn all(n: u16) -> Capacities {
        Capacities { solids: n, faces: n, loops: n, edges: n, vertices: n }
    }

    pub const fn links_length(self) -> usize {
        let (s, f, l) = (self.solids as usize, self.faces as usize, self.loops as usize);
        5 + s + 2 * f + 3 * l + 8 * self.edges as usize + self.vertices as usize
    }

    pub const fn points_length(self) -> usize {
        3 * self.vertices as usize
    }

    /// Where the word of vertex `v` stands in the links, for a number from 1 to the capacity.
    const fn vertex_place(self, v: usize) -> usize {
        self.links_length() - self.vertices as usize + v - 1
    }

    fn numbers(self) -> [u16; 5] {
        [self.solids, self.faces, self.loops, self.edges, self.vertices]
    }
}

/// How many items a table has in use, its rings and its holes.
#[derive(Clone, Copy, Debug, PartialEq, Eq)]
pub struct Counts {
    pub solids: usize,
    pub faces: usize,
    pub loops: usize,
    pub edges: usize,
    pub vertices: usize,
    pub rings: usize,
    pub holes: usize,
}

impl Counts {
    /// The log bytes that [`Table::invert`] asks for in front of the log's start, for a table of these counts: 19 for
    /// each of the v + 2f + 2r + 3h − 2s operators that it may take. Most often it uses fewer.
    pub const fn invert_log_length(self) -> usize {
        let made = self.vertices + 2 * self.faces + 2 * self.rings + 3 * self.holes;
        // A solid has a face, so that nothing is cut off of what `Table::count` answers.
        19 * made.saturating_sub(2 * self.solids)
    }
}

/// What a run did; the operators done stand also where the next one was refused.
#[derive(Clone, Copy, Debug, PartialEq, Eq)]
pub struct Ran {
    pub refusal: Option<Refusal>,
    /// Operators carried out.
    pub done: usize,
    /// Script bytes they took: where a refused operator begins.
    pub used: usize,
}

/// What an undo did; the operators undone stand also where the next one was refused.
#[derive(Clone, Copy, Debug, PartialEq, Eq)]
pub struct Undone {
    pub refusal: Option<Refusal>,
    pub undone: usize,
}

/// What a redo did; the operators done again stand also where the next one was refused.
#[derive(Clone, Copy, Debug, PartialEq, Eq)]
pub struct Redone {
    pub refusal: Option<Refusal>,
    pub done: usize,
}

/// What a take-down did. It is whole or refused, so that there is no refusal in here.
#[derive(Clone, Debug, PartialEq, Eq)]
pub struct Inverted {
    /// Operators carried out, and as many in the script.
    pub done: usize,
    /// What the take-down logged: run on an empty table of the same capacities, it builds the table again.
    pub script: Vec<u8>,
}

/// A table with its log and its redo log. Nobody else can write into them, so undo by the sum of the `done` counts of
/// runs and sweeps gives back every byte, where no clearing, undo, redo or take-down came between and the redo log has
/// room for what is undone; and redo by the number undone then gives back every byte of the table and of the log.
#[derive(Clone, Debug, PartialEq, Eq)]
pub struct Table {
    links: Vec<u16>,
    points: Vec<i32>,
    log: Vec<u8>,
    redo: Vec<u8>,
    session: Session,
}

/// So many bytes, where there is memory for them: the number comes from the caller, and may be any.
fn bytes(length: usize) -> Result<Vec<u8>, Refusal> {
    let mut bytes = Vec::new();
    bytes.try_reserve_exact(length).map_err(|_| Refusal::Lengths)?;
    bytes.resize(length, 0);
    Ok(bytes)
}

impl Table {
    /// An empty table with a log of so many bytes, and a redo log as long. With 19 bytes for each operator that is to
    /// be undone, neither of them gets full. Refusal 1, also for logs that there is no memory for.
    pub fn new(capacities: Capacities, log_length: usize) -> Result<Table, Refusal> {
        Table::with_logs(capacities, log_length, log_length)
    }

    /// An empty table with a log and a redo log of so many bytes. The log holds the inverses of what was run, the redo
    /// log what was undone: as many bytes as the runs' `used` counts sum to are enough for it. A redo log of no bytes
    /// is for a table of which nothing is ever undone: undo of an operator is then refused with 9. Refusal 1, also for
    /// logs that there is no memory for.
    pub fn with_logs(capacities: Capacities, log_length: usize, redo_length: usize) -> Result<Table, Refusal> {
        let (links, points) = (vec![0; capacities.links_length()], vec![0; capacities.points_length()]);
        let session = Session { log: log_length, redo: redo_length };
        let mut table = Table { links, points, log: bytes(log_length)?, redo: bytes(redo_length)?, session };
        table.clear(capacities)?;
        Ok(table)
    }

    /// A table of words from elsewhere. Nothing is asked of them here: each call looks for itself and refuses what is
    /// wrong.
    pub fn from_parts(links: Vec<u16>, points: Vec<i32>, log: Vec<u8>, redo: Vec<u8>, session: Session) -> Table {
        Table { links, points, log, redo, session }
    }

    /// The links, points, log, redo log and where the two start, to be kept or handed on.
    pub fn into_parts(self) -> (Vec<u16>, Vec<i32>, Vec<u8>, Vec<u8>, Session) {
        (self.links, self.points, self.log, self.redo, self.session)
    }

    /// Empties the table and both logs; the logs' bytes stay. Refusal 1 where a capacity is not 1 to 4,096, or the
    /// memory has other lengths than these capacities need; all is then as it was.
    pub fn clear(&mut self, capacities: Capacities) -> Result<(), Refusal> {
        let logs = [self.log.len(), self.redo.len()];
        let answer = sys::clear(&mut self.links, &mut self.points, logs, &mut self.session, capacities.numbers());
        Refusal::of(answer.refusal, 0).map_or(Ok(()), Err)
    }

    /// Whether the table is sound. Refusals 1 and 2.
    pub fn check(&self) -> Result<(), Refusal> {
        let answer = sys::check(&self.links, &self.points);
        Refusal::of(answer.refusal, answer.rule).map_or(Ok(()), Err)
    }

    /// Refusals 1 and 2.
    pub fn count(&self) -> Result<Counts, Refusal> {
        let answer = sys::count(&self.links, &self.points);
        if let Some(refusal) = Refusal::of(answer.refusal, answer.rule) {
            return Err(refusal);
        }
        let [solids, faces, loops, edges, vertices, rings, holes] = answer.items;
        Ok(Counts { solids, faces, loops, edges, vertices, rings, holes })
    }

    /// Carries out a script up to its end or the first refusal, and logs the inverses. Its numbers may come in any form
    /// that [`read`](crate::read) takes, and only `used` differs by it. Where an operator is done the redo log is
    /// emptied: what was undone before cannot be done again. Refusals 1 to 9.
    pub fn run(&mut self, script: &[u8]) -> Ran {
        let (redo_n, session) = (self.redo.len(), &mut self.session);
        let answer = sys::run(&mut self.links, &mut self.points, &mut self.log, redo_n, session, script);
        Ran { refusal: Refusal::of(answer.refusal, answer.rule), done: answer.done, used: answer.used }
    }

    /// Takes back the last `n` operators, and puts them into the redo log; the log's bytes stay. In a log from
    /// elsewhere numbers may come in any form, as in a script. Refusals 1 to 8, 11 where the log ends first, 9 where
    /// the redo log has no room; what was undone before a refusal stands.
    pub fn undo(&mut self, n: usize) -> Undone {
        let (redo, session) = (&mut self.redo, &mut self.session);
        let answer = sys::undo(&mut self.links, &mut self.points, &self.log, redo, session, n);
        Undone { refusal: Refusal::of(answer.refusal, answer.rule), undone: answer.undone }
    }

    /// Does again the last `n` operators that were undone, and logs their inverses as a run does; the redo log's bytes
    /// stay. Refusals 1 to 8, 11 where the redo log ends first, 9 where the log has no room; what was done before a
    /// refusal stands.
    ///
    /// ```
    /// # fn main() -> Result<(), zoghvari::Refusal> {
    /// use zoghvari::{script_bytes, Capacities, Operator, Redone, Refusal, Table};
    ///
    /// let edge = |e, v, x| Operator::new(3, &[1, 0, e, v, 0, x, 0, 0]);
    /// let mut table = Table::new(Capacities::all(8), 256)?;
    /// let solid = [Operator::new(1, &[1, 1, 1, 1, 0, 0, 0]), edge(1, 2, 100)];
    /// assert_eq!(table.run(&script_bytes(&solid)?).done, 2);
    ///
    /// let held = table.links().to_vec();
    /// assert_eq!(table.undo(2).undone, 2); // one too many
    /// assert_eq!(table.redo(1).done, 1);
    /// assert_eq!(table.count()?.vertices, 1);
    /// assert_eq!(table.redo(1).done, 1);
    /// assert_eq!(table.links(), held);
    ///
    /// // Another edge in the place of the first: what was undone before is given up.
    /// assert_eq!(table.undo(1).undone, 1);
    /// assert_eq!(table.run(&script_bytes(&[edge(1, 2, 200)])?).done, 1);
    /// assert_eq!(table.redo(1), Redone { refusal: Some(Refusal::LogEnded), done: 0 });
    /// # Ok(())
    /// # }
    /// ```
    pub fn redo(&mut self, n: usize) -> Redone {
        let (log, session) = (&mut self.log, &mut self.session);
        let answer = sys::redo(&mut self.links, &mut self.points, log, &self.redo, session, n);
        Redone { refusal: Refusal::of(answer.refusal, answer.rule), done: answer.done }
    }

    /// Takes the table down to nothing and answers the script that builds it again. Links and points are then as
    /// [`Table::clear`] leaves them; in the log the script stands in front of what was live before, which stays. The
    /// redo log is emptied as by a run.
    ///
    /// Refusals, in this order: 1 and 2; 9 where fewer bytes than [`Counts::invert_log_length`] lie in front of the
    /// log's start; 10 where a step lacked a free face, loop or edge number. A full table is refused only where a step
    /// calls for a number and none of its kind is left by then; where one of each of these kinds is free, none ever
    /// lacks. With a refusal links, points, the redo log, both starts and the log from its start on are as they were;
    /// with 10 the bytes in front of the log's start that the steps logged into may differ, with the others none.
    ///
    /// To save a table and go on working with it, take down a copy, with a log of its own:
    ///
    /// ```
    /// # fn main() -> Result<(), zoghvari::Refusal> {
    /// use zoghvari::{script_bytes, Capacities, Operator, Session, Table};
    ///
    /// let capacities = Capacities::all(8);
    /// let mut table = Table::new(capacities, 256)?;
    /// let solid = [Operator::new(1, &[1, 1, 1, 1, 0, 0, 0]), Operator::new(3, &[1, 0, 1, 2, 0, 100, 0, 0])];
    /// assert_eq!(table.run(&script_bytes(&solid)?).refusal, None);
    ///
    /// let room = table.count()?.invert_log_length();
    /// let (links, points) = (table.links().to_vec(), table.points().to_vec());
    /// let mut copy = Table::from_parts(links, points, vec![0; room], vec![], Session { log: room, redo: 0 });
    /// let saved = copy.invert()?;
    ///
    /// let mut built = Table::new(capacities, 19 * saved.done)?;
    /// let ran = built.run(&saved.script);
    /// assert_eq!((ran.refusal, ran.done, ran.used), (None, saved.done, saved.script.len()));
    /// assert_eq!((built.links(), built.points()), (table.links(), table.points()));
    /// # Ok(())
    /// # }
    /// ```
    pub fn invert(&mut self) -> Result<Inverted, Refusal> {
        let (end, redo_n) = (self.session.log, self.redo.len());
        let answer = sys::invert(&mut self.links, &mut self.points, &mut self.log, redo_n, &mut self.session);
        match Refusal::of(answer.refusal, answer.rule) {
            None => Ok(Inverted { done: answer.done, script: self.log[self.session.log..end].to_vec() }),
            Some(refusal) => Err(refusal),
        }
    }

    /// One solid as Wavefront OBJ text, for a viewer: a line `v` for each of its vertices, by number and in
    /// millimetres, then a line `f` for each of its faces, by number, its corners counted among the `v` lines from 1.
    /// Loops are written backwards, so that those that run clockwise seen from outside are counterclockwise, as OBJ
    /// wants them.
    ///
    /// Refusals 1 and 2; 5 where the table has no such number of a solid, 6 where that solid is free; 12 where a face
    /// of it has a ring, a lone loop or under three sides. The text's length is asked for first, so 13 does not come.
    ///
    /// ```
    /// # fn main() -> Result<(), zoghvari::Refusal> {
    /// use zoghvari::{script_bytes, Capacities, Operator, Table};
    ///
    /// let triangle = [
    ///     Operator::new(1, &[1, 1, 1, 1, 0, 0, 0]),
    ///     Operator::new(3, &[1, 0, 1, 2, 0, 1_000, 0, 0]),
    ///     Operator::new(3, &[1, 2, 2, 3, 0, 500, -250, 0]),
    ///     Operator::new(5, &[1, 1, 4, 3, 2, 2, 0]),
    /// ];
    /// let mut table = Table::new(Capacities::all(8), 256)?;
    /// assert_eq!(table.run(&script_bytes(&triangle)?).refusal, None);
    /// let text = b"v 0.00 0.00 0.00\nv 10.00 0.00 0.00\nv 5.00 -2.50 0.00\nf 2 3 1\nf 1 3 2\n";
    /// assert_eq!(table.obj(1)?, text);
    /// # Ok(())
    /// # }
    /// ```
    pub fn obj(&self, solid: usize) -> Result<Vec<u8>, Refusal> {
        let asked = sys::obj(&self.links, &self.points, solid, &mut []);
        match Refusal::of(asked.refusal, asked.rule) {
            // Every text is too long for no buffer, and this refusal tells how long it is.
            None | Some(Refusal::TooLong) => {}
            Some(refusal) => return Err(refusal),
        }
        let mut text = vec![0; asked.length];
        let answer = sys::obj(&self.links, &self.points, solid, &mut text);
        Refusal::of(answer.refusal, answer.rule).map_or(Ok(text), Err)
    }

    /// Lifts a face by a vector, in hundredths of a millimetre, and answers the number of operators done: the number to
    /// undo, two for each corner. A corner gets a new vertex and an edge to it, a side a new edge and a new face; all
    /// loops of the face are lifted, rings too, and the face keeps its number. For n corners n vertices, 2n edges, n
    /// faces and n loops have to be free. What is logged is what a run of these operators logs, and the redo log is
    /// emptied as by a run.
    ///
    /// Refusals, in this order: 1 and 2; 5 where the table has no such number of a face, 6 where that face is free; 14
    /// where a loop of it is lone; 5 where a corner's point plus the vector is out of range; 10 where too few numbers
    /// are free; 9 where the log has no room for all inverses, of 2 or 3 bytes each. A refusal changes nothing.
    ///
    /// ```
    /// # fn main() -> Result<(), zoghvari::Refusal> {
    /// # use zoghvari::{script_bytes, Capacities, Operator, Table};
    /// # let triangle = [
    /// #     Operator::new(1, &[1, 1, 1, 1, 0, 0, 0]),
    /// #     Operator::new(3, &[1, 0, 1, 2, 0, 1_000, 0, 0]),
    /// #     Operator::new(3, &[1, 2, 2, 3, 0, 500, -250, 0]),
    /// #     Operator::new(5, &[1, 1, 4, 3, 2, 2, 0]),
    /// # ];
    /// # let mut table = Table::new(Capacities::all(9), 256)?;
    /// # assert_eq!(table.run(&script_bytes(&triangle)?).refusal, None);
    /// let done = table.sweep(2, [0, 0, 2_000])?; // a triangle becomes a prism
    /// assert_eq!((done, table.count()?.faces), (6, 5));
    /// assert_eq!(table.undo(done).undone, 6);
    /// # Ok(())
    /// # }
    /// ```
    pub fn sweep(&mut self, face: usize, vector: [i32; 3]) -> Result<usize, Refusal> {
        let (log, redo_n, session) = (&mut self.log, self.redo.len(), &mut self.session);
        let answer = sys::sweep(&mut self.links, &mut self.points, log, redo_n, session, face, vector);
        Refusal::of(answer.refusal, answer.rule).map_or(Ok(answer.done), Err)
    }

    /// How many half-edges start at vertex `v`: at a corner of a part, how many edges meet there, an edge from a vertex
    /// to itself counted twice; 0 where `v` is the lone vertex of a loop. `None` for a free vertex and for a number
    /// that the table does not have.
    ///
    /// This is one read of the vertex's word, which is 1 more, and no walk. The table is not checked: what a table of
    /// words from elsewhere says of a vertex is right where [`Table::check`] finds nothing.
    ///
    /// ```
    /// # fn main() -> Result<(), zoghvari::Refusal> {
    /// use zoghvari::{script_bytes, Capacities, Operator, Table};
    ///
    /// let mut table = Table::new(Capacities::all(8), 256)?;
    /// table.run(&script_bytes(&[Operator::new(1, &[1, 1, 1, 1, 0, 0, 0])])?);
    /// assert_eq!(table.valence(1), Some(0)); // a lone vertex
    /// table.run(&script_bytes(&[Operator::new(3, &[1, 0, 1, 2, 0, 100, 0, 0])])?);
    /// assert_eq!((table.valence(1), table.valence(2)), (Some(1), Some(1)));
    /// assert_eq!((table.valence(3), table.valence(9)), (None, None));
    /// # Ok(())
    /// # }
    /// ```
    pub fn valence(&self, v: usize) -> Option<usize> {
        let &[solids, faces, loops, edges, vertices, ..] = self.links.as_slice() else { return None };
        if v == 0 || v > usize::from(vertices) {
            return None;
        }
        let place = Capacities { solids, faces, loops, edges, vertices }.vertex_place(v);
        usize::from(*self.links.get(place)?).checked_sub(1)
    }

    pub fn links(&self) -> &[u16] {
        &self.links
    }

    pub fn points(&self) -> &[i32] {
        &self.points
    }

    pub fn log(&self) -> &[u8] {
        &self.log
    }

    /// Where the log's live part starts; from there on it is the undo script.
    pub fn start(&self) -> usize {
        self.session.log
    }

    pub fn redo_log(&self) -> &[u8] {
        &self.redo
    }

    /// Where the redo log's live part starts; from there on it is the script of what was undone.
    pub fn redo_start(&self) -> usize {
        self.session.redo
    }

    /// Both starts.
    pub fn session(&self) -> Session {
        self.session
    }
}
