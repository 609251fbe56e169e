//! The refusals by the specification's numbers, and who causes each.

/// Who has to change something so that a call is accepted.
#[derive(Clone, Copy, Debug, PartialEq, Eq)]
pub enum Cause {
    /// Who lends the memory: links, points and where the two logs start.
    Lender,
    /// Who wrote the script or the log, and so made the part; of a solid, a face or a vector that is asked for, who
    /// named it.
    Author,
    /// Who chose how long the memory is.
    Sizer,
    /// Who asked for more operators than there are, to be undone or done again, or for the sweep of a face with a lone
    /// loop.
    Asker,
}

/// Why a call was refused.
#[derive(Clone, Copy, Debug, PartialEq, Eq)]
pub enum Refusal {
    /// 1: a capacity or length is wrong, or the log's start lies beyond the log; of undo and redo also that the redo
    /// log's start lies beyond the redo log; of [`Table::new`](crate::Table::new) and
    /// [`Table::with_logs`](crate::Table::with_logs) also that there is no memory for so long a log.
    Lengths,
    /// 2: the table is not sound; the lowest broken rule, 1 to 6.
    Unsound { rule: u8 },
    /// 3: a number is cut off or too long.
    Number,
    /// 4: a code is not 1 to 13.
    Code,
    /// 5: an operand is out of range, or the number of a solid or face that is asked for; of a sweep also a moved
    /// point.
    Range,
    /// 6: an old item is free, or the solid or face that is asked for.
    Free,
    /// 7: a new number is in use.
    InUse,
    /// 8: the operator's condition fails.
    Condition,
    /// 9: the log, or the destination of a write, is too short; for undo, the redo log; for the take-down, shorter than
    /// [`Counts::invert_log_length`](crate::Counts::invert_log_length) in front of its start; for the sweep, shorter
    /// there than all its inverses. The operator that met it has changed nothing, and what was done or undone before it
    /// stands; of a sweep nothing was done.
    NoRoom,
    /// 10: a step of the take-down lacked a free face, loop or edge number; or fewer vertices, edges, faces or loops
    /// are free than the sweep makes. The table is as it was, and so are the log from its start on, the redo log and
    /// both starts.
    NoNumber,
    /// 11: undo finds the log ended, or redo the redo log, where its next operator should begin; what was undone or
    /// done before that stands.
    LogEnded,
    /// 12: a face of the solid is no polygon: it has a ring, a lone loop or under three sides.
    NoPolygon,
    /// 13: the text is longer than the buffer; [`Table::obj`](crate::Table::obj) lends one that is long enough.
    TooLong,
    /// 14: a loop of the face that is to be swept is lone.
    LoneLoop,
}

impl Refusal {
    /// The refusal of a number, `None` for 0. No call answers a number above 14.
    pub(crate) fn of(number: u8, rule: u8) -> Option<Refusal> {
        Some(match number {
            0 => return None,
            1 => Refusal::Lengths,
            2 => Refusal::Unsound { rule },
            3 => Refusal::Number,
            4 => Refusal::Code,
            5 => Refusal::Range,
            6 => Refusal::Free,
            7 => Refusal::InUse,
            8 => Refusal::Condition,
            9 => Refusal::NoRoom,
            10 => Refusal::NoNumber,
            11 => Refusal::LogEnded,
            12 => Refusal::NoPolygon,
            13 => Refusal::TooLong,
            14 => Refusal::LoneLoop,
            other => unreachable!("no call has refusal {other}"),
        })
    }

    /// The specification's number, 1 to 14.
    pub fn number(self) -> u8 {
        match self {
            Refusal::Lengths => 1,
            Refusal::Unsound { .. } => 2,
            Refusal::Number => 3,
            Refusal::Code => 4,
            Refusal::Range => 5,
            Refusal::Free => 6,
            Refusal::InUse => 7,
            Refusal::Condition => 8,
            Refusal::NoRoom => 9,
            Refusal::NoNumber => 10,
            Refusal::LogEnded => 11,
            Refusal::NoPolygon => 12,
            Refusal::TooLong => 13,
            Refusal::LoneLoop => 14,
        }
    }

    pub fn cause(self) -> Cause {
        match self.number() {
            1 | 2 => Cause::Lender,
            3..=8 | 12 => Cause::Author,
            9 | 10 | 13 => Cause::Sizer,
            _ => Cause::Asker,
        }
    }
}

impl std::fmt::Display for Refusal {
    fn fmt(&self, f: &mut std::fmt::Formatter<'_>) -> std::fmt::Result {
        match self {
            Refusal::Unsound { rule } => write!(f, "refusal 2, rule {rule}"),
            other => write!(f, "refusal {}", other.number()),
        }
    }
}

impl std::error::Error for Refusal {}
