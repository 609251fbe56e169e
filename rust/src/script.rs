//! Operators as records, read from and written to script bytes.

use crate::{sys, Refusal};

/// An operator: its code, how many operands it has, and the operands; coordinates are signed, unused operands are 0.
#[derive(Clone, Copy, Debug, PartialEq, Eq)]
pub struct Operator {
    pub code: u8,
    pub count: u8,
    pub args: [i32; 8],
}

impl Operator {
    /// The operator of a code with these operands. What is wrong with it, [`write`] says; of more than eight operands the
    /// first eight are taken, with a count that `write` refuses.
    pub fn new(code: u8, operands: &[i32]) -> Operator {
        let mut args = [0; 8];
        for (place, operand) in args.iter_mut().zip(operands) {
            *place = *operand;
        }
        let count = u8::try_from(operands.len()).unwrap_or(u8::MAX);
        Operator { code, count, args }
    }
}

/// The operator that stands at `at` in a script, and the place behind it, at most 27 bytes further. Refusals 3, 4, 5.
///
/// A number is taken in any form of at most three groups: 1 may come as 01, 81 00 or 81 80 00 (hexadecimal). Read and
/// written, each number comes out in its fewest groups:
///
/// ```
/// # fn main() -> Result<(), zoghvari::Refusal> {
/// use zoghvari::{read, script_bytes, Operator};
///
/// let (op, next) = read(&[0x84, 0x80, 0x00, 0x81, 0x00], 0)?;
/// assert_eq!((op, next), (Operator::new(4, &[1]), 5));
/// assert_eq!(script_bytes(&[op])?, [0x04, 0x01]);
/// # Ok(())
/// # }
/// ```
pub fn read(script: &[u8], at: usize) -> Result<(Operator, usize), Refusal> {
    let answer = sys::read(script, at);
    let op = Operator { code: answer.op.code, count: answer.op.count, args: answer.op.args };
    match Refusal::of(answer.refusal, 0) {
        None => Ok((op, answer.next)),
        Some(refusal) => Err(refusal),
    }
}

/// Writes an operator at the front of `out`, each number in its fewest groups; answers how many bytes it takes, 19 at
/// most. Refusals 4, 5 and 9 write nothing.
pub fn write(op: &Operator, out: &mut [u8]) -> Result<usize, Refusal> {
    let answer = sys::write(sys::Operator { code: op.code, count: op.count, args: op.args }, out);
    match Refusal::of(answer.refusal, 0) {
        None => Ok(answer.length),
        Some(refusal) => Err(refusal),
    }
}

/// The bytes of a list of operators. Refusals 4 and 5.
pub fn script_bytes(operators: &[Operator]) -> Result<Vec<u8>, Refusal> {
    let mut bytes = Vec::new();
    for op in operators {
        let mut out = [0; 19];
        let length = write(op, &mut out)?;
        bytes.extend_from_slice(&out[..length]);
    }
    Ok(bytes)
}
