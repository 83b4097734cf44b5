//! An output of one's own, as long as a call needs it.
use crate::{work_len, Refusal};

/// The bytes of the tree that a call makes of a tape, in an output that grows up to `longest` bytes; at first it is as long as the tape. A refusal
/// other than 21 is the same in any longer output, so it is the answer.
///
/// ```
/// use normalize::{grown, whole, Refusal};
///
/// let stage = tape::lalrpop::parse("grammar; A = B?; B = \"b\";").unwrap();
/// let tape = tape::write(&stage);
/// let tree = grown(&tape, 1 << 20, |tape, output, work| whole(tape, 64, output, work)).unwrap();
/// assert!(tree.len() > tape.len());
/// let short = grown(&tape, tree.len() - 1, |tape, output, work| whole(tape, 64, output, work));
/// assert_eq!(short, Err(Refusal { number: 21, place: (0, 0) }));
/// ```
pub fn grown(
    tape: &[u8],
    longest: usize,
    call: impl Fn(&[u8], &mut [u8], &mut [u8]) -> Result<usize, Refusal>,
) -> Result<Vec<u8>, Refusal> {
    let mut length = tape.len();
    loop {
        let (mut output, mut work) = (vec![0; length], vec![0; work_len(tape.len(), length)]);
        match call(tape, &mut output, &mut work) {
            Ok(n) => {
                output.truncate(n);
                return Ok(output);
            }
            Err(Refusal { number: 21, .. }) if length < longest => length = longest.min(2 * length.max(32)),
            Err(refusal) => return Err(refusal),
        }
    }
}
