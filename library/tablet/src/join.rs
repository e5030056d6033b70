//! Two opening texts joined into one.

use crate::answer::Answer;
use crate::kernel;
use crate::layout::JOINED_BYTES;
use crate::refusal::Refusal;

/// (rules J1 to J9) Joins two opening texts, the second right after the line `(open)` of the first, as the program
/// `join` does: a text that opens, or the refusal. That of one text by itself has its line in that text; 5, 6 and 20, of
/// both, have none.
///
/// ```
/// use tablet::{join, Tables};
///
/// let first = "(node 2 (op 1 5 7))\n(process 1 1)\n(open)\n"; // by itself it lacks node 1
/// let second = "(node 2 (dir 1 3) (op 1 5 7))\n(node 1)\n(open)\n";
/// let text = join(format!("{first}{second}"))?;
/// assert_eq!(text, "(node 1)\n(node 2 (op 1 5 7) (dir 1 3))\n(process 1 1)\n(open)\n");
/// assert!(Tables::open(&text).is_ok());
///
/// let refused = |texts: &str| join(texts).err().map(|no| (no.number(), no.line()));
/// assert_eq!(refused("(node 1)\n(node 33)\n"), Some((3, Some(2))));
/// assert_eq!(refused("(process 1 1)\n(open)\n(open)\n"), Some((5, None)));
/// # Ok::<(), tablet::Refusal>(())
/// ```
pub fn join(texts: impl AsRef<[u8]>) -> Result<String, Refusal> {
    let mut out = vec![0; JOINED_BYTES];
    let length = kernel::join(texts.as_ref(), &mut out);
    out.truncate(length);
    if let Some(Answer::No(refusal)) = Answer::read(&out) {
        return Err(refusal);
    }
    Ok(String::from_utf8(out).expect("the kernel writes letters, digits, spaces and brackets"))
}
