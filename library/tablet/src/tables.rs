//! Tables: the kernel's words, owned or lent by the caller, always sound.

use crate::answer::Answer;
use crate::kernel;
use crate::layout::{PAGE_BYTES, PROCESSES_WORDS, TABLES_WORDS};
use crate::refusal::Refusal;
use crate::state::State;
use crate::words::{LoadError, Words};
use std::fmt;

/// Sound tables. They are made by an opening or by words that the kernel finds sound, and changed by calls alone, so
/// no call on them answers refusal 1 (rule P3).
pub struct Tables<'a> {
    tables: Run<'a>,
    processes: Run<'a>,
}

/// A run of words.
enum Run<'a> {
    Owned(Box<[u32]>),
    Lent(&'a mut [u32]),
}

impl Run<'_> {
    fn words(&self) -> &[u32] {
        match self {
            Run::Owned(words) => words,
            Run::Lent(words) => words,
        }
    }

    fn words_mut(&mut self) -> &mut [u32] {
        match self {
            Run::Owned(words) => words,
            Run::Lent(words) => words,
        }
    }
}

/// A line that changes nothing, whatever it is answered: refusal 1 if and only if the words are not sound (rule F8).
const ASKS_SOUNDNESS: &[u8] = b"(comes 1 1)\n";

impl Tables<'static> {
    /// Opens tables with words of their own by a text, up to and with its line `(open)`.
    ///
    /// ```
    /// use tablet::Tables;
    /// let tables = Tables::open("(node 1 (dir 1 7))\n(process 3 1)\n(open)\n")?;
    /// assert_eq!(tables.state().listed().collect::<Vec<_>>(), [3]);
    /// assert!(Tables::open("(open)").is_err()); // no line feed
    /// # Ok::<(), tablet::Refusal>(())
    /// ```
    pub fn open(text: impl AsRef<[u8]>) -> Result<Tables<'static>, Refusal> {
        let tables = Run::Owned(vec![0; TABLES_WORDS].into());
        let processes = Run::Owned(vec![0; PROCESSES_WORDS].into());
        opened(Tables { tables, processes }, text.as_ref())
    }

    /// Takes words over, if the kernel finds them sound; else gives them back.
    pub fn from_words(words: Words) -> Result<Tables<'static>, Words> {
        let tables = Tables {
            tables: Run::Owned(words.tables.into()),
            processes: Run::Owned(words.processes.into()),
        };
        sound(tables).map_err(|unsound| unsound.words())
    }

    /// Reads what [`Tables::save`] gave, and asks the kernel whether it is sound.
    ///
    /// ```
    /// use tablet::{LoadError, Tables};
    /// let mut tables = Tables::open("(node 1 (op 1 0 7))\n(process 1 1)\n(open)\n").unwrap();
    /// tables.call("(1 hold 1)\n");
    /// let mut saved = tables.save();
    /// let again = Tables::load(&saved)?;
    /// assert_eq!(again.state(), tables.state());
    ///
    /// saved[11] = 200; // the number of the first row
    /// assert!(matches!(Tables::load(&saved), Err(LoadError::Unsound)));
    /// # Ok::<(), LoadError>(())
    /// ```
    pub fn load(saved: &[u8]) -> Result<Tables<'static>, LoadError> {
        let words = Words::from_bytes(saved)?;
        Tables::from_words(words).map_err(|_| LoadError::Unsound)
    }
}

impl<'a> Tables<'a> {
    /// Opens tables in words that the caller lends: 11,265 and 192 of them, whatever they hold. Runs of other lengths
    /// are refused with 1 at line 0. A refused opening leaves empty tables in the words.
    ///
    /// ```
    /// use tablet::{layout, Tables};
    /// let (mut words, mut records) = ([7; layout::TABLES_WORDS], [7; layout::PROCESSES_WORDS]);
    /// let mut tables = Tables::open_in(&mut words, &mut records, "(open)\n").unwrap();
    /// assert_eq!(tables.call("(comes 1 2)\n").to_string(), "(no 7)");
    /// assert_eq!(words[layout::NEXT_AT], 1);
    /// assert!(Tables::open_in(&mut words[1..], &mut records, "(open)\n").is_err());
    /// ```
    pub fn open_in(
        tables: &'a mut [u32],
        processes: &'a mut [u32],
        text: impl AsRef<[u8]>,
    ) -> Result<Tables<'a>, Refusal> {
        let tables = Run::Lent(tables);
        let processes = Run::Lent(processes);
        opened(Tables { tables, processes }, text.as_ref())
    }

    /// Borrows words that hold tables, if the kernel finds them sound; else refusal 1. The words are not changed.
    ///
    /// ```
    /// use tablet::{layout, Tables};
    /// let (mut words, mut records) = ([0; layout::TABLES_WORDS], [0; layout::PROCESSES_WORDS]);
    /// assert_eq!(Tables::borrow(&mut words, &mut records).err().unwrap().number(), 1);
    /// words[layout::NEXT_AT] = 1;
    /// assert!(Tables::borrow(&mut words, &mut records).is_ok());
    /// ```
    pub fn borrow(tables: &'a mut [u32], processes: &'a mut [u32]) -> Result<Tables<'a>, Refusal> {
        let tables = Run::Lent(tables);
        let processes = Run::Lent(processes);
        let unsound = Refusal::new(1, None).expect("1 is a refusal");
        sound(Tables { tables, processes }).map_err(|_| unsound)
    }

    /// Makes one call: a line with its line feed.
    ///
    /// ```
    /// # use tablet::Tables;
    /// let mut tables = Tables::open("(node 1 (op 1 0 7))\n(process 1 1)\n(open)\n").unwrap();
    /// assert_eq!(tables.call("(1 hold 1)\n").to_string(), "(ok 2)");
    /// assert_eq!(tables.call("(1 hold 1)").to_string(), "(no 2)"); // no line feed
    /// assert_eq!(tables.call(b"(1 \xff 1)\n").to_string(), "(no 2)");
    /// ```
    pub fn call(&mut self, line: impl AsRef<[u8]>) -> Answer {
        let (tables, processes) = (self.tables.words_mut(), self.processes.words_mut());
        let reply = kernel::call(tables, processes, line.as_ref());
        Answer::read(reply.line()).expect("the kernel prints an answer")
    }

    /// (rules comesall-ok-1, comesall-ok-2) Whether each row comes from the request beside it, asked in one line; `None`
    /// where no such row stands or no such request is open. Changes nothing. The kernel refuses with 2 no pair and pairs
    /// that one line has no room for (of ten digits each it has room for ten), with 3 a number that no row and no request
    /// can have, with 6 more than [`MOST_PAIRS`](crate::layout::MOST_PAIRS).
    ///
    /// ```
    /// # use tablet::Tables;
    /// let text = "(node 1 (op 2 5 7))\n(process 1 1)\n(process 2 1)\n(open)\n";
    /// let mut tables = Tables::open(text)?;
    /// tables.call("(1 hold 1)\n");
    /// tables.call("(1 port 2)\n");
    /// tables.call("(1 ask 3 (2 3))\n"); // request 5, and 6, a copy of row 2
    /// assert_eq!(tables.comesall(&[(6, 5), (7, 5), (2, 5)])?, [Some(true), None, Some(false)]);
    ///
    /// let refused = |no: Result<_, tablet::Refusal>| no.err().map(|no| no.number());
    /// assert_eq!(refused(tables.comesall(&[])), Some(2));
    /// assert_eq!(refused(tables.comesall(&[(0, 5)])), Some(3));
    /// assert_eq!(refused(tables.comesall(&[(6, 5); 17])), Some(6));
    /// # Ok::<(), tablet::Refusal>(())
    /// ```
    pub fn comesall(&mut self, pairs: &[(u32, u32)]) -> Result<Vec<Option<bool>>, Refusal> {
        let pairs: String = pairs.iter().map(|(e, q)| format!(" ({e} {q})")).collect();
        match self.call(format!("(comesall{pairs})\n")) {
            Answer::Ok(values) => Ok(values.iter().map(|v| v.map(|n| n == 1)).collect()),
            Answer::No(refusal) => Err(refusal),
        }
    }

    /// (rules G2, G3) The holders' page, as the program `holders` prints it: a line of 64 columns for each row, the
    /// oldest first, with its number, kind, place, rights and depth.
    ///
    /// ```
    /// # use tablet::Tables;
    /// let mut tables = Tables::open("(node 1 (op 2 5 7))\n(process 1 1)\n(process 2 1)\n(open)\n")?;
    /// tables.call("(1 hold 1)\n");
    /// tables.call("(1 port 2)\n");
    /// let page = tables.page();
    /// let lines: Vec<&str> = page.lines().map(str::trim_end).collect();
    /// assert_eq!(lines, [
    ///     "         1 op     node 1    7  1",
    ///     "         2 op     proc 1    7  2",
    ///     "         3 client proc 1    0  3",
    ///     "         4 server proc 2    0  3",
    /// ]);
    /// assert!(page.lines().all(|line| line.len() == 64));
    /// # Ok::<(), tablet::Refusal>(())
    /// ```
    pub fn page(&self) -> String {
        let mut page = vec![0; PAGE_BYTES];
        let length = kernel::page(self.tables.words(), 0, &mut page);
        page.truncate(length);
        String::from_utf8(page).expect("the kernel writes letters, digits and spaces")
    }

    /// The state that the words say, to be read.
    pub fn state(&self) -> State {
        let state = State::read(self.tables.words(), self.processes.words());
        state.expect("sound words are laid out as the manual says")
    }

    /// A copy of the words.
    pub fn words(&self) -> Words {
        Words {
            tables: self.tables.words().to_vec(),
            processes: self.processes.words().to_vec(),
        }
    }

    /// The bytes to keep for [`Tables::load`]; [`Words`] says their form.
    pub fn save(&self) -> Vec<u8> {
        self.words().to_bytes()
    }
}

fn opened<'a>(mut tables: Tables<'a>, text: &[u8]) -> Result<Tables<'a>, Refusal> {
    let reply = kernel::open(
        tables.tables.words_mut(),
        tables.processes.words_mut(),
        text,
    );
    match Answer::read(reply.line()).expect("the kernel prints an answer") {
        Answer::Ok(_) => Ok(tables),
        Answer::No(refusal) => Err(refusal),
    }
}

/// The tables if they are sound, else the tables as they are.
fn sound<'a>(mut tables: Tables<'a>) -> Result<Tables<'a>, Tables<'a>> {
    let unsound = tables
        .call(ASKS_SOUNDNESS)
        .refusal()
        .is_some_and(|no| no.number() == 1);
    if unsound {
        return Err(tables);
    }
    Ok(tables)
}

/// What the tables hold, place by place.
///
/// ```
/// # use tablet::Tables;
/// let tables = Tables::open("(node 1 (op 1 0 7))\n(process 1 1)\n(open)\n").unwrap();
/// let text = "node 1\n  row 1: operation 0 of manager 1, rights 7\n\
///             process 1: in node 1, its prime node\nsystem\nnext number 2\n";
/// assert_eq!(tables.to_string(), text);
/// ```
impl fmt::Display for Tables<'_> {
    fn fmt(&self, f: &mut fmt::Formatter) -> fmt::Result {
        self.state().fmt(f)
    }
}

/// A copy with words of its own.
impl Clone for Tables<'_> {
    fn clone(&self) -> Self {
        let words = self.words();
        Tables {
            tables: Run::Owned(words.tables.into()),
            processes: Run::Owned(words.processes.into()),
        }
    }
}

impl fmt::Debug for Tables<'_> {
    fn fmt(&self, f: &mut fmt::Formatter) -> fmt::Result {
        self.state().fmt(f)
    }
}
