//! Instructions, counted by callgrind: the benchmark starts itself under
//! valgrind; there the counter is set to 0 before an operation and written to a
//! file after it.

use crate::measure::{About, Measured, Operation};
use std::arch::asm;
use std::ffi::CString;
use std::path::Path;
use std::process::Command;
use std::{env, fs};

/// The requests of callgrind.h: 'C' and 'T' in the high bytes.
const BASE: u64 = 0x4354_0000;
const ZERO: u64 = BASE + 1;
const DUMP_AT: u64 = BASE + 3;
const START: u64 = BASE + 4;
const STOP: u64 = BASE + 5;

/// The argument of the benchmark that runs under callgrind.
pub const COUNTED: &str = "--counted";

/// memset and memcpy move whole registers: an instruction that repeats itself, as they use it for more bytes, would be
/// counted once a byte.
const WHOLE_REGISTERS: &str =
    "glibc.cpu.x86_rep_movsb_threshold=1000000000:glibc.cpu.x86_rep_stosb_threshold=1000000000";

/// Instructions a call, of the proved function and of the plain one.
#[derive(Clone, Copy)]
pub struct Counts {
    pub proved: f64,
    pub plain: f64,
}

/// Dumps a file for each operation and side, in the order of the operations.
pub struct Counted;

impl Measured for Counted {
    fn measure(&mut self, about: About, operation: &mut dyn Operation) {
        let calls = about.calls;
        operation.prepare();
        counted(&format!("proved {calls}"), || operation.proved(calls));
        operation.prepare();
        counted(&format!("plain {calls}"), || operation.plain(calls));
    }
}

fn counted(name: &str, run: impl FnOnce()) {
    let name = CString::new(name).expect("no 0 byte");
    request(START, 0);
    request(ZERO, 0);
    run();
    request(DUMP_AT, name.as_ptr() as u64);
    request(STOP, 0);
}

/// A request to valgrind, as valgrind.h writes it for x86-64.
fn request(code: u64, word: u64) {
    let words: [u64; 6] = [code, word, 0, 0, 0, 0];
    unsafe {
        asm!(
            "rol rdi, 3",
            "rol rdi, 13",
            "rol rdi, 61",
            "rol rdi, 51",
            "xchg rbx, rbx",
            in("rax") words.as_ptr(),
            inout("rdx") 0u64 => _,
        );
    }
}

/// Runs the benchmark under callgrind and reads the counts, in the order of
/// the operations; none without valgrind.
pub fn all() -> Option<Vec<Counts>> {
    let folder = env::temp_dir().join(format!("bench-{}", std::process::id()));
    fs::create_dir_all(&folder).expect("a folder for the counts");
    let status = Command::new("valgrind")
        .args(["--quiet", "--tool=callgrind", "--instr-atstart=no"])
        .arg(format!("--callgrind-out-file={}/out", folder.display()))
        .arg(env::current_exe().expect("this program"))
        .arg(COUNTED)
        .env("GLIBC_TUNABLES", WHOLE_REGISTERS)
        .status();
    let counts = status.ok().filter(|s| s.success()).map(|_| read(&folder));
    fs::remove_dir_all(&folder).expect("the folder is removed");
    counts
}

/// The files out.1, out.2 and on: proved and plain in turn.
fn read(folder: &Path) -> Vec<Counts> {
    let file = |at: usize| fs::read_to_string(folder.join(format!("out.{at}"))).ok();
    let sides: Vec<f64> = (1..)
        .map_while(file)
        .filter_map(|text| a_call(&text))
        .collect();
    let pairs = sides.chunks_exact(2);
    pairs
        .map(|pair| Counts {
            proved: pair[0],
            plain: pair[1],
        })
        .collect()
}

/// The instructions of a file, divided by the calls that its name says; none
/// for the file at the end of the program, which has no name.
fn a_call(text: &str) -> Option<f64> {
    let after = |start: &str| text.lines().find_map(|line| line.strip_prefix(start));
    let name = after("desc: Trigger: Client Request: ")?;
    let calls: f64 = name.split(' ').nth(1)?.parse().ok()?;
    let total = after("totals: ").or_else(|| after("summary: "))?;
    let total: f64 = total.split(' ').next()?.parse().ok()?;
    Some(total / calls)
}
