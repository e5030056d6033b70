//! Where the kernel and the model differ.

use std::fmt;

#[derive(Debug)]
pub struct Difference {
    /// Which call it is, from 1; 0 for the opening.
    call: u64,
    what: &'static str,
    line: Vec<u8>,
    kernel: String,
    model: String,
}

impl Difference {
    pub fn new(what: &'static str, line: &[u8], kernel: String, model: String) -> Difference {
        Difference {
            call: 0,
            what,
            line: line.to_vec(),
            kernel,
            model,
        }
    }

    pub fn at(self, call: u64) -> Difference {
        Difference { call, ..self }
    }
}

pub fn shown(bytes: &[u8]) -> String {
    String::from_utf8_lossy(bytes).trim_end().to_string()
}

impl fmt::Display for Difference {
    fn fmt(&self, f: &mut fmt::Formatter) -> fmt::Result {
        writeln!(f, "call {}: other {}", self.call, self.what)?;
        writeln!(f, "  line   {}", shown(&self.line))?;
        writeln!(f, "  kernel {}", self.kernel)?;
        write!(f, "  model  {}", self.model)
    }
}
