//! What is measured, and what is done with it: it is timed, or its instructions are counted.

/// One operation: so many calls of the proved function, or of the plain one.
pub trait Operation {
    /// Makes ready for so many calls; it is not measured.
    fn prepare(&mut self) {}
    fn proved(&mut self, calls: usize);
    fn plain(&mut self, calls: usize);
}

/// The two functions of an operation.
#[derive(Clone, Copy)]
pub struct Both<A, B> {
    pub proved: A,
    pub plain: B,
}

/// The parts of the kernel that are measured, each with a table of its own.
#[derive(Clone, Copy, PartialEq, Eq)]
pub enum Layer {
    Rows,
    Closing,
    Calls,
    Whole,
    Pairs,
    Opening,
    Page,
    Join,
    Growth,
    Parts,
}

/// Those with a table of operations; the parts of a call have another.
pub const LAYERS: [(Layer, &str); 9] = [
    (Layer::Rows, "Rows: soundness, look-ups, questions, removal"),
    (Layer::Closing, "Closing"),
    (Layer::Calls, "Calls on sound tables"),
    (Layer::Whole, "Whole calls, bytes to bytes"),
    (
        Layer::Pairs,
        "Sixteen pairs: comesall, and comes of each of them",
    ),
    (Layer::Opening, "Openings"),
    (Layer::Page, "The holders' page"),
    (Layer::Join, "Two texts joined"),
    (
        Layer::Growth,
        "Growth of a whole call with rows and with requests",
    ),
];

/// How large tables are.
#[derive(Clone, Copy)]
pub struct Size {
    pub rows: usize,
    pub requests: usize,
}

pub struct About {
    pub layer: Layer,
    pub size: Size,
    pub name: String,
    /// The bytes of the lent runs (and marks) that must be read or written, each counted once.
    pub bytes: usize,
    /// How many calls a batch has.
    pub calls: usize,
}

pub trait Measured {
    fn measure(&mut self, about: About, operation: &mut dyn Operation);
}
