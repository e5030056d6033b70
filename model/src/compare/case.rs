//! One case: a claim that the prover computes, and the input that it is about.

/// A case. Its name is the theorem's, with the sort before the first `-`.
pub struct Case {
    pub name: String,
    /// Where it comes from and what the model says of it, on one line.
    pub about: String,
    /// What must compute to true.
    pub claim: String,
    /// The input, by the ending of its file.
    pub files: Vec<(&'static str, Vec<u8>)>,
}

impl Case {
    /// The sort: session, damaged, call, sound, words, history and so on.
    pub fn sort(&self) -> &str {
        self.name.split('-').next().unwrap_or(&self.name)
    }

    /// The theorem with its proof: it computes to true.
    pub fn theorem(&self) -> String {
        let Case { name, claim, .. } = self;
        let of_joining = ["join ", "printed_on "].iter().any(|f| claim.contains(f));
        let joining = if of_joining { JOINING } else { "" };
        format!("pub {name} : T ({claim})\n{UNFOLDING}{joining}\n{name} = tt\n\n")
    }
}

/// Everything is unfolded, so that the claim computes; joining only where the claim is about it, which
/// saves time.
const UNFOLDING: &str = "unfolding Rattle.rows.specs.Computes.computes \
Rattle.closing.specs.Computes.computes Rattle.calls.specs.Computes.computes \
Rattle.text.specs.Computes.computes Rattle.page.specs.Computes.computes Rattle.history.specs.Computes.computes \
Rattle.compare.specs.Help.helps";
const JOINING: &str = " Rattle.joining.specs.Computes.computes";

/// The name of the case of a sort with a number, from 1.
pub fn name(sort: &str, at: usize) -> String {
    format!("{sort}-{}", at + 1)
}

/// The claim that two lists are the same.
pub fn same(left: &str, right: &str) -> String {
    format!("same_list ({left}) ({right})")
}
