//! Why an opening text is refused: the line, the bytes and the rule, read by this program alone.

use crate::call::misfit;
use crate::form::{bad, read_line, BadForm, Number, Part, Span};

/// What is wrong with an opening text.
#[derive(Clone, PartialEq, Eq, Debug)]
pub struct Refused {
    /// 2 to 6.
    pub number: u32,
    /// Counted from 1.
    pub line: u32,
    pub rule: &'static str,
    /// The bytes of the line.
    pub span: Span,
    pub text: String,
}

/// (rule O2) An entry: what it names, the numbers with their greatest values.
struct Entry {
    names: Names,
    span: Span,
    ranges: Vec<(Number, &'static str, u32, u32)>,
}

/// (rule O17) What must be listed.
#[derive(Clone, Copy)]
enum Names {
    Process(Number),
    Node(Number),
}

/// (rule O1) A form of the text.
enum Form {
    Node(Number, Vec<Entry>),
    Process(Number, Number),
    Open,
}

/// (rules O16, O17) The refusal of a text, none if it is accepted.
pub fn refused(text: &[u8]) -> Option<Refused> {
    let mut forms: Vec<Form> = Vec::new();
    for (line, at) in text.split_inclusive(|&b| b == b'\n').zip(1..) {
        let form = match read_form(line) {
            Ok(form) => form,
            Err(bad) => return Some(of_form(at, bad)),
        };
        let wrong = out_of_range(&form)
            .or_else(|| second(&forms, &form))
            .or_else(|| too_many(&form));
        if let Some((number, rule, span, text)) = wrong {
            return Some(Refused {
                number,
                line: at,
                rule,
                span,
                text,
            });
        }
        let open = matches!(form, Form::Open);
        forms.push(form);
        if open {
            return not_listed(&forms);
        }
    }
    let why = "the text ends without (open)";
    Some(of_form(forms.len() as u32 + 1, bad(0, 1, "O12", why)))
}

fn of_form(line: u32, bad: BadForm) -> Refused {
    let BadForm { span, rule, why } = bad;
    let rule = if rule == "F1" { "O11" } else { rule };
    Refused {
        number: 2,
        line,
        rule,
        span,
        text: why,
    }
}

type Wrong = (u32, &'static str, Span, String);

fn read_form(line: &[u8]) -> Result<Form, BadForm> {
    let parts = read_line(line)?;
    let end = line.len().saturating_sub(1);
    match parts.as_slice() {
        [Part::Word(word, _)] if word == "open" => Ok(Form::Open),
        [Part::Word(word, _), Part::Number(node), entries @ ..] if word == "node" => {
            let entries = entries.iter().map(|part| read_entry(part, line));
            Ok(Form::Node(*node, entries.collect::<Result<_, _>>()?))
        }
        [Part::Word(word, _), Part::Number(process), Part::Number(node)] if word == "process" => {
            Ok(Form::Process(*process, *node))
        }
        [Part::Word(word, _), rest @ ..] => match word.as_str() {
            "node" => Err(misfit(
                rest.first(),
                line,
                "node wants a number and entries: (node n ENTRY ..)",
            )),
            "process" => {
                let fitting = rest
                    .iter()
                    .take(2)
                    .take_while(|p| matches!(p, Part::Number(_)))
                    .count();
                Err(misfit(
                    rest.get(fitting),
                    line,
                    "process wants two numbers: (process p n)",
                ))
            }
            "open" => Err(misfit(rest.first(), line, "(open) has no more parts")),
            other => Err(bad(
                1,
                1 + other.len(),
                "O10",
                format!("'{other}' is no form of an opening text"),
            )),
        },
        _ => Err(bad(
            0,
            end,
            "O10",
            "a form of an opening text begins with node, process or open",
        )),
    }
}

fn read_entry(part: &Part, line: &[u8]) -> Result<Entry, BadForm> {
    let why = "an entry is (op m o r) or (dir n r)";
    let Part::Form(parts, span) = part else {
        return Err(misfit(Some(part), line, why));
    };
    match parts.as_slice() {
        [Part::Word(word, _), Part::Number(m), Part::Number(o), Part::Number(r)]
            if word == "op" =>
        {
            Ok(Entry {
                names: Names::Process(*m),
                span: *span,
                ranges: vec![
                    (*m, "a manager", 1, 64),
                    (*o, "an operation", 0, 255),
                    (*r, "rights", 0, 7),
                ],
            })
        }
        [Part::Word(word, _), Part::Number(n), Part::Number(r)] if word == "dir" => Ok(Entry {
            names: Names::Node(*n),
            span: *span,
            ranges: vec![(*n, "a node", 1, 32), (*r, "rights", 0, 7)],
        }),
        _ => Err(misfit(Some(part), line, why)),
    }
}

/// (rules O3, O13) A number out of its range.
fn out_of_range(form: &Form) -> Option<Wrong> {
    let mut ranges = Vec::new();
    match form {
        Form::Node(n, entries) => {
            ranges.push((*n, "a node", 1, 32));
            ranges.extend(
                entries
                    .iter()
                    .flat_map(|entry| entry.ranges.iter().copied()),
            );
        }
        Form::Process(p, n) => ranges.extend([(*p, "a process", 1, 64), (*n, "a node", 1, 32)]),
        Form::Open => {}
    }
    let wrong = ranges
        .into_iter()
        .find(|(n, _, least, greatest)| !(*least..=*greatest).contains(&n.value));
    let (number, what, least, greatest) = wrong?;
    Some((
        3,
        "O13",
        number.span,
        format!("the range of {what} is {least} to {greatest}"),
    ))
}

/// (rule O14) A second form for a node or a process.
fn second(before: &[Form], form: &Form) -> Option<Wrong> {
    let (what, number) = match form {
        Form::Node(n, _) => ("node", n),
        Form::Process(p, _) => ("process", p),
        Form::Open => return None,
    };
    let same = |other: &Form| match (other, form) {
        (Form::Node(a, _), Form::Node(b, _)) | (Form::Process(a, _), Form::Process(b, _)) => {
            a.value == b.value
        }
        _ => false,
    };
    let first = before.iter().position(same)?;
    let text = format!(
        "{what} {} has a form already, at line {}",
        number.value,
        first + 1
    );
    Some((4, "O14", number.span, text))
}

/// (rule O15) More than 16 entries.
fn too_many(form: &Form) -> Option<Wrong> {
    let Form::Node(_, entries) = form else {
        return None;
    };
    let (first, last) = (entries.get(16)?, entries.last()?);
    let span = Span {
        from: first.span.from,
        to: last.span.to,
    };
    Some((
        6,
        "O15",
        span,
        format!("{} entries, at most 16 are allowed", entries.len()),
    ))
}

/// (rule O17) The first line that names a process or a node that is not listed.
fn not_listed(forms: &[Form]) -> Option<Refused> {
    let listed = |names: &Names| match names {
        Names::Process(p) => forms
            .iter()
            .any(|f| matches!(f, Form::Process(q, _) if q.value == p.value)),
        Names::Node(n) => forms
            .iter()
            .any(|f| matches!(f, Form::Node(m, _) if m.value == n.value)),
    };
    forms.iter().zip(1..).find_map(|(form, line)| {
        let names = match form {
            Form::Node(_, entries) => entries.iter().map(|entry| entry.names).collect(),
            Form::Process(_, prime) => vec![Names::Node(*prime)],
            Form::Open => Vec::new(),
        };
        let missing = names.into_iter().find(|names| !listed(names))?;
        let (what, number) = match missing {
            Names::Process(p) => ("process", p),
            Names::Node(n) => ("node", n),
        };
        let text = format!("{what} {} has no form before (open)", number.value);
        Some(Refused {
            number: 5,
            line,
            rule: "O17",
            span: number.span,
            text,
        })
    })
}
