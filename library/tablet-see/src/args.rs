//! The command line: a command, its options, and what is wrong with them.

use crate::list::What;

/// What to do.
#[derive(Clone, PartialEq, Eq, Debug)]
pub enum Command {
    Help,
    Explain,
    WhatIf { line: String },
    Draw { form: Form, focus: Focus },
    Page,
    List { what: What, json: bool },
    Holders,
}

/// How a drawing is written.
#[derive(Clone, Copy, PartialEq, Eq, Debug)]
pub enum Form {
    Svg,
    Dot,
}

/// What of the state is drawn.
#[derive(Clone, Copy, PartialEq, Eq, Debug, Default)]
pub struct Focus {
    /// What comes from this request is marked.
    pub request: Option<u32>,
    /// Only what this row comes from and what comes from it; its first chain is marked if no request is.
    pub row: Option<u32>,
}

/// A command with the options that every command has.
#[derive(Clone, PartialEq, Eq, Debug)]
pub struct Args {
    pub command: Command,
    /// Begin with the words of this file instead of an opening.
    pub tables: Option<String>,
    /// After so many calls; all if none.
    pub after: Option<usize>,
}

/// The options of each command, and whether a value follows.
const OPTIONS: [(&str, &[(&str, bool)]); 6] = [
    ("explain", &[("--tables", true)]),
    ("what-if", &[("--tables", true), ("--after", true)]),
    (
        "draw",
        &[
            ("--tables", true),
            ("--after", true),
            ("--svg", false),
            ("--dot", false),
            ("--request", true),
            ("--row", true),
        ],
    ),
    ("page", &[("--tables", true)]),
    (
        "list",
        &[
            ("--tables", true),
            ("--after", true),
            ("--process", true),
            ("--node", true),
            ("--server", true),
            ("--asker", true),
            ("--json", false),
        ],
    ),
    ("holders", &[("--tables", true), ("--after", true)]),
];

/// Options given, each with its value, and the words that are no options.
struct Given {
    options: Vec<(String, String)>,
    words: Vec<String>,
}

/// Reads the arguments, without the program's name.
pub fn read(args: &[String]) -> Result<Args, String> {
    let asks_help = |arg: &String| ["--help", "-h", "help"].contains(&arg.as_str());
    let Some((command, rest)) = args.split_first() else {
        return Err("no command".to_string());
    };
    if asks_help(command) || rest.iter().any(|arg| arg == "--help") {
        let command = Command::Help;
        return Ok(Args {
            command,
            tables: None,
            after: None,
        });
    }
    let known = OPTIONS.into_iter().find(|(name, _)| name == command);
    let (name, options) = known.ok_or_else(|| format!("no command '{command}'"))?;
    let given = given(name, options, rest)?;
    let words = if name == "what-if" { 1 } else { 0 };
    if given.words.len() > words {
        return Err(format!(
            "{name}: '{}' is one word too many",
            given.words[words]
        ));
    }
    let after = given.number::<usize>("--after", 0)?;
    let command = command_of(name, &given)?;
    Ok(Args {
        command,
        tables: given.value("--tables").cloned(),
        after,
    })
}

fn given(name: &str, options: &[(&str, bool)], rest: &[String]) -> Result<Given, String> {
    let mut given = Given {
        options: Vec::new(),
        words: Vec::new(),
    };
    let mut rest = rest.iter();
    while let Some(arg) = rest.next() {
        if !arg.starts_with("--") {
            given.words.push(arg.clone());
            continue;
        }
        let known = options.iter().find(|(option, _)| option == arg);
        let (_, valued) = known.ok_or_else(|| format!("{name}: no option '{arg}'"))?;
        let value = match valued {
            true => rest
                .next()
                .ok_or_else(|| format!("{name}: {arg} wants a value"))?
                .clone(),
            false => String::new(),
        };
        if given.value(arg).is_some() {
            return Err(format!("{name}: {arg} is there twice"));
        }
        given.options.push((arg.clone(), value));
    }
    Ok(given)
}

fn command_of(name: &str, given: &Given) -> Result<Command, String> {
    match name {
        "what-if" => {
            let line = given
                .words
                .first()
                .ok_or("what-if: the line to try is missing: what-if '(1 revoke 7)'")?;
            Ok(Command::WhatIf { line: line.clone() })
        }
        "draw" => {
            let form = match (given.value("--svg"), given.value("--dot")) {
                (Some(_), Some(_)) => return Err("draw: either --svg or --dot".to_string()),
                (_, Some(_)) => Form::Dot,
                _ => Form::Svg,
            };
            let focus = Focus {
                request: given.number("--request", 1)?,
                row: given.number("--row", 1)?,
            };
            Ok(Command::Draw { form, focus })
        }
        "list" => {
            let choices = [
                given.number("--process", 1)?.map(What::Process),
                given.number("--node", 1)?.map(What::Node),
                given.number("--server", 1)?.map(What::Server),
                given.number("--asker", 1)?.map(What::Asker),
            ];
            let mut choices = choices.into_iter().flatten();
            let what = choices.next().unwrap_or(What::All);
            if choices.next().is_some() {
                return Err("list: only one of --process, --node, --server and --asker".to_string());
            }
            let json = given.value("--json").is_some();
            Ok(Command::List { what, json })
        }
        "page" => Ok(Command::Page),
        "holders" => Ok(Command::Holders),
        _ => Ok(Command::Explain),
    }
}

impl Given {
    fn value(&self, option: &str) -> Option<&String> {
        let found = self.options.iter().find(|(name, _)| name == option);
        found.map(|(_, value)| value)
    }

    fn number<T: std::str::FromStr + PartialOrd>(
        &self,
        option: &str,
        least: T,
    ) -> Result<Option<T>, String> {
        let Some(value) = self.value(option) else {
            return Ok(None);
        };
        match value.parse().ok().filter(|n| *n >= least) {
            Some(number) => Ok(Some(number)),
            None => Err(format!("{option}: '{value}' is no number that fits here")),
        }
    }
}
