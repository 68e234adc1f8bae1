//! Answers what this crate says, for tests that compare it with other programs.
//!
//! A line of standard input is a question: a word, and texts in hexadecimal digits. A line of
//! standard output is its answer: `ok` and texts, `-` for none, or `error`, its kind and its text.

use std::io::{self, BufRead, Write};

use redo_files::links;
use redo_files::look::Reader;
use redo_files::names;
use redo_files::private::Home;
use redo_files::rules::{self, Rule};
use redo_files::top::{self, SeenFolders};
use redo_files::trust::Trust;
use redo_files::{FileError, Folder};

type Texts = Vec<Option<Vec<u8>>>;
type Answer = Result<Texts, FileError>;

struct Answers {
    trust: Trust,
    reader: Reader,
}

impl Answers {
    fn answer(&mut self, word: &str, texts: &[Vec<u8>]) -> Answer {
        match (word, texts) {
            ("escape", [path]) => names::escape(path).map(|name| one(name.into_owned())),
            ("unescape", [name]) => names::unescape(name).map(|path| one(path.into_owned())),
            ("name", [path, top]) => names::name_of(path, top).map(one),
            ("inside", [path, top]) => SeenFolders::new().name_inside(path, top).map(one),
            ("path", [name, top]) => names::path_of(name, top).map(one),
            ("relative", [name, top, folder]) => Ok(one(names::relative_path(name, top, folder))),
            ("links", [path]) => self.links(path),
            ("top", [folder]) => top::find_top(folder, &self.trust).map(|top| vec![top]),
            ("stamp", [folder, path]) => self.stamp(folder, path),
            ("search", [target, top]) => self.search(target, top),
            ("make", [top]) => Home::new(top, &self.trust).make().map(|()| Vec::new()),
            ("read", [path, top]) => Home::new(top, &self.trust).read(path).map(one),
            _ => panic!("no such question: {word} with {} texts", texts.len()),
        }
    }

    fn links(&self, path: &[u8]) -> Answer {
        let found = links::links_on(path).map_err(|cause| FileError::system(path, cause))?;
        Ok(found.into_iter().map(Some).collect())
    }

    fn stamp(&mut self, folder: &[u8], path: &[u8]) -> Answer {
        let opened = Folder::open(folder).map_err(|cause| FileError::system(folder, cause))?;
        let stamp = self.reader.look_at(&opened, path).stamp;
        Ok(vec![stamp.map(|stamp| stamp.to_string().into_bytes())])
    }

    fn search(&self, target: &[u8], top: &[u8]) -> Answer {
        let found = rules::search(target, top, &self.trust)?;
        let rule = found.rule.map_or(vec![None], parts);
        Ok(rule
            .into_iter()
            .chain(found.missing.into_iter().map(Some))
            .collect())
    }
}

fn one(text: Vec<u8>) -> Texts {
    vec![Some(text)]
}

fn parts(rule: Rule) -> Texts {
    [rule.do_file, rule.folder, rule.first, rule.second]
        .into_iter()
        .map(Some)
        .collect()
}

/// Returns what Python calls an error of this kind.
fn kind(error: &FileError) -> &'static str {
    match error {
        FileError::NameTooLong { .. } => "NameTooLong",
        FileError::TwoTrees { .. } => "OtherTree",
        FileError::Untrusted(_) => "UntrustedError",
        FileError::NoRule { .. } => "RuleError",
        FileError::System { .. } => "OSError",
        _ => "BadName",
    }
}

fn written(answer: Answer) -> String {
    match answer {
        Err(error) => format!("error {} {}", kind(&error), hexadecimal(&error.text())),
        Ok(texts) => texts.iter().fold("ok".to_string(), |line, text| {
            let word = text
                .as_ref()
                .map_or("-".to_string(), |text| hexadecimal(text));
            format!("{line} {word}")
        }),
    }
}

/// Returns a text as digits, with a dot before them since it may be empty.
fn hexadecimal(text: &[u8]) -> String {
    let digits: String = text.iter().map(|byte| format!("{byte:02x}")).collect();
    format!(".{digits}")
}

fn text_of(word: &str) -> Vec<u8> {
    let digits = word.strip_prefix('.').expect("a dot before the digits");
    let byte = |at| u8::from_str_radix(&digits[at..at + 2], 16).expect("two digits");
    (0..digits.len()).step_by(2).map(byte).collect()
}

fn main() -> io::Result<()> {
    let mut answers = Answers {
        trust: Trust::of_process(),
        reader: Reader::new(),
    };
    let mut output = io::stdout().lock();
    for line in io::stdin().lock().lines() {
        let line = line?;
        let mut words = line.split(' ');
        let word = words.next().unwrap_or_default();
        let texts: Vec<Vec<u8>> = words.map(text_of).collect();
        writeln!(output, "{}", written(answers.answer(word, &texts)))?;
        output.flush()?;
    }
    Ok(())
}
