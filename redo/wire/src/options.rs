//! What the words of a call mean. The server and the programs read them alike.

use std::fmt;

const MOST_JOBS: u32 = 1000;

/// The words are wrong. The text has no name of a program and no LF.
#[derive(Clone, Debug, PartialEq, Eq)]
pub enum UsageError {
    /// There is no such option.
    NoOption(Vec<u8>),
    /// This option has to be followed by a number.
    NoNumber(Vec<u8>),
    /// This isn't a number of jobs.
    NoJobs {
        /// The option, or the variable of the environment.
        place: &'static str,
        /// What is there.
        value: Vec<u8>,
    },
}

/// What `sh` shows of a script that it runs.
#[derive(Clone, Copy, Debug, Default, PartialEq, Eq)]
pub struct ShellFlags {
    /// It prints each line that it reads.
    pub is_verbose: bool,
    /// It prints each command.
    pub traces: bool,
}

/// What a call of `redo` is to do, or one of `redo-ifchange`, which has no options.
#[derive(Clone, Debug, PartialEq, Eq)]
pub struct Options {
    /// The paths of the targets, as they were given.
    pub targets: Vec<Vec<u8>>,
    /// How many scripts may run at once, if that is said: 1 to 1000.
    pub jobs: Option<u32>,
    /// It goes on after a failure.
    pub keeps_going: bool,
    /// It builds nothing, and says what it would build.
    pub only_tells: bool,
    /// It says what it decides of each target, and why.
    pub debugs: bool,
    /// The order is random where it is free.
    pub shuffles: bool,
    /// What `sh` shows.
    pub flags: ShellFlags,
    /// It also builds targets that somebody edited, and those that no build made.
    pub overwrites: bool,
    /// It keeps logs; else scripts write to standard error at once.
    pub keeps_logs: bool,
    /// It shows what scripts write; else the lines of redo alone.
    pub shows_details: bool,
    /// It shows colours on a terminal.
    pub has_colours: bool,
    /// It shows a line of progress on a terminal.
    pub has_status: bool,
}

impl Default for Options {
    fn default() -> Options {
        Options {
            targets: Vec::new(),
            jobs: None,
            keeps_going: false,
            only_tells: false,
            debugs: false,
            shuffles: false,
            flags: ShellFlags::default(),
            overwrites: false,
            keeps_logs: true,
            shows_details: true,
            has_colours: true,
            has_status: true,
        }
    }
}

impl Options {
    /// Reads the words of `redo`.
    pub fn of_redo(words: &[Vec<u8>]) -> Result<Options, UsageError> {
        let mut options = Options::default();
        let mut rest = words.iter();
        while let Some(word) = rest.next() {
            match word.as_slice() {
                b"--" => options.targets.extend(rest.by_ref().cloned()),
                [b'-', b'-', ..] => options.take_long(word, &mut rest)?,
                [b'-', letters @ ..] if !letters.is_empty() => {
                    options.take_short(word, letters, &mut rest)?;
                }
                _ => options.targets.push(word.clone()),
            }
        }
        Ok(options)
    }

    /// Reads the words of a program that has no options.
    pub fn of_targets(words: &[Vec<u8>]) -> Result<Options, UsageError> {
        targets_of(words).map(|targets| Options {
            targets,
            ..Options::default()
        })
    }

    fn take_long<'a>(
        &mut self,
        word: &[u8],
        rest: &mut impl Iterator<Item = &'a Vec<u8>>,
    ) -> Result<(), UsageError> {
        match word {
            b"--jobs" => self.jobs = Some(number_behind(word, rest)?),
            b"--keep-going" => self.keeps_going = true,
            b"--dry-run" => self.only_tells = true,
            b"--debug" => self.debugs = true,
            b"--shuffle" => self.shuffles = true,
            b"--xtrace" => self.flags.traces = true,
            b"--verbose" => self.flags.is_verbose = true,
            b"--overwrite" => self.overwrites = true,
            b"--log" | b"--no-log" => self.keeps_logs = is_on(word),
            b"--details" | b"--no-details" => self.shows_details = is_on(word),
            b"--color" | b"--no-color" => self.has_colours = is_on(word),
            b"--status" | b"--no-status" => self.has_status = is_on(word),
            _ => match word.strip_prefix(b"--jobs=") {
                Some(value) => self.jobs = Some(jobs_of("-j", value)?),
                None => return Err(UsageError::NoOption(word.to_vec())),
            },
        }
        Ok(())
    }

    fn take_short<'a>(
        &mut self,
        word: &[u8],
        letters: &[u8],
        rest: &mut impl Iterator<Item = &'a Vec<u8>>,
    ) -> Result<(), UsageError> {
        for (place, letter) in letters.iter().enumerate() {
            match letter {
                b'j' => {
                    let value = &letters[place + 1..];
                    self.jobs = Some(if value.is_empty() {
                        number_behind(word, rest)?
                    } else {
                        jobs_of("-j", value)?
                    });
                    return Ok(());
                }
                b'k' => self.keeps_going = true,
                b'n' => self.only_tells = true,
                b'd' => self.debugs = true,
                b'x' => self.flags.traces = true,
                b'v' => self.flags.is_verbose = true,
                other => return Err(UsageError::NoOption(vec![b'-', *other])),
            }
        }
        Ok(())
    }
}

/// Reads the words of a program that has no options: its targets.
pub fn targets_of(words: &[Vec<u8>]) -> Result<Vec<Vec<u8>>, UsageError> {
    let end = words.iter().position(|word| word == b"--");
    let (before, after) = words.split_at(end.unwrap_or(words.len()));
    let is_option = |word: &&Vec<u8>| word.len() > 1 && word.starts_with(b"-");
    if let Some(option) = before.iter().find(is_option) {
        return Err(UsageError::NoOption(option.clone()));
    }
    Ok(before.iter().chain(after.iter().skip(1)).cloned().collect())
}

/// Takes those of some options out of words, up to `--`: which ones were there, and what is left.
pub fn taken_out(words: &[Vec<u8>], options: &[&[u8]]) -> (Vec<Vec<u8>>, Vec<Vec<u8>>) {
    let end = words.iter().position(|word| word == b"--");
    let (before, after) = words.split_at(end.unwrap_or(words.len()));
    let is_taken = |word: &Vec<u8>| options.contains(&word.as_slice());
    let (taken, mut left): (Vec<_>, Vec<_>) = before.iter().cloned().partition(is_taken);
    left.extend_from_slice(after);
    (taken, left)
}

/// Reads a number of jobs, from what `place` names: an option, or a variable.
pub fn jobs_of(place: &'static str, value: &[u8]) -> Result<u32, UsageError> {
    let digits = value.iter().all(u8::is_ascii_digit).then_some(value);
    let number = digits.and_then(|digits| std::str::from_utf8(digits).ok()?.parse().ok());
    match number {
        Some(jobs) if (1..=MOST_JOBS).contains(&jobs) => Ok(jobs),
        _ => Err(UsageError::NoJobs {
            place,
            value: value.to_vec(),
        }),
    }
}

fn number_behind<'a>(
    word: &[u8],
    rest: &mut impl Iterator<Item = &'a Vec<u8>>,
) -> Result<u32, UsageError> {
    match rest.next() {
        Some(value) => jobs_of("-j", value),
        None => Err(UsageError::NoNumber(word.to_vec())),
    }
}

fn is_on(word: &[u8]) -> bool {
    !word.starts_with(b"--no-")
}

impl UsageError {
    /// Returns what is said of it.
    pub fn text(&self) -> Vec<u8> {
        match self {
            UsageError::NoOption(option) => [b"there is no option ", option.as_slice()].concat(),
            UsageError::NoNumber(option) => [option.as_slice(), b" wants a number"].concat(),
            UsageError::NoJobs { place, value } => {
                let begin = format!("{place} wants a number from 1 to {MOST_JOBS}, not ");
                [begin.as_bytes(), value].concat()
            }
        }
    }
}

impl fmt::Display for UsageError {
    fn fmt(&self, formatter: &mut fmt::Formatter<'_>) -> fmt::Result {
        formatter.write_str(&String::from_utf8_lossy(&self.text()))
    }
}

impl std::error::Error for UsageError {}

#[cfg(test)]
mod tests {
    use super::*;

    type Change = fn(&mut Options);

    fn words(text: &str) -> Vec<Vec<u8>> {
        text.split_whitespace()
            .map(|word| word.as_bytes().to_vec())
            .collect()
    }

    fn read(text: &str) -> Result<Options, String> {
        Options::of_redo(&words(text)).map_err(|error| error.to_string())
    }

    #[test]
    fn each_option_says_one_thing() {
        let cases: [(&str, Change); 11] = [
            ("--no-details", |options| options.shows_details = false),
            ("--no-details --details", |_| {}),
            ("-d", |options| options.debugs = true),
            ("-k", |options| options.keeps_going = true),
            ("-n", |options| options.only_tells = true),
            ("--shuffle", |options| options.shuffles = true),
            ("--overwrite", |options| options.overwrites = true),
            ("--no-log", |options| options.keeps_logs = false),
            ("--no-color", |options| options.has_colours = false),
            ("--no-status", |options| options.has_status = false),
            ("--no-log --log", |_| {}),
        ];
        for (text, change) in cases {
            let mut wanted = Options::default();
            change(&mut wanted);
            assert_eq!(read(text), Ok(wanted), "{text}");
        }
        for (short, long) in [
            ("-k", "--keep-going"),
            ("-n", "--dry-run"),
            ("-d", "--debug"),
            ("-x", "--xtrace"),
        ] {
            assert_eq!(read(short), read(long));
        }
    }

    #[test]
    fn letters_may_stand_together_and_jobs_in_four_ways() {
        let wanted = Options {
            targets: words("a -"),
            jobs: Some(4),
            keeps_going: true,
            flags: ShellFlags {
                is_verbose: true,
                traces: true,
            },
            ..Options::default()
        };
        for jobs in ["-kxvj4", "-kxvj 4", "-kxv --jobs=4", "-kxv --jobs 4"] {
            assert_eq!(read(&format!("a {jobs} -")), Ok(wanted.clone()), "{jobs}");
        }
    }

    #[test]
    fn no_option_stands_behind_two_hyphens() {
        assert_eq!(read("-k -- -x --").unwrap().targets, words("-x --"));
        assert_eq!(targets_of(&words("a -- -b --")), Ok(words("a -b --")));
    }

    #[test]
    fn wrong_words_are_named() {
        for (text, wanted) in [
            ("-y", "there is no option -y"),
            ("--why", "there is no option --why"),
            ("--keep-going=1", "there is no option --keep-going=1"),
            ("-j", "-j wants a number"),
            ("--jobs", "--jobs wants a number"),
            ("-j0", "-j wants a number from 1 to 1000, not 0"),
            ("-j 1001", "-j wants a number from 1 to 1000, not 1001"),
            ("-jx", "-j wants a number from 1 to 1000, not x"),
            ("-j+1", "-j wants a number from 1 to 1000, not +1"),
            (
                "-j99999999999",
                "-j wants a number from 1 to 1000, not 99999999999",
            ),
        ] {
            assert_eq!(read(text), Err(wanted.to_string()), "{text}");
        }
        assert!(targets_of(&words("a -k")).is_err());
    }

    #[test]
    fn options_of_some_kind_are_taken_out() {
        let (taken, left) = taken_out(&words("a --json b -- --json"), &[b"--json"]);
        assert_eq!((taken, left), (words("--json"), words("a b -- --json")));
    }
}
