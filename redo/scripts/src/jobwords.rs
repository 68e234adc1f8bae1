//! The words of MAKEFLAGS about jobs.
//!
//! Its first word has options of one letter without a dash, as in `k -j4 --jobserver-auth=3,4`.
//! Behind the word `--` are variables, which are no options.

use std::os::unix::io::RawFd;

const AUTHORITIES: [&[u8]; 2] = [b"--jobserver-auth=", b"--jobserver-fds="];
const FIFO: &[u8] = b"fifo:";

/// Where a jobserver is.
#[derive(Clone, Debug, PartialEq, Eq)]
pub enum Authority {
    /// Two descriptors, which are inherited.
    Pipe { reading: RawFd, writing: RawFd },
    /// The path of a FIFO.
    Fifo(Vec<u8>),
    /// Something else, which make has for a jobserver that may not be used.
    None(Vec<u8>),
}

/// Returns where the jobserver is that MAKEFLAGS names. The last word about it counts.
pub fn authority(makeflags: &[u8]) -> Option<Authority> {
    let (options, _) = parted(makeflags);
    let told = words(options).filter_map(|word| {
        let mut authorities = AUTHORITIES.iter();
        authorities.find_map(|authority| word.strip_prefix(*authority))
    });
    told.last().map(parsed)
}

/// Returns the words about jobs.
pub fn about_jobs(makeflags: &[u8]) -> Vec<u8> {
    let (options, _) = parted(makeflags);
    let kept: Vec<&[u8]> = words(options).filter(|word| is_about_jobs(word)).collect();
    kept.join(&b' ')
}

/// Returns MAKEFLAGS with other words about jobs, or none; None if nothing is left.
pub fn replaced(makeflags: Option<&[u8]>, job_words: Option<&[u8]>) -> Option<Vec<u8>> {
    let (options, variables) = parted(makeflags.unwrap_or_default());
    let is_kept = |word: &&[u8]| !is_about_jobs(word);
    let kept: Vec<&[u8]> = options
        .split(|byte| *byte == b' ')
        .filter(is_kept)
        .collect();
    let mut flags = kept.join(&b' ');
    let length = flags
        .iter()
        .rposition(|byte| *byte != b' ')
        .map_or(0, |last| last + 1);
    flags.truncate(length);
    if let Some(job_words) = job_words {
        flags.push(b' ');
        flags.extend_from_slice(job_words);
    }
    flags.extend_from_slice(variables);
    (!flags.is_empty()).then_some(flags)
}

/// Parts MAKEFLAGS into its options, and ` -- ` with the variables.
fn parted(makeflags: &[u8]) -> (&[u8], &[u8]) {
    let place = makeflags.windows(4).position(|part| part == b" -- ");
    makeflags.split_at(place.unwrap_or(makeflags.len()))
}

fn words(options: &[u8]) -> impl Iterator<Item = &[u8]> {
    options
        .split(|byte| *byte == b' ')
        .filter(|word| !word.is_empty())
}

fn is_about_jobs(word: &[u8]) -> bool {
    let is_number = |rest: &[u8]| rest.iter().all(u8::is_ascii_digit);
    word.strip_prefix(b"-j").map_or(false, is_number)
        || word.starts_with(b"--jobserver-")
        || word == b"--jobs"
        || word.starts_with(b"--jobs=")
}

fn parsed(told: &[u8]) -> Authority {
    if let Some(path) = told.strip_prefix(FIFO) {
        return Authority::Fifo(path.to_vec());
    }
    let numbers = std::str::from_utf8(told)
        .ok()
        .and_then(|text| text.split_once(','));
    let number = |text: &str| text.parse().ok().filter(|number: &RawFd| *number >= 0);
    match numbers.map(|(reading, writing)| (number(reading), number(writing))) {
        Some((Some(reading), Some(writing))) => Authority::Pipe { reading, writing },
        _ => Authority::None(told.to_vec()),
    }
}

#[cfg(test)]
mod tests {
    use super::*;

    #[test]
    fn the_last_word_about_a_jobserver_counts() {
        let flags = b"k -j4 --jobserver-fds=5,6 --jobserver-auth=3,4";
        let (reading, writing) = (3, 4);
        assert_eq!(authority(flags), Some(Authority::Pipe { reading, writing }));
        let flags = b" -j --jobserver-auth=3,4 --jobserver-auth=fifo:/run/GMfifo1";
        assert_eq!(
            authority(flags),
            Some(Authority::Fifo(b"/run/GMfifo1".to_vec()))
        );
    }

    #[test]
    fn flags_without_a_jobserver_name_none() {
        for flags in ["", "k", "kj", " -j4", "w -- A=--jobserver-auth=3,4"] {
            assert_eq!(authority(flags.as_bytes()), None, "{flags}");
        }
    }

    #[test]
    fn what_is_no_descriptor_and_no_fifo_is_none() {
        for told in ["-2,-2", "3", "3,", ",4", "a,b", "99999999999,4", ""] {
            let flags = format!(" -j4 --jobserver-auth={told}");
            let wanted = Authority::None(told.as_bytes().to_vec());
            assert_eq!(authority(flags.as_bytes()), Some(wanted), "{told}");
        }
    }

    #[test]
    fn words_about_jobs_are_taken_out_and_put_in() {
        let cases: [(Option<&str>, Option<&str>, Option<&str>); 7] = [
            (None, None, None),
            (None, Some("-j2"), Some(" -j2")),
            (Some(" -j4 --jobserver-auth=3,4"), None, None),
            (Some("k -j4 --jobserver-auth=3,4"), None, Some("k")),
            (
                Some("kw --jobs=4 -- A=1 B=-j2"),
                Some("-j2"),
                Some("kw -j2 -- A=1 B=-j2"),
            ),
            (
                Some("k -j --jobserver-fds=3,4 -l5"),
                Some("-j2"),
                Some("k -l5 -j2"),
            ),
            (Some("--job-slots -joy"), None, Some("--job-slots -joy")),
        ];
        for (flags, words, wanted) in cases {
            let found = replaced(flags.map(str::as_bytes), words.map(str::as_bytes));
            assert_eq!(
                found.as_deref(),
                wanted.map(str::as_bytes),
                "{flags:?} {words:?}"
            );
        }
    }

    #[test]
    fn words_about_jobs_are_those_that_are_taken_out() {
        assert_eq!(
            about_jobs(b"k -j4 --jobserver-auth=3,4 -- J=-j3"),
            b"-j4 --jobserver-auth=3,4"
        );
        assert_eq!(about_jobs(b"k"), b"");
    }
}
