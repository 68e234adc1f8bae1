//! GNU make's jobserver, as its client and as its server.
//!
//! A jobserver is a pipe with a byte, a token, for each job that may run besides the one that
//! needs none. Who takes a token gives back that very byte.

use std::fmt;
use std::fs::{File, OpenOptions};
use std::io::{self, ErrorKind, Read, Write};
use std::os::unix::fs::{FileTypeExt, OpenOptionsExt};
use std::os::unix::io::{AsRawFd, OwnedFd, RawFd};

use crate::jobwords::{self, Authority};
use crate::system;
use crate::text::{cause_of, joined, path, shown};

const TOKEN: u8 = b'+';

/// A jobserver, and the tokens of it that this process has. They are given back when it is
/// dropped; a process that is killed by SIGKILL can't give them back.
#[derive(Debug)]
pub struct Jobserver {
    reading: File,
    writing: File,
    /// The ends that programs inherit, if this process serves them.
    _served: Option<(OwnedFd, OwnedFd)>,
    job_words: Vec<u8>,
    tokens: Vec<u8>,
    wanted: usize,
    has_ended: bool,
}

/// Why there is no jobserver.
#[derive(Debug)]
pub enum NoJobserver {
    /// What MAKEFLAGS names isn't there, or isn't this process's to open.
    Unreachable { told: Vec<u8>, cause: io::Error },
    /// What MAKEFLAGS names is no pipe and no FIFO.
    NoPipe { told: Vec<u8> },
    /// MAKEFLAGS names nothing that can be a jobserver.
    NoName { told: Vec<u8> },
    /// A pipe holds fewer tokens.
    TooManyJobs { jobs: usize },
    /// The kernel makes no pipe.
    Unmade(io::Error),
}

impl Jobserver {
    /// Joins the jobserver that MAKEFLAGS names, if it names one.
    pub fn joined(makeflags: &[u8]) -> Result<Option<Jobserver>, NoJobserver> {
        let (told, found) = match jobwords::authority(makeflags) {
            None => return Ok(None),
            Some(Authority::None(told)) => return Err(NoJobserver::NoName { told }),
            Some(Authority::Fifo(fifo)) => (fifo.clone(), on_fifo(&fifo)),
            Some(Authority::Pipe { reading, writing }) => {
                let told = format!("{reading},{writing}").into_bytes();
                (told, on_pipe(reading, writing))
            }
        };
        let (reading, writing) = match found {
            Ok(ends) => ends,
            Err(cause) => return Err(NoJobserver::Unreachable { told, cause }),
        };
        if !is_pipe(&reading) || !is_pipe(&writing) {
            return Err(NoJobserver::NoPipe { told });
        }
        let job_words = jobwords::about_jobs(makeflags);
        Ok(Some(Jobserver::new(reading, writing, None, job_words)))
    }

    /// Makes a jobserver for this many jobs. One of them is this process's own, without a token.
    pub fn served(jobs: usize) -> Result<Jobserver, NoJobserver> {
        let (near, far) = system::pipe().map_err(NoJobserver::Unmade)?;
        let room = system::pipe_size(&far).map_err(NoJobserver::Unmade)?;
        if jobs > room {
            return Err(NoJobserver::TooManyJobs { jobs });
        }
        let (reading, writing) = (near.as_raw_fd(), far.as_raw_fd());
        let ends = on_pipe(reading, writing).map_err(NoJobserver::Unmade)?;
        let job_words = format!("-j{jobs} --jobserver-auth={reading},{writing}").into_bytes();
        let mut here = Jobserver::new(ends.0, ends.1, Some((near, far)), job_words);
        let tokens = vec![TOKEN; jobs.saturating_sub(1)];
        here.writing
            .write_all(&tokens)
            .map_err(NoJobserver::Unmade)?;
        Ok(here)
    }

    fn new(
        reading: File,
        writing: File,
        served: Option<(OwnedFd, OwnedFd)>,
        job_words: Vec<u8>,
    ) -> Jobserver {
        Jobserver {
            reading,
            writing,
            _served: served,
            job_words,
            tokens: Vec::new(),
            wanted: 0,
            has_ended: false,
        }
    }

    /// Returns the words of MAKEFLAGS by which programs find it.
    pub fn job_words(&self) -> &[u8] {
        &self.job_words
    }

    /// Returns how many tokens this process has.
    pub fn held(&self) -> usize {
        self.tokens.len()
    }

    /// Sets how many tokens more are wanted.
    pub fn want(&mut self, tokens: usize) {
        self.wanted = tokens;
    }

    /// Returns what to wait for until [`Jobserver::on_readable`] can take a token, if any is
    /// wanted.
    pub fn descriptor(&self) -> Option<RawFd> {
        (self.wanted > 0 && !self.has_ended).then_some(self.reading.as_raw_fd())
    }

    /// Takes as many of the wanted tokens as are there, and returns how many. It doesn't wait.
    pub fn on_readable(&mut self) -> io::Result<usize> {
        let before = self.tokens.len();
        while self.wanted > 0 && self.take()? {
            self.wanted -= 1;
        }
        Ok(self.tokens.len() - before)
    }

    /// Takes a token, and says whether one was there. It doesn't wait.
    pub fn take(&mut self) -> io::Result<bool> {
        let mut token = [0];
        match self.reading.read(&mut token) {
            Ok(0) => self.has_ended = true,
            Ok(_) => self.tokens.push(token[0]),
            Err(cause) if cause.kind() == ErrorKind::WouldBlock => return Ok(false),
            Err(cause) if cause.kind() == ErrorKind::Interrupted => return self.take(),
            Err(cause) => return Err(cause),
        }
        Ok(!self.has_ended)
    }

    /// Gives back this many tokens, or all if there are fewer.
    pub fn give_back(&mut self, tokens: usize) -> io::Result<()> {
        let kept = self.tokens.len().saturating_sub(tokens);
        let given = self.writing.write_all(&self.tokens[kept..]);
        self.tokens.truncate(kept);
        given
    }
}

impl Drop for Jobserver {
    fn drop(&mut self) {
        let _ = self.give_back(self.tokens.len()); // if nobody reads any more, nobody misses them
    }
}

impl NoJobserver {
    /// Returns what is said of it: one line.
    pub fn text(&self) -> Vec<u8> {
        let about = |told: &[u8], rest: &str| {
            let shown = shown(told);
            joined(&[b"jobserver ", shown.as_slice(), rest.as_bytes()])
        };
        match self {
            NoJobserver::Unreachable { told, cause } => {
                about(told, &format!(" can't be reached: {}", cause_of(cause)))
            }
            NoJobserver::NoPipe { told } => about(told, " can't be reached: it is no pipe"),
            NoJobserver::NoName { told } => about(
                told,
                " can't be reached: it is no pair of descriptors and no FIFO",
            ),
            NoJobserver::TooManyJobs { jobs } => {
                format!("{jobs} jobs are more than a pipe holds").into_bytes()
            }
            NoJobserver::Unmade(cause) => {
                format!("no jobserver can be made: {}", cause_of(cause)).into_bytes()
            }
        }
    }
}

impl fmt::Display for NoJobserver {
    fn fmt(&self, formatter: &mut fmt::Formatter<'_>) -> fmt::Result {
        formatter.write_str(&String::from_utf8_lossy(&self.text()))
    }
}

impl std::error::Error for NoJobserver {}

/// Opens both ends of a FIFO. The writing one is open for reading too, since without a reader it
/// couldn't be opened.
fn on_fifo(fifo: &[u8]) -> io::Result<(File, File)> {
    let writing = OpenOptions::new().read(true).write(true).open(path(fifo))?;
    Ok((private_end(path(fifo))?, writing))
}

/// Opens both ends of a pipe that is inherited, and that programs are to inherit.
fn on_pipe(reading: RawFd, writing: RawFd) -> io::Result<(File, File)> {
    let far = File::from(system::duplicate(writing)?);
    system::duplicate(reading)?;
    system::set_inherited(reading)?;
    system::set_inherited(writing)?;
    let near = private_end(path(format!("/dev/fd/{reading}").as_bytes()))?;
    Ok((near, far))
}

/// Opens a reading end of one's own: it doesn't wait, while those of others still do.
fn private_end(path: &std::path::Path) -> io::Result<File> {
    let mut options = OpenOptions::new();
    options.read(true).custom_flags(libc::O_NONBLOCK).open(path)
}

fn is_pipe(end: &File) -> bool {
    end.metadata()
        .map_or(false, |status| status.file_type().is_fifo())
}

#[cfg(test)]
mod tests {
    use super::*;

    fn pipe_with(tokens: &[u8]) -> (File, File) {
        let (near, far) = system::pipe().unwrap();
        let (near, mut far) = (File::from(near), File::from(far));
        far.write_all(tokens).unwrap();
        (near, far)
    }

    fn flags_of(ends: &(File, File)) -> Vec<u8> {
        let (reading, writing) = (ends.0.as_raw_fd(), ends.1.as_raw_fd());
        format!(" -j4 --jobserver-auth={reading},{writing}").into_bytes()
    }

    fn rest_of(ends: (File, File)) -> Vec<u8> {
        drop(ends.1);
        let (mut rest, mut near) = (Vec::new(), ends.0);
        near.read_to_end(&mut rest).unwrap();
        rest.sort_unstable();
        rest
    }

    #[test]
    fn a_client_gives_back_the_very_bytes() {
        let ends = pipe_with(b"abc");
        let mut here = Jobserver::joined(&flags_of(&ends)).unwrap().unwrap();
        here.want(5);
        assert_eq!(here.descriptor(), Some(here.reading.as_raw_fd()));
        assert_eq!((here.on_readable().unwrap(), here.held()), (3, 3));
        here.give_back(1).unwrap();
        assert_eq!(here.held(), 2);
        here.want(0);
        assert_eq!((here.descriptor(), here.on_readable().unwrap()), (None, 0));
        drop(here);
        assert_eq!(rest_of(ends), b"abc");
    }

    #[test]
    fn a_jobserver_without_tokens_is_not_waited_for() {
        let ends = pipe_with(b"");
        let mut here = Jobserver::joined(&flags_of(&ends)).unwrap().unwrap();
        assert!(!here.take().unwrap());
    }

    #[test]
    fn a_served_jobserver_has_a_token_less_than_jobs() {
        let mut here = Jobserver::served(4).unwrap();
        here.want(9);
        assert_eq!(here.on_readable().unwrap(), 3);
        let (near, far) = here._served.as_ref().unwrap();
        let wanted = format!(
            "-j4 --jobserver-auth={},{}",
            near.as_raw_fd(),
            far.as_raw_fd()
        );
        assert_eq!(here.job_words(), wanted.as_bytes());
    }

    #[test]
    fn more_jobs_than_a_pipe_holds_are_refused() {
        let refused = Jobserver::served(1 << 20).unwrap_err();
        assert_eq!(
            refused.to_string(),
            "1048576 jobs are more than a pipe holds"
        );
    }

    #[test]
    fn a_jobserver_that_cannot_be_reached_is_named() {
        let cases = [
            (
                "970,980",
                "jobserver 970,980 can't be reached: Bad file descriptor",
            ),
            (
                "fifo:/nowhere",
                "jobserver /nowhere can't be reached: No such file or directory",
            ),
            (
                "fifo:/dev/null",
                "jobserver /dev/null can't be reached: it is no pipe",
            ),
        ];
        for (told, wanted) in cases {
            let flags = format!(" -j4 --jobserver-auth={told}");
            let refused = Jobserver::joined(flags.as_bytes()).unwrap_err();
            assert_eq!(refused.to_string(), wanted);
        }
        let refused = Jobserver::joined(b" --jobserver-auth=-2,-2").unwrap_err();
        assert!(refused
            .to_string()
            .starts_with("jobserver -2,-2 can't be reached: "));
    }

    #[test]
    fn without_a_word_about_it_there_is_none() {
        assert!(Jobserver::joined(b"k -j4").unwrap().is_none());
    }

    #[test]
    fn a_jobserver_whose_server_is_gone_gives_nothing() {
        let (near, far) = pipe_with(b"a");
        let ends = (near.try_clone().unwrap(), far.try_clone().unwrap());
        let mut here = Jobserver::joined(&flags_of(&ends)).unwrap().unwrap();
        let (_, reader) = pipe_with(b"");
        here.writing = reader;
        drop((far, ends));
        here.want(2);
        assert_eq!(here.on_readable().unwrap(), 1);
        assert_eq!((here.wanted, here.held(), here.descriptor()), (1, 1, None));
    }
}
