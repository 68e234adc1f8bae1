//! The program redo-server.

use std::ffi::{OsStr, OsString};
use std::os::unix::ffi::{OsStrExt, OsStringExt};
use std::os::unix::net::UnixStream;
use std::path::{Path, PathBuf};
use std::process::ExitCode;
use std::sync::atomic::AtomicBool;
use std::sync::Arc;
use std::time::Duration;
use std::{env, io};

use signal_hook::consts::{SIGINT, SIGTERM, SIGXFSZ};
use signal_hook::{flag, low_level::pipe};

use redo_files::private::Home;
use redo_files::trust::Trust;
use redo_files::{links, system as files, top, FileError};

use crate::error::ServerError;
use crate::server::{Outcome, Server, Start};
use crate::sessions::MOST_RUNS;
use crate::system::{self, Fork};
use crate::taking::{take, Taken};

pub const USAGE: &str = "usage: redo-server [--top DIR] [--idle SECONDS] [--runs N] [--detach]";

const HELP: &str = "

Serves the build database of a tree on the Unix socket .redo/server/socket, which redo's programs
talk to. They start it, so it needn't be called by hand. Where the tree has a server, it ends at
once.

    --top DIR         the top of the tree; else the nearest folder upwards that has .redo
    --idle SECONDS    end so many seconds after the last client (3)
    --runs N          have at most N clients with a session at a time; the others wait (1023)
    --detach          go on in the background; end as soon as clients can come";

const IDLE: Duration = Duration::from_secs(3);
const MOST_IDLE: f64 = 1e9;
const LIVE: &str = "redodb-live";
const EXECUTION: u32 = 0o111;

/// What the words of the call say.
#[derive(Clone, Debug, PartialEq, Eq)]
enum Call {
    Help,
    Version,
    Serve(Options),
}

#[derive(Clone, Debug, PartialEq, Eq)]
struct Options {
    top: Option<Vec<u8>>,
    idle: Duration,
    runs: u32,
    is_detached: bool,
}

/// Runs the program. The status is 0, 1 if redodb-live failed, or 2 if it can't serve.
pub fn main() -> ExitCode {
    system::close_others();
    system::give_back_memory();
    system::allow_most_files();
    let words: Vec<OsString> = env::args_os().skip(1).collect();
    match Call::parse(&words) {
        Ok(Call::Help) => {
            println!("{USAGE}{HELP}");
            ExitCode::SUCCESS
        }
        Ok(Call::Version) => {
            println!("redo-server {}", env!("CARGO_PKG_VERSION"));
            ExitCode::SUCCESS
        }
        Ok(Call::Serve(options)) => status(serve(&options)),
        Err(error) => status(Err(error)),
    }
}

impl Call {
    fn parse(words: &[OsString]) -> Result<Call, ServerError> {
        if let [word] = words {
            match word.to_str() {
                Some("--help") => return Ok(Call::Help),
                Some("--version") => return Ok(Call::Version),
                _ => {}
            }
        }
        Options::parse(words).map(Call::Serve)
    }
}

impl Options {
    fn parse(words: &[OsString]) -> Result<Options, ServerError> {
        let mut options = Options {
            top: None,
            idle: IDLE,
            runs: MOST_RUNS,
            is_detached: false,
        };
        let mut words = words.iter();
        while let Some(word) = words.next() {
            match word.to_str() {
                Some("--detach") => options.is_detached = true,
                Some("--top") => options.top = Some(top_of(words.next())?),
                Some("--idle") => options.idle = idle_of(words.next())?,
                Some("--runs") => options.runs = runs_of(words.next())?,
                _ => return Err(ServerError::Usage),
            }
        }
        Ok(options)
    }
}

fn top_of(value: Option<&OsString>) -> Result<Vec<u8>, ServerError> {
    let path = value.ok_or(ServerError::Usage)?.as_bytes();
    Ok(links::resolved(path).unwrap_or_else(|_| path.to_vec()))
}

fn idle_of(value: Option<&OsString>) -> Result<Duration, ServerError> {
    let text = value
        .and_then(|value| value.to_str())
        .ok_or(ServerError::Usage)?;
    match text.parse::<f64>() {
        Ok(seconds) if (0.0..MOST_IDLE).contains(&seconds) => Ok(Duration::from_secs_f64(seconds)),
        _ => Err(ServerError::Usage),
    }
}

fn runs_of(value: Option<&OsString>) -> Result<u32, ServerError> {
    let text = value.and_then(|value| value.to_str());
    let runs = text.and_then(|text| text.parse().ok());
    runs.filter(|runs| (1..=MOST_RUNS).contains(runs))
        .ok_or(ServerError::Usage)
}

/// Reports what is wrong on standard error, and returns the status.
fn status(outcome: Result<Outcome, ServerError>) -> ExitCode {
    match outcome {
        Ok(Outcome::InOrder) => ExitCode::SUCCESS,
        Ok(Outcome::Failed(message)) => {
            eprintln!("redo-server: {message}");
            ExitCode::from(1)
        }
        Err(ServerError::Usage) => {
            eprintln!("{USAGE}");
            ExitCode::from(2)
        }
        Err(error) => {
            eprintln!("redo-server: {error}");
            ExitCode::from(2)
        }
    }
}

fn serve(options: &Options) -> Result<Outcome, ServerError> {
    let trust = Trust::of_process();
    let top = match &options.top {
        Some(top) => Some(top.clone()),
        None => top::find_top(b".", &trust)?,
    };
    let top = top.filter(|top| is_folder(top)).ok_or(ServerError::NoTop)?;
    let live = find_live().ok_or(ServerError::NoLive)?;
    let signals = ending_signals().map_err(ServerError::system("signals"))?;
    let taken = match take(Home::new(&top, &trust))? {
        Some(taken) => taken,
        None => return Ok(Outcome::InOrder),
    };
    if options.is_detached && fork()? == Fork::Parent {
        return Ok(Outcome::InOrder);
    }
    go_on(taken, live, options, signals)
}

fn go_on(
    mut taken: Taken,
    live: Vec<u8>,
    options: &Options,
    signals: UnixStream,
) -> Result<Outcome, ServerError> {
    let top = taken.home.top();
    let failed = |cause| FileError::system(top, cause);
    env::set_current_dir(OsStr::from_bytes(top)).map_err(failed)?;
    taken.sign()?;
    let start = Start {
        taken,
        live,
        idle: options.idle,
        runs: options.runs,
        signals,
    };
    Server::new(start)?.run()
}

/// Goes on in another process and session.
fn fork() -> Result<Fork, ServerError> {
    let failed = ServerError::system("fork");
    let fork = system::fork().map_err(&failed)?;
    if fork == Fork::Child {
        system::begin_session().map_err(&failed)?;
    }
    Ok(fork)
}

/// Has a byte come when a signal ends the server. A file that may not grow is an error, and no
/// signal.
fn ending_signals() -> io::Result<UnixStream> {
    let (told, telling) = UnixStream::pair()?;
    pipe::register(SIGINT, telling.try_clone()?)?;
    pipe::register(SIGTERM, telling)?;
    flag::register(SIGXFSZ, Arc::new(AtomicBool::new(false)))?;
    Ok(told)
}

fn is_folder(path: &[u8]) -> bool {
    files::stat(path).map_or(false, |status| status.kind() == files::Kind::Folder)
}

/// Returns the path of redodb-live: $REDODB_LIVE, else the one beside this program, else that of
/// PATH.
fn find_live() -> Option<Vec<u8>> {
    match env::var_os("REDODB_LIVE") {
        Some(chosen) if !chosen.is_empty() => {
            let folder = env::current_dir().ok()?;
            return Some(folder.join(chosen).into_os_string().into_vec());
        }
        _ => {}
    }
    let own = env::current_exe().ok();
    let own = own.as_deref().and_then(Path::parent).map(Path::to_path_buf);
    let path = env::var_os("PATH").unwrap_or_default();
    let others = env::split_paths(&path).filter(|folder| folder.is_absolute());
    let mut programs = own
        .into_iter()
        .chain(others)
        .map(|folder| folder.join(LIVE));
    let found = programs.find(|program| is_program(program))?;
    Some(PathBuf::into_os_string(found).into_vec())
}

fn is_program(path: &Path) -> bool {
    let status = files::stat(path.as_os_str().as_bytes());
    status.map_or(false, |status| {
        status.kind() == files::Kind::Regular && status.mode & EXECUTION != 0
    })
}
