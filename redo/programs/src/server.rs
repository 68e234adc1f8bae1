//! The program that is the server of a tree, and the one that is its database.

use std::env;
use std::ffi::OsStr;
use std::fs;
use std::os::unix::ffi::{OsStrExt, OsStringExt};
use std::os::unix::fs::PermissionsExt;
use std::path::{Path, PathBuf};
use std::process::{Command, Stdio};

use redo_wire::Program;

use crate::failure::Failure;
use crate::text::print_error;

const SERVER: &str = "redo-server";
const LIVE: &str = "redodb-live";
/// The database in plain Rust, which isn't proved.
const STAND_IN: &str = "redodb-live-plain";
/// From the folder of this program in a repository to the top of that.
const UPWARDS: &str = "../../..";
const EXECUTION: u32 = 0o111;

/// The programs with which a server is started.
#[derive(Clone, Debug, PartialEq, Eq)]
pub struct ServerProgram {
    path: PathBuf,
    live: Option<Live>,
}

/// The program that is the database.
#[derive(Clone, Debug, PartialEq, Eq)]
enum Live {
    Proved(PathBuf),
    StandIn(PathBuf),
}

impl ServerProgram {
    /// Finds them: by REDO_SERVER and REDODB_LIVE, else beside this program, where it is installed
    /// or was built. Fails if there is no server. Without a database the server says so itself.
    pub fn found() -> Result<ServerProgram, Failure> {
        let here = own_folder();
        let chosen = variable("REDO_SERVER");
        let path = chosen.or_else(|| first_program(&here, SERVER));
        let missing = || Failure::Text(b"redo-server is not found".to_vec());
        Ok(ServerProgram {
            path: path.ok_or_else(missing)?,
            live: live(&here),
        })
    }

    /// The path of the server.
    pub fn path(&self) -> &[u8] {
        self.path.as_os_str().as_bytes()
    }

    /// The path of the database.
    pub fn live(&self) -> Option<&[u8]> {
        let (Live::Proved(path) | Live::StandIn(path)) = self.live.as_ref()?;
        Some(path.as_os_str().as_bytes())
    }

    /// Says on standard error if the database isn't the proved one.
    pub fn tell_of_stand_in(&self) {
        if let Some(Live::StandIn(_)) = self.live {
            print_error(
                b"redo: redodb-live is not proved yet: a stand-in in plain Rust takes its place; \
                  ./prove proves and builds it",
            );
        }
    }
}

fn live(here: &Path) -> Option<Live> {
    if let Some(chosen) = variable("REDODB_LIVE") {
        return Some(Live::Proved(chosen));
    }
    if let Some(installed) = first_program(here, LIVE) {
        return Some(Live::Proved(installed));
    }
    let in_repository = here.join(UPWARDS).join(LIVE);
    if is_program(&in_repository) && is_proved(&in_repository) {
        return Some(Live::Proved(in_repository));
    }
    let stand_in = here.join(STAND_IN);
    if is_program(&stand_in) {
        return Some(Live::StandIn(stand_in));
    }
    on_path(LIVE).map(Live::Proved)
}

/// Says whether the program of a repository is proved: else it ends at once, with status 2.
fn is_proved(program: &Path) -> bool {
    let mut command = Command::new(program);
    command
        .stdin(Stdio::null())
        .stdout(Stdio::null())
        .stderr(Stdio::null());
    command.status().map_or(false, |status| status.success())
}

/// Returns the folder that has all programs of redo: that of this program's file, or the one that
/// it was called in.
pub fn programs_folder() -> PathBuf {
    let called = PathBuf::from(env::args_os().next().unwrap_or_default());
    let near = match called.parent() {
        Some(folder) if folder.as_os_str().is_empty() => {
            called.to_str().and_then(on_path).unwrap_or_default()
        }
        _ => env::current_dir().unwrap_or_default().join(&called),
    };
    let near = near.parent().map(Path::to_path_buf).unwrap_or_default();
    let mut folders = [own_folder(), near].into_iter();
    let found = folders.find(|folder| is_program(&folder.join(Program::IfChange.name())));
    found.unwrap_or_else(own_folder)
}

/// Returns the folder of this program's file.
fn own_folder() -> PathBuf {
    let file = env::current_exe().unwrap_or_default();
    file.parent().map(Path::to_path_buf).unwrap_or_default()
}

/// Returns a program beside this one, or in the folder `libexec` of its installation.
fn first_program(here: &Path, name: &str) -> Option<PathBuf> {
    let places = [here.join(name), here.join("../libexec").join(name)];
    places.into_iter().find(|place| is_program(place))
}

fn on_path(name: &str) -> Option<PathBuf> {
    let path = env::var_os("PATH")?.into_vec();
    let folders = path
        .split(|byte| *byte == b':')
        .filter(|folder| folder.starts_with(b"/"));
    let mut places = folders.map(|folder| Path::new(OsStr::from_bytes(folder)).join(name));
    places.find(|place| is_program(place))
}

fn is_program(path: &Path) -> bool {
    let status = fs::metadata(path);
    status.map_or(false, |status| {
        status.is_file() && status.permissions().mode() & EXECUTION != 0
    })
}

/// Returns the path that a variable has, absolute.
fn variable(name: &str) -> Option<PathBuf> {
    let chosen = env::var_os(name).filter(|value| !value.is_empty())?;
    Some(env::current_dir().unwrap_or_default().join(chosen))
}
