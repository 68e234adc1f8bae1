//! What a run is made of.

use std::os::unix::ffi::OsStrExt;

use redo_scripts::builder::Builder;
use redo_scripts::display::{Display, Errors};
use redo_scripts::jobserver::Jobserver;
use redo_scripts::journal;
use redo_scripts::surroundings::{RunVariables, Surroundings};
use redo_scripts::terminal::{Style, Terminal};
use redo_wire::options::Options;

use super::{RunStart, ERRORS};
use crate::failure::Failure;
use crate::reach::Tree;
use crate::server;

/// Returns what shows the run, after it has said what runs that were killed have left.
pub fn display(options: &Options, own: &Surroundings, tree: &Tree) -> Result<Display, Failure> {
    let mut style = Style::of(ERRORS, own.variable(b"NO_COLOR"), own.variable(b"TERM"));
    style.has_colours &= options.has_colours;
    style.shows_progress &= options.has_status;
    let errors = match (options.keeps_logs, style.has_colours) {
        (false, _) => Errors::Direct,
        (true, true) => Errors::Terminals,
        (true, false) => Errors::Logs,
    };
    let mut display = Display::new(Terminal::of_errors(style), tree.home(), errors);
    if !options.shows_details {
        display.hide_details();
    }
    for text in journal::clear(tree.home())? {
        display.say(None, &text);
    }
    Ok(display)
}

/// Returns what runs the scripts.
pub fn builder(
    start: &RunStart,
    jobserver: Option<&Jobserver>,
    display: Display,
) -> Result<Builder, Failure> {
    let variables = RunVariables {
        programs: server::programs_folder().as_os_str().as_bytes().to_vec(),
        top: start.tree.top().to_vec(),
        job_words: jobserver.map(|here| here.job_words().to_vec()),
        ..RunVariables::default()
    };
    Ok(Builder::new(
        start.tree.home(),
        &start.folder,
        variables,
        display,
    )?)
}
