//! redo-whichdo: which `.do` files would build a target.

use std::env;
use std::os::unix::ffi::OsStringExt;

use redo_files::trust::Trust;
use redo_files::{links, paths, rules};
use redo_wire::options::targets_of;

use crate::failure::{Failure, FAILED};
use crate::reach::Tree;
use crate::text::print_output;

/// Prints the `.do` files of a target, up to the first that is there. The status is 1 if none is.
/// It needs no server, since it is about files alone.
pub fn call(words: &[Vec<u8>]) -> Result<u8, Failure> {
    let targets = targets_of(words)?;
    let target = match targets.as_slice() {
        [target] if !target.is_empty() => target,
        _ => return Err(Failure::Usage(b"it takes one target".to_vec())),
    };
    let system = |cause| Failure::System { path: None, cause };
    let working = env::current_dir()
        .map_err(system)?
        .into_os_string()
        .into_vec();
    let here = links::resolved(&working).map_err(system)?;
    let whole = paths::normalized(&paths::join(&working, target));
    let (folder, name) = paths::split(&whole);
    let target = paths::join(&links::resolved(folder).map_err(system)?, name);
    let top = Tree::found()?.map_or_else(|| here.clone(), |tree| tree.top().to_vec());
    let found = rules::search(&target, &top, &Trust::of_process())?;
    let winner = found.rule.map(|rule| rule.do_file);
    let status = if winner.is_some() { 0 } else { FAILED };
    let looked_for = found.missing.iter().chain(&winner);
    let lines = looked_for.flat_map(|path| [paths::relative(path, &here), b"\n".to_vec()].concat());
    print_output(&lines.collect::<Vec<u8>>())?;
    Ok(status)
}
