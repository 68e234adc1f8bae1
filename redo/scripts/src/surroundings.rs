//! What a script inherits from whoever asks for its target.

use std::collections::HashSet;
use std::env;
use std::ffi::CString;
use std::os::unix::ffi::{OsStrExt, OsStringExt};

use crate::jobwords;
use crate::program::Limit;
use crate::system;
use crate::text::joined;

const MAKEFLAGS: &[u8] = b"MAKEFLAGS";
const PATH: &[u8] = b"PATH";
const DEFAULT_PATH: &[u8] = b"/bin:/usr/bin";

/// What a process passes on: to the scripts of the targets that it asks for.
#[derive(Clone, Debug, PartialEq, Eq)]
pub struct Surroundings {
    /// The working folder, from which the names are told that it asks for.
    pub folder: Vec<u8>,
    pub umask: u32,
    pub limits: Vec<Limit>,
    /// The environment, each as `NAME=VALUE`.
    pub variables: Vec<Vec<u8>>,
}

/// What all scripts of a run have in their environments, whoever asks.
#[derive(Clone, Debug, Default, PartialEq, Eq)]
pub struct RunVariables {
    /// The folder of the programs, which is in front on the PATH, if there is one.
    pub programs: Vec<u8>,
    pub top: Vec<u8>,
    /// The path of the run's place in `.redo`, by which its processes are known.
    pub run: Vec<u8>,
    /// The words of MAKEFLAGS about jobs, if there is a jobserver.
    pub job_words: Option<Vec<u8>>,
    /// More of them, each as `NAME=VALUE`.
    pub more: Vec<Vec<u8>>,
}

/// What one script has in its environment besides.
#[derive(Clone, Copy, Debug, Default, PartialEq, Eq)]
pub struct ScriptVariables<'a> {
    /// The name of its target.
    pub target: &'a [u8],
    /// How deep it is below the user's request.
    pub depth: usize,
    /// More of them, each as `NAME=VALUE`.
    pub more: &'a [Vec<u8>],
}

impl Surroundings {
    /// Returns those of this process, with an empty folder if nobody knows where it is.
    pub fn of_process() -> Surroundings {
        let folder = env::current_dir().map(|folder| folder.into_os_string().into_vec());
        let variable = |(name, value): (std::ffi::OsString, std::ffi::OsString)| {
            joined(&[name.as_bytes(), b"=", value.as_bytes()])
        };
        Surroundings {
            folder: folder.unwrap_or_default(),
            umask: system::umask(),
            limits: system::limits(),
            variables: env::vars_os().map(variable).collect(),
        }
    }

    /// Returns them as bytes that [`Surroundings::parse`] reads: fields with a NUL after each.
    pub fn to_bytes(&self) -> Vec<u8> {
        let limits = self.limits.iter();
        let limits: Vec<String> = limits
            .map(|limit| format!("{}={}/{}", limit.resource, limit.soft, limit.hard))
            .collect();
        let (umask, limits) = (format!("{:o}", self.umask), limits.join(","));
        let first = [&self.folder, umask.as_bytes(), limits.as_bytes()];
        let fields = first
            .into_iter()
            .chain(self.variables.iter().map(Vec::as_slice));
        fields.flat_map(|field| joined(&[field, b"\0"])).collect()
    }

    /// Reads what [`Surroundings::to_bytes`] writes; None if it is something else.
    pub fn parse(bytes: &[u8]) -> Option<Surroundings> {
        let mut fields = bytes.strip_suffix(b"\0")?.split(|byte| *byte == 0);
        let folder = fields.next()?.to_vec();
        let umask = u32::from_str_radix(text_of(fields.next()?)?, 8).ok()?;
        let limits = text_of(fields.next()?)?
            .split(',')
            .filter(|limit| !limit.is_empty());
        Some(Surroundings {
            folder,
            umask: umask & 0o777,
            limits: limits.map(parsed_limit).collect::<Option<_>>()?,
            variables: fields.map(<[u8]>::to_vec).collect(),
        })
    }

    /// Returns the value of a variable.
    pub fn variable(&self, name: &[u8]) -> Option<&[u8]> {
        let mut variables = self.variables.iter();
        variables.find_map(|variable| value_of(variable, name))
    }
}

impl RunVariables {
    /// Returns the environment of a script. What has a NUL, as no variable has, is left out.
    pub fn environment(&self, asker: &Surroundings, script: &ScriptVariables) -> Vec<CString> {
        let depth = script.depth.to_string();
        let own = [
            assigned(b"REDO_RUN", &self.run),
            assigned(b"REDO_TOP", &self.top),
            assigned(b"REDO_TARGET", script.target),
            assigned(b"REDO_DEPTH", depth.as_bytes()),
            assigned(PATH, &self.path(asker.variable(PATH))),
        ];
        let flags = jobwords::replaced(asker.variable(MAKEFLAGS), self.job_words.as_deref());
        let flags = flags.map(|flags| assigned(MAKEFLAGS, &flags));
        let more = self.more.iter().chain(script.more).cloned();
        let own: Vec<Vec<u8>> = own.into_iter().chain(flags).chain(more).collect();
        let names: HashSet<&[u8]> = own
            .iter()
            .map(|one| name_of(one))
            .chain([MAKEFLAGS])
            .collect();
        let is_kept = |variable: &&Vec<u8>| !names.contains(name_of(variable));
        let all = asker.variables.iter().filter(is_kept).chain(&own);
        all.filter_map(|variable| CString::new(variable.as_slice()).ok())
            .collect()
    }

    fn path(&self, asker: Option<&[u8]>) -> Vec<u8> {
        let asker = asker.unwrap_or(DEFAULT_PATH);
        let first = asker.split(|byte| *byte == b':').next();
        if self.programs.is_empty() || first == Some(&self.programs) {
            return asker.to_vec();
        }
        [&self.programs, asker].join(&b':')
    }
}

fn assigned(name: &[u8], value: &[u8]) -> Vec<u8> {
    [name, value].join(&b'=')
}

fn name_of(variable: &[u8]) -> &[u8] {
    variable
        .split(|byte| *byte == b'=')
        .next()
        .unwrap_or_default()
}

fn value_of<'a>(variable: &'a [u8], name: &[u8]) -> Option<&'a [u8]> {
    variable.strip_prefix(name)?.strip_prefix(b"=")
}

fn text_of(field: &[u8]) -> Option<&str> {
    std::str::from_utf8(field).ok()
}

fn parsed_limit(text: &str) -> Option<Limit> {
    let (resource, values) = text.split_once('=')?;
    let (soft, hard) = values.split_once('/')?;
    Some(Limit {
        resource: resource.parse().ok()?,
        soft: soft.parse().ok()?,
        hard: hard.parse().ok()?,
    })
}

#[cfg(test)]
mod tests {
    use super::*;

    fn asker(variables: &[&str]) -> Surroundings {
        Surroundings {
            folder: b"/tree/a b\n".to_vec(),
            umask: 0o27,
            limits: vec![Limit {
                resource: 7,
                soft: 64,
                hard: u64::MAX,
            }],
            variables: variables
                .iter()
                .map(|text| text.as_bytes().to_vec())
                .collect(),
        }
    }

    fn run() -> RunVariables {
        RunVariables {
            programs: b"/redo/bin".to_vec(),
            top: b"/tree".to_vec(),
            run: b"/tree/.redo/run/1".to_vec(),
            ..RunVariables::default()
        }
    }

    fn environment(run: &RunVariables, variables: &[&str]) -> Vec<String> {
        let script = ScriptVariables {
            target: b"x.o",
            depth: 2,
            more: &[b"REDO_TASK=7".to_vec()],
        };
        let found = run.environment(&asker(variables), &script);
        found
            .into_iter()
            .map(|variable| variable.into_string().unwrap())
            .collect()
    }

    #[test]
    fn they_are_read_as_they_are_written() {
        for asker in [
            asker(&[]),
            asker(&["A=", "B==\n"]),
            Surroundings::of_process(),
        ] {
            assert_eq!(Surroundings::parse(&asker.to_bytes()), Some(asker));
        }
    }

    #[test]
    fn what_is_not_written_so_is_refused() {
        for bytes in [
            "",
            "/",
            "/\0",
            "/\x0022\0",
            "/\x0089\0\0",
            "/\x0022\x007=1\0",
        ] {
            assert_eq!(Surroundings::parse(bytes.as_bytes()), None, "{bytes:?}");
        }
    }

    #[test]
    fn a_script_has_the_environment_of_its_asker() {
        let found = environment(
            &run(),
            &[
                "A=1",
                "REDO_TARGET=y",
                "REDO_DEPTH=1",
                "PATH=/bin",
                "REDO_TASK=1",
            ],
        );
        let wanted = [
            "A=1",
            "REDO_RUN=/tree/.redo/run/1",
            "REDO_TOP=/tree",
            "REDO_TARGET=x.o",
            "REDO_DEPTH=2",
            "PATH=/redo/bin:/bin",
            "REDO_TASK=7",
        ];
        assert_eq!(found, wanted);
    }

    #[test]
    fn the_programs_are_in_front_on_the_path_once() {
        assert!(environment(&run(), &["PATH=/redo/bin:/a"]).contains(&"PATH=/redo/bin:/a".into()));
        assert!(environment(&run(), &[]).contains(&"PATH=/redo/bin:/bin:/usr/bin".into()));
        let none = RunVariables::default();
        assert!(environment(&none, &["PATH=/a"]).contains(&"PATH=/a".into()));
    }

    #[test]
    fn the_jobs_are_those_of_the_run() {
        let mut run = run();
        let asker = ["MAKEFLAGS=k -j9 --jobserver-auth=8,9"];
        assert!(environment(&run, &asker).contains(&"MAKEFLAGS=k".into()));
        run.job_words = Some(b"-j2 --jobserver-auth=3,4".to_vec());
        let wanted = "MAKEFLAGS=k -j2 --jobserver-auth=3,4";
        assert!(environment(&run, &asker).contains(&wanted.into()));
    }

    #[test]
    fn more_variables_take_the_place_of_the_askers() {
        let mut run = run();
        run.more = vec![b"COLOUR=red".to_vec()];
        let found = environment(&run, &["COLOUR=blue"]);
        assert_eq!(
            found
                .iter()
                .filter(|variable| variable.starts_with("COLOUR="))
                .count(),
            1
        );
        assert!(found.contains(&"COLOUR=red".into()));
    }
}
