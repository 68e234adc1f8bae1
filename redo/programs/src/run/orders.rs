//! What the server says of a script, as the library that runs scripts has it.

use redo_files::rules::Rule;
use redo_scripts::program::Limit;
use redo_scripts::surroundings::Surroundings;
use redo_wire::Script;

const SOCKET: &[u8] = b"REDO_SOCKET=";
const TASK: &[u8] = b"REDO_TASK=";

/// Returns how the script is called.
pub fn rule_of(script: &Script) -> Rule {
    Rule {
        do_file: script.do_file.clone(),
        folder: script.folder.clone(),
        first: script.first.clone(),
        second: script.second.clone(),
    }
}

/// Returns what a script inherits: from whoever asks for its target, or from the run itself.
pub fn surroundings_of(script: &Script, own: &Surroundings) -> Surroundings {
    match &script.surroundings {
        Some(told) => Surroundings {
            folder: script.folder.clone(),
            umask: told.umask,
            limits: told.limits.iter().zip(0..).map(limit).collect(),
            variables: told.environment.clone(),
        },
        None => own.clone(),
    }
}

/// Returns the variables by which a script's programs reach the server.
pub fn variables_of(script: &Script, socket: &[u8]) -> [Vec<u8>; 2] {
    let task = script.task.to_string();
    [[SOCKET, socket].concat(), [TASK, task.as_bytes()].concat()]
}

fn limit((told, resource): (&redo_wire::Limit, u32)) -> Limit {
    Limit {
        resource,
        soft: told.soft,
        hard: told.hard,
    }
}

#[cfg(test)]
mod tests {
    use super::*;

    #[test]
    fn a_script_inherits_from_its_asker_or_from_the_run() {
        let own = Surroundings {
            folder: b"/".to_vec(),
            umask: 0o22,
            limits: Vec::new(),
            variables: vec![b"A=1".to_vec()],
        };
        let mut script = Script::default();
        assert_eq!(surroundings_of(&script, &own), own);
        let mut told = redo_wire::Surroundings {
            environment: vec![b"B=2".to_vec()],
            umask: 0o77,
            ..redo_wire::Surroundings::default()
        };
        told.limits[7] = redo_wire::Limit { soft: 5, hard: 6 };
        script.surroundings = Some(told);
        let given = surroundings_of(&script, &own);
        assert_eq!(
            (given.variables, given.umask),
            (vec![b"B=2".to_vec()], 0o77)
        );
        assert_eq!(given.limits.len(), 16);
        let files = Limit {
            resource: 7,
            soft: 5,
            hard: 6,
        };
        assert_eq!(given.limits[7], files);
    }

    #[test]
    fn a_script_has_the_socket_and_its_task() {
        let script = Script {
            task: 7,
            ..Script::default()
        };
        let wanted = [b"REDO_SOCKET=/s".to_vec(), b"REDO_TASK=7".to_vec()];
        assert_eq!(variables_of(&script, b"/s"), wanted);
    }
}
