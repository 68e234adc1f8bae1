//! Scripts as processes: what they inherit, and how they end.

mod common;

use std::ffi::CString;
use std::fs;
use std::os::unix::fs::PermissionsExt;
use std::time::{Duration, Instant};

use common::{processes_with, state_of, until, Scripts, Tree};
use redo_scripts::processes::Group;
use redo_scripts::program::{Exit, Limit};
use redo_scripts::{strays, system, text};

#[test]
fn a_script_ends_with_a_status_or_by_a_signal() {
    let tree = Tree::new();
    let mut scripts = Scripts::new(&tree);
    assert_eq!(scripts.run("exit 0"), Exit::Status(0));
    assert_eq!(scripts.run("exit 7"), Exit::Status(7));
    assert_eq!(scripts.run("kill -9 $$"), Exit::Signal(libc::SIGKILL));
}

#[test]
fn a_script_leads_a_group_in_its_folder_without_input() {
    let tree = Tree::new();
    let mut scripts = Scripts::new(&tree);
    let group = scripts.shell("echo $$; pwd -P; cut -d' ' -f5 </proc/$$/stat; cat; echo end >&2");
    scripts.wait();
    let folder = tree.top().display();
    assert_eq!(
        tree.read("output"),
        format!("{group}\n{folder}\n{group}\nend\n")
    );
}

#[test]
fn a_script_has_the_environment_and_no_other() {
    let tree = Tree::new();
    let mut scripts = Scripts::new(&tree);
    scripts.environment = vec![CString::new("A=b c").unwrap()];
    scripts.words(&["/usr/bin/env"]).unwrap();
    scripts.wait();
    assert_eq!(tree.read("output"), "A=b c\n");
}

#[test]
fn a_script_has_the_umask_of_its_asker() {
    let tree = Tree::new();
    let mut scripts = Scripts::new(&tree);
    let own = system::umask();
    scripts.umask = 0o27;
    scripts.run("umask; : >made");
    assert_eq!(tree.read("output"), "0027\n");
    let mode = fs::metadata(tree.at("made")).unwrap().permissions().mode();
    assert_eq!((mode & 0o777, system::umask()), (0o640, own));
}

#[test]
fn a_script_has_the_limits_of_its_asker() {
    let tree = Tree::new();
    let mut scripts = Scripts::new(&tree);
    let limit = |resource, soft, hard| Limit {
        resource,
        soft,
        hard,
    };
    scripts.limits = vec![
        limit(libc::RLIMIT_NOFILE, 64, 100),
        limit(libc::RLIMIT_CORE, 0, 0),
        limit(libc::RLIMIT_CPU, 50, 60),
    ];
    let own = system::limits();
    scripts.run("ulimit -S -n; ulimit -H -n; ulimit -S -t; ulimit -H -t; ulimit -c");
    assert_eq!(tree.read("output"), "64\n100\n50\n60\n0\n");
    assert_eq!(system::limits(), own);
}

#[test]
fn a_script_has_its_files_and_the_end_of_a_pipe() {
    let tree = Tree::new();
    let mut scripts = Scripts::new(&tree);
    scripts.run("cd /proc/$$/fd; echo *");
    let output = tree.read("output");
    let numbers: Vec<u32> = output
        .split_whitespace()
        .map(|word| word.parse().unwrap())
        .collect();
    let standard = numbers.iter().filter(|number| **number < 3).count();
    assert_eq!((standard, numbers.contains(&187)), (3, true), "{output}");
    assert_eq!(scripts.run("test -p /proc/$$/fd/187"), Exit::Status(0));
    assert_eq!(scripts.run("test /dev/fd/0 -ef /dev/null"), Exit::Status(0));
}

#[test]
fn a_script_answers_signals_as_if_it_were_alone() {
    let tree = Tree::new();
    let mut scripts = Scripts::new(&tree);
    // nohup ignores SIGHUP, for all that it starts
    let ignored = ignored_here() & !(1 << (libc::SIGPIPE - 1));
    let signals = [
        libc::SIGHUP,
        libc::SIGINT,
        libc::SIGTERM,
        libc::SIGQUIT,
        libc::SIGPIPE,
    ];
    for signal in signals
        .into_iter()
        .filter(|signal| ignored >> (signal - 1) & 1 == 0)
    {
        let exit = scripts.run(&format!("ulimit -c 0; kill -{signal} $$; sleep 9"));
        assert!(matches!(exit, Exit::Signal(_)), "{signal}: {exit}");
    }
    scripts.run("yes | head -1; grep -E '^Sig(Blk|Ign)' /proc/self/status");
    let wanted = format!("y\nSigBlk:\t{:016x}\nSigIgn:\t{ignored:016x}\n", 0);
    assert_eq!(tree.read("output"), wanted);
}

/// The signals that this process ignores: Rust has it ignore SIGPIPE, its parent perhaps more.
fn ignored_here() -> u64 {
    let status = fs::read_to_string("/proc/self/status").unwrap();
    let mut lines = status.lines();
    let digits = lines
        .find_map(|line| line.strip_prefix("SigIgn:\t"))
        .unwrap();
    u64::from_str_radix(digits, 16).unwrap()
}

#[test]
fn what_cannot_be_started_is_told() {
    let tree = Tree::new();
    let mut scripts = Scripts::new(&tree);
    tree.write("plain", "text\n");
    let plain = tree.at("plain").display().to_string();
    fs::set_permissions(&plain, fs::Permissions::from_mode(0o755)).unwrap();
    for (program, wanted) in [
        ("/no/such/interpreter", "No such file or directory"),
        (plain.as_str(), "Exec format error"),
        ("/etc", "Permission denied"),
    ] {
        let error = scripts.words(&[program, "x"]).unwrap_err();
        assert_eq!(error.what, program.as_bytes());
        assert_eq!(text::cause_of(&error.cause), wanted, "{program}");
    }
    let long = "x".repeat(1 << 21);
    let error = scripts.words(&["/bin/true", &long]).unwrap_err();
    assert_eq!(text::cause_of(&error.cause), "Argument list too long");
    assert_eq!(scripts.processes.count(), 0);
    assert_eq!(scripts.run("exit 3"), Exit::Status(3));
}

#[test]
fn many_scripts_end_in_any_order() {
    let tree = Tree::new();
    let mut scripts = Scripts::new(&tree);
    let started: Vec<_> = (0..40)
        .map(|number| {
            (
                scripts.shell(&format!("sleep 0.{}; exit {number}", number % 7)),
                number,
            )
        })
        .collect();
    let mut ended = scripts.wait();
    ended.sort();
    let mut wanted: Vec<_> = started
        .into_iter()
        .map(|(group, status)| (group, Exit::Status(status)))
        .collect();
    wanted.sort();
    assert_eq!(ended, wanted);
}

#[test]
fn scripts_end_by_sigterm_and_those_that_ignore_it_by_sigkill() {
    let tree = Tree::new();
    let mut scripts = Scripts::new(&tree);
    scripts.shell(
        "trap 'echo tidy >tidy; exit 9' TERM; : >one; for i in $(seq 999); do sleep 0.1 || :; done",
    );
    scripts.shell("trap '' TERM; : >two; for i in $(seq 5000); do sleep 0.02 || :; done");
    scripts.shell("sleep 100 & : >three; sleep 100");
    until("they run", || {
        ["one", "two", "three"].iter().all(|name| tree.has(name))
    });
    let began = Instant::now();
    scripts.processes.end_all(began);
    assert_eq!(
        scripts.processes.deadline(),
        Some(began + Duration::from_secs(1))
    );
    let mut exits: Vec<Exit> = scripts.wait().into_iter().map(|(_, exit)| exit).collect();
    let took = began.elapsed();
    exits.sort();
    let (term, kill) = (Exit::Signal(libc::SIGTERM), Exit::Signal(libc::SIGKILL));
    let mut wanted = [Exit::Status(9), term, kill];
    wanted.sort();
    assert_eq!(exits, wanted);
    assert_eq!(tree.read("tidy"), "tidy\n");
    assert!(
        took >= Duration::from_secs(1) && took < Duration::from_secs(40),
        "{took:?}"
    );
}

#[test]
fn a_second_end_kills_at_once() {
    let tree = Tree::new();
    let mut scripts = Scripts::new(&tree);
    scripts.shell("trap '' TERM; : >one; for i in $(seq 5000); do sleep 0.02 || :; done");
    until("it runs", || tree.has("one"));
    let began = Instant::now();
    scripts.processes.end_all(began);
    scripts.processes.end_all(began);
    assert_eq!(scripts.wait()[0].1, Exit::Signal(libc::SIGKILL));
    assert_eq!(scripts.processes.deadline(), None);
}

/// Whether the leader of a group is stopped, or waits for a program that is (D): a shell that is
/// about to start one does. While it forks, SIGCONT doesn't undo SIGTSTP for its child.
fn is_stopped(group: Group) -> bool {
    ["T", "D"].contains(&state_of(group.number()).as_str())
}

#[test]
fn scripts_stop_and_go_on() {
    let tree = Tree::new();
    let mut scripts = Scripts::new(&tree);
    let group = scripts.shell(": >one; while ! [ -e go ]; do sleep 0.02 || :; done");
    until("it runs", || tree.has("one"));
    scripts.processes.suspend();
    until("it stops", || is_stopped(group));
    tree.write("go", "");
    std::thread::sleep(Duration::from_millis(200));
    assert!(scripts.processes.ended().unwrap().is_empty());
    scripts.processes.resume();
    assert_eq!(scripts.wait()[0].1, Exit::Status(0));
}

#[test]
fn a_stopped_script_can_be_ended() {
    let tree = Tree::new();
    let mut scripts = Scripts::new(&tree);
    let script = "trap 'exit 9' TERM; : >one; for i in $(seq 5000); do sleep 0.02 || :; done";
    let group = scripts.shell(script);
    until("it runs", || tree.has("one"));
    scripts.processes.suspend();
    until("it stops", || is_stopped(group));
    scripts.processes.end_all(Instant::now());
    assert_eq!(scripts.wait()[0].1, Exit::Status(9));
}

#[test]
fn what_a_script_leaves_in_the_background_goes_on() {
    let tree = Tree::new();
    let mut scripts = Scripts::new(&tree);
    let left = "(while ! [ -e go ]; do sleep 0.02 || :; done; : >went) >/dev/null 2>&1 &";
    assert_eq!(scripts.run(left), Exit::Status(0));
    drop(scripts);
    tree.write("go", "");
    until("it goes on", || tree.has("went"));
}

#[test]
fn scripts_die_with_who_drops_them() {
    let tree = Tree::new();
    let mut scripts = Scripts::new(&tree);
    let mark = tree.top().display().to_string();
    scripts.shell(&format!(
        "sleep 100 {mark} || sleep 101 & : >one; echo {mark}; sleep 100"
    ));
    until("it runs", || tree.has("one"));
    drop(scripts);
    until("it dies", || processes_with(&mark).is_empty());
}

#[test]
fn scripts_of_a_run_that_is_dead_are_known_by_their_environment() {
    let tree = Tree::new();
    let mut scripts = Scripts::new(&tree);
    let run = tree.path(".redo/run/1");
    scripts
        .environment
        .push(CString::new([b"REDO_RUN=", &run[..]].concat()).unwrap());
    scripts.shell(": >began; sleep 100");
    until("it runs", || tree.has("began"));
    strays::kill(&tree.path(".redo/run/2"), &[]);
    strays::kill(&run[..run.len() - 1], &[]);
    assert!(scripts.processes.ended().unwrap().is_empty());
    strays::kill(&run, &[]);
    assert_eq!(scripts.wait()[0].1, Exit::Signal(libc::SIGKILL));
}

#[test]
fn what_is_left_of_a_script_is_killed_if_its_group_was_noted() {
    let tree = Tree::new();
    let mut scripts = Scripts::new(&tree);
    let run = tree.path(".redo/run/1");
    scripts
        .environment
        .push(CString::new([b"REDO_RUN=", &run[..]].concat()).unwrap());
    let group = scripts.shell("sleep 100 >/dev/null 2>&1 &");
    scripts.wait();
    let variable = format!("REDO_RUN={}", String::from_utf8(run.clone()).unwrap());
    until("its program runs", || processes_with(&variable).len() == 1);
    strays::kill(&run, &[]);
    assert_eq!(processes_with(&variable).len(), 1);
    strays::kill(&run, &[group.number()]);
    until("its program is dead", || {
        processes_with(&variable).is_empty()
    });
}
