use super::*;
use crate::scratch::Scratch;
use redo_files::private::Home;
use redo_files::trust::Trust;

/// A tree, and the output files of its target `x`.
struct Build {
    scratch: Scratch,
    outputs: Outputs,
}

impl Build {
    fn new() -> Build {
        let scratch = Scratch::new();
        let outputs = Outputs::of(&scratch.path("x"), 1);
        fs::write(path(&outputs.standard), b"").unwrap();
        Build { scratch, outputs }
    }

    fn writes_third(&self, content: &[u8]) {
        fs::write(path(&self.outputs.third), content).unwrap();
    }

    fn writes_standard(&self, content: &[u8]) {
        fs::write(path(&self.outputs.standard), content).unwrap();
    }

    fn ends_by(&self, before: Before, exit: Exit) -> Ending {
        let home = Home::new(&self.scratch.top(), &Trust::of_process());
        let manifest = Manifest::new(&home, b"x", b"x");
        let target = self.scratch.path("x");
        let (name, target) = (b"x.do".as_slice(), target.as_slice());
        let script = Ended {
            name,
            target,
            before,
            exit,
            is_stopped: false,
        };
        let ending = self.outputs.settle(&script, &manifest, &mut Reader::new());
        assert_eq!(self.outputs.there(), None, "files of the build are gone");
        ending
    }

    fn ends(&self) -> Ending {
        self.ends_by(Before::of(&self.scratch.path("x")), Exit::Status(0))
    }

    fn target(&self) -> Option<Vec<u8>> {
        fs::read(self.scratch.at("x")).ok()
    }
}

fn stamp(ending: Ending) -> Option<String> {
    match ending {
        Ending::Built { stamp, said } => {
            assert_eq!(said, Vec::<Vec<u8>>::new());
            stamp.map(|stamp| stamp.to_string())
        }
        Ending::Failed(failure) => panic!("{failure:?}"),
    }
}

fn failure(ending: Ending) -> String {
    match ending {
        Ending::Built { .. } => panic!("it was built"),
        Ending::Failed(failure) => String::from_utf8(failure.lines()[0].clone()).unwrap(),
    }
}

fn text(path: &[u8]) -> String {
    String::from_utf8_lossy(path).into_owned()
}

#[test]
fn names_are_those_that_the_manual_says() {
    let scratch = Scratch::new();
    let top = text(&scratch.top());
    let beside = Outputs::of(&scratch.path("x.o"), 3);
    assert_eq!(text(&beside.third), format!("{top}/x.o.redo.3.tmp"));
    assert_eq!(text(&beside.standard), format!("{top}/x.o.redo.3.out"));
    assert_eq!(text(&beside.aside), format!("{top}/x.o.redo.3.old"));
    let above = Outputs::of(&scratch.path("d/x.o"), 3);
    // `printf d/x.o | sha256sum` begins with these digits
    assert_eq!(
        text(&above.third),
        format!("{top}/d__x.o.redo.3-0f276a96.tmp")
    );
    assert_eq!(text(&above.aside), format!("{top}/d/x.o.redo.3.old"));
}

#[test]
fn files_are_in_the_folder_of_the_target_once_that_is_there() {
    let scratch = Scratch::new();
    scratch.folder("d");
    let outputs = Outputs::of(&scratch.path("d/x.o"), 1);
    assert_eq!(outputs.third, scratch.path("d/x.o.redo.1.tmp"));
    let all = Outputs::all_of(&scratch.path("d/x.o"), 1);
    assert_eq!(all[0], outputs);
    assert!(text(&all[1].third).starts_with(&text(&scratch.path("d__x.o.redo.1-"))));
}

#[test]
fn the_longest_name_has_output_files() {
    let scratch = Scratch::new();
    let outputs = Outputs::of(&scratch.path(&"n".repeat(250)), 1);
    let name = paths::split(&outputs.third).1;
    assert_eq!(name.len(), LONGEST_NAME);
    fs::write(path(&outputs.third), b"").unwrap();
}

#[test]
fn standard_output_becomes_the_target() {
    let build = Build::new();
    build.writes_standard(b"one\n");
    // `printf 'file 0\0one\n' | b2sum -l 224`
    let wanted = "b2-e4cb8dfc5654403cc04eb3f22c8c9ac9b22db4a7e83f199cec4c46c2";
    assert_eq!(stamp(build.ends()).unwrap(), wanted);
    assert_eq!(build.target().unwrap(), b"one\n");
}

#[test]
fn the_third_argument_becomes_the_target_with_its_mode() {
    let build = Build::new();
    build.writes_third(b"#!/bin/sh\n");
    fs::set_permissions(path(&build.outputs.third), Permissions::from_mode(0o755)).unwrap();
    stamp(build.ends());
    let mode = fs::metadata(build.scratch.at("x"))
        .unwrap()
        .permissions()
        .mode();
    assert_eq!(mode & 0o777, 0o755);
}

#[test]
fn an_empty_third_argument_makes_an_empty_target() {
    let build = Build::new();
    build.writes_third(b"");
    assert!(stamp(build.ends()).is_some());
    assert_eq!(build.target().unwrap(), b"");
}

#[test]
fn without_output_there_is_no_file() {
    let build = Build::new();
    build.scratch.file("x", b"old");
    assert_eq!(stamp(build.ends()), None);
    assert_eq!(build.target(), None);
}

#[test]
fn both_outputs_are_an_error() {
    let build = Build::new();
    build.scratch.file("x", b"old");
    build.writes_standard(b"one");
    build.writes_third(b"two");
    let wanted = "x.do wrote to standard output and made $3";
    assert_eq!(failure(build.ends()), wanted);
    assert_eq!(build.target().unwrap(), b"old");
}

#[test]
fn a_script_that_writes_the_target_itself_fails() {
    let build = Build::new();
    let before = Before::of(&build.scratch.path("x"));
    build.scratch.file("x", b"text");
    let ending = build.ends_by(before, Exit::Status(0));
    assert_eq!(failure(ending), "x.do wrote $1 itself");
}

#[test]
fn a_script_that_replaces_the_target_fails() {
    let build = Build::new();
    build.scratch.file("x", b"text");
    let before = Before::of(&build.scratch.path("x"));
    build.scratch.file("y", b"text");
    fs::rename(build.scratch.at("y"), build.scratch.at("x")).unwrap();
    let ending = build.ends_by(before, Exit::Status(0));
    assert_eq!(failure(ending), "x.do wrote $1 itself");
}

#[test]
fn a_failure_keeps_the_target() {
    for (exit, wanted) in [
        (Exit::Status(3), "status 3"),
        (Exit::Signal(libc::SIGKILL), "killed by SIGKILL"),
    ] {
        let build = Build::new();
        build.scratch.file("x", b"old");
        build.writes_third(b"new");
        let before = Before::of(&build.scratch.path("x"));
        assert_eq!(failure(build.ends_by(before, exit)), wanted);
        assert_eq!(build.target().unwrap(), b"old");
    }
}

#[test]
fn no_file_takes_the_place_of_a_folder() {
    let build = Build::new();
    build.scratch.folder("x/sub");
    build.writes_third(b"new");
    assert!(failure(build.ends()).starts_with("it is a folder"));
    assert!(build.scratch.at("x/sub").exists());
}

#[test]
fn a_folder_stays_without_output() {
    let build = Build::new();
    build.scratch.folder("x/sub");
    assert_eq!(stamp(build.ends()).unwrap(), "folder");
    assert!(build.scratch.at("x/sub").exists());
}

#[test]
fn a_target_whose_folder_is_missing_fails() {
    let scratch = Scratch::new();
    let outputs = Outputs::of(&scratch.path("d/x"), 1);
    fs::write(path(&outputs.standard), b"text").unwrap();
    let home = Home::new(&scratch.top(), &Trust::of_process());
    let (target, manifest) = (scratch.path("d/x"), Manifest::new(&home, b"d/x", b"d/x"));
    let script = Ended {
        name: b"default.do",
        target: &target,
        before: Before::of(&target),
        exit: Exit::Status(0),
        is_stopped: false,
    };
    let ending = outputs.settle(&script, &manifest, &mut Reader::new());
    assert_eq!(failure(ending), "No such file or directory");
    assert_eq!(outputs.there(), None);
}

#[test]
fn what_is_in_the_way_is_named() {
    let scratch = Scratch::new();
    let outputs = Outputs::of(&scratch.path("x"), 7);
    assert_eq!(outputs.there(), None);
    scratch.file("x.redo.7.out", b"precious");
    assert_eq!(
        outputs.there(),
        Some(scratch.path("x.redo.7.out").as_slice())
    );
    assert!(outputs.open_standard(0o22, 0o22).is_err());
}

#[test]
fn standard_output_has_the_rights_that_the_umask_of_the_asker_leaves() {
    let own = crate::system::umask();
    for umask in [0o77, 0o27, 0] {
        let scratch = Scratch::new();
        let file = Outputs::of(&scratch.path("x"), 1)
            .open_standard(umask, own)
            .unwrap();
        let mode = file.metadata().unwrap().permissions().mode();
        assert_eq!(mode & 0o777, 0o666 & !umask);
    }
}

#[test]
fn a_link_becomes_the_target_and_its_stamp_is_that_of_its_place() {
    let scratch = Scratch::new();
    scratch.folder("d");
    scratch.file("text", b"text");
    let outputs = Outputs::of(&scratch.path("e/x"), 1); // $3 is above the folder of the target
    std::os::unix::fs::symlink("../text", path(&outputs.third)).unwrap();
    scratch.folder("e");
    let home = Home::new(&scratch.top(), &Trust::of_process());
    let script = Ended {
        name: b"x.do",
        target: &scratch.path("e/x"),
        before: Before::of(&scratch.path("e/x")),
        exit: Exit::Status(0),
        is_stopped: false,
    };
    let manifest = Manifest::new(&home, b"e/x", b"e/x");
    let ending = outputs.settle(&script, &manifest, &mut Reader::new());
    scratch.link("../text", "d/x");
    let wanted = stamp_of(&scratch.path("d/x"), &mut Reader::new())
        .unwrap()
        .unwrap();
    assert_eq!(stamp(ending), Some(wanted.to_string()));
    assert_eq!(fs::read(scratch.at("e/x")).unwrap(), b"text");
}
