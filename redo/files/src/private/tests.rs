//! Whether the files of `.redo` are opened with care.

use super::*;
use crate::scratch::Scratch;
use std::io::Read;
use std::os::unix::net::{UnixListener, UnixStream};

fn made() -> (Scratch, Home) {
    let scratch = Scratch::new();
    let home = Home::new(&scratch.top(), &Trust::of_process());
    home.make().unwrap();
    (scratch, home)
}

fn rights(scratch: &Scratch, path: &str) -> u32 {
    fs::metadata(scratch.at(path)).unwrap().permissions().mode() & 0o777
}

fn misplaced(found: FileError) -> Obstacle {
    match found {
        FileError::Untrusted(Distrust::Misplaced { obstacle, .. }) => obstacle,
        other => panic!("{other}"),
    }
}

#[test]
fn the_folder_of_the_server_is_private() {
    let (scratch, home) = made();
    assert_eq!(rights(&scratch, ".redo/server"), 0o700);
    assert_eq!(fs::read(scratch.at(".redo/.gitignore")).unwrap(), b"*\n");
    let open = Permissions::from_mode(0o755);
    fs::set_permissions(scratch.at(".redo/server"), open).unwrap();
    home.make().unwrap();
    assert_eq!(rights(&scratch, ".redo/server"), 0o700);
}

#[test]
fn what_is_there_is_written_once() {
    let (scratch, home) = made();
    scratch.file(".redo/.gitignore", b"mine");
    home.write_once(b".gitignore", b"*\n").unwrap();
    assert_eq!(home.read(b".gitignore").unwrap(), b"mine");
}

#[test]
fn a_file_is_made_with_its_rights_if_that_is_wanted() {
    let (scratch, home) = made();
    let error = home
        .open_file(b"run/file", Opening::REPLACE.making(0o600))
        .unwrap_err();
    assert!(matches!(error, FileError::System { .. }), "{error}");
    let opening = Opening::REPLACE.making(0o600).making_folder(0o700);
    home.open_file(b"run/file", opening)
        .unwrap()
        .write_all(b"1")
        .unwrap();
    assert_eq!(rights(&scratch, ".redo/run"), 0o700);
    assert_eq!(rights(&scratch, ".redo/run/file"), 0o600);
    let mut file = home.open_file(b"run/file", Opening::APPEND).unwrap();
    file.write_all(b"2").unwrap();
    assert_eq!(home.read(b"run/file").unwrap(), b"12");
    home.open_file(b"run/file", Opening::REPLACE).unwrap();
    assert_eq!(home.read(b"run/file").unwrap(), b"");
    let error = home.read(b"none").unwrap_err();
    assert!(matches!(error, FileError::System { cause, .. }
        if cause.kind() == ErrorKind::NotFound));
}

#[test]
fn nothing_is_opened_through_a_link() {
    let (scratch, home) = made();
    scratch.file("mine", b"mine");
    scratch.link("../mine", ".redo/file");
    scratch.link("..", ".redo/folder");
    for opening in [Opening::READ, Opening::REPLACE.making(0o600)] {
        let error = home.open_file(b"file", opening).unwrap_err();
        assert_eq!(misplaced(error), Obstacle::Link);
    }
    let error = home
        .open_file(b"folder/mine", Opening::REPLACE)
        .unwrap_err();
    assert_eq!(misplaced(error), Obstacle::Link);
    assert_eq!(fs::read(scratch.at("mine")).unwrap(), b"mine");
}

#[test]
fn nothing_is_opened_that_is_no_file_or_has_two_names() {
    let (scratch, home) = made();
    scratch.file(".redo/one", b"");
    fs::hard_link(scratch.at(".redo/one"), scratch.at("other")).unwrap();
    let error = home.read(b"one").unwrap_err();
    assert!(matches!(
        error,
        FileError::Untrusted(Distrust::ManyNames { names: 2, .. })
    ));
    assert_eq!(
        misplaced(home.read(b"server").unwrap_err()),
        Obstacle::Folder
    );
    let error = home.open_folder(b"one", None).unwrap_err();
    assert_eq!(misplaced(error), Obstacle::NoFolder);
}

#[test]
fn a_file_is_replaced_as_a_whole() {
    let (scratch, home) = made();
    scratch.file("mine", b"mine");
    home.replace(b"stamps", b"1").unwrap();
    let mut before = home.open_file(b"stamps", Opening::READ).unwrap();
    home.replace(b"stamps", b"2").unwrap();
    let mut content = String::new();
    before.read_to_string(&mut content).unwrap();
    assert_eq!(
        (content.as_str(), home.read(b"stamps").unwrap()),
        ("1", b"2".to_vec())
    );
    scratch.link("../mine", ".redo/stamps.new");
    assert_eq!(
        misplaced(home.replace(b"stamps", b"3").unwrap_err()),
        Obstacle::Link
    );
    assert_eq!(fs::read(scratch.at("mine")).unwrap(), b"mine");
}

#[test]
fn the_home_of_another_is_not_opened() {
    let (scratch, home) = made();
    let stranger = Trust {
        caller: 3_999_999_998,
        ..home.trust().clone()
    };
    let home = Home::new(&scratch.top(), &stranger);
    let error = home.open_folder(b"", None).unwrap_err();
    assert!(
        matches!(error, FileError::Untrusted(Distrust::ForeignTree { .. })),
        "{error}"
    );
}

#[test]
fn a_socket_is_named_by_its_descriptor() {
    let (scratch, home) = made();
    let folder = home.open_folder(b"server", None).unwrap();
    let path = format!("/proc/self/fd/{}/socket", folder.as_raw_fd());
    let listener = UnixListener::bind(path).unwrap();
    home.give_socket(&folder, b"socket").unwrap();
    let place = home.open_socket(b"server/socket").unwrap();
    let path = format!("/proc/self/fd/{}", place.as_raw_fd());
    let connection = UnixStream::connect(path).unwrap();
    assert_eq!(
        system::peer(&listener.accept().unwrap().0).unwrap(),
        system::caller()
    );
    drop(connection);
    scratch.link("socket", ".redo/server/link");
    let error = home.open_socket(b"server/link").unwrap_err();
    assert_eq!(misplaced(error), Obstacle::Link);
}
