use super::*;
use crate::scratch::Scratch;
use redo_files::trust::Trust;

/// A tree with a target `gen`, which is a folder.
struct Tree {
    scratch: Scratch,
    home: Home,
}

impl Tree {
    fn new() -> Tree {
        let scratch = Scratch::new();
        let home = Home::new(&scratch.top(), &Trust::of_process());
        Tree { scratch, home }
    }

    fn manifest(&self) -> Manifest<'_> {
        Manifest::new(&self.home, b"gen", b"gen")
    }

    /// Makes the folder anew, with this text in `a` and in `sub/b`.
    fn build(&self, text: &str) -> Result<Vec<Vec<u8>>, String> {
        self.scratch.folder("made/sub");
        self.scratch.file("made/a", text.as_bytes());
        self.scratch.file("made/sub/b", text.as_bytes());
        self.install()
    }

    fn install(&self) -> Result<Vec<Vec<u8>>, String> {
        let path = |name| self.scratch.path(name);
        let replaced = replace(
            &path("made"),
            &path("gen"),
            &path("gen.old"),
            &self.manifest(),
        );
        let _ = fs::remove_dir_all(self.scratch.at("made"));
        replaced.map_err(|cause| String::from_utf8(cause.text()).unwrap())
    }

    fn read(&self, name: &str) -> String {
        fs::read_to_string(self.scratch.at(name)).unwrap_or_default()
    }
}

#[test]
fn a_folder_takes_the_place_of_the_former_one() {
    let tree = Tree::new();
    assert_eq!(tree.build("1"), Ok(Vec::new()));
    assert_eq!(tree.build("22"), Ok(Vec::new()));
    assert_eq!(tree.read("gen/a") + &tree.read("gen/sub/b"), "2222");
    assert!(!tree.scratch.at("gen.old").exists());
    fs::remove_file(tree.scratch.at("gen/a")).unwrap();
    assert_eq!(tree.build("333"), Ok(Vec::new()));
}

#[test]
fn a_folder_that_no_build_made_stays() {
    let tree = Tree::new();
    tree.scratch.folder("gen");
    let refused = tree.build("1").unwrap_err();
    let wanted = "no build made this folder, so it stays as it is: remove it, or move it";
    assert_eq!(refused, wanted);
    fs::remove_dir(tree.scratch.at("gen")).unwrap();
    assert_eq!(tree.build("1"), Ok(Vec::new()));
}

#[test]
fn what_somebody_put_into_a_folder_or_edited_there_is_named() {
    let tree = Tree::new();
    tree.build("1").unwrap();
    tree.scratch.file("gen/sub/notes", b"precious");
    let refused = tree.build("22").unwrap_err();
    let wanted = "gen/sub/notes isn't from a build, so the folder stays as it is";
    assert_eq!(refused, wanted);
    fs::remove_file(tree.scratch.at("gen/sub/notes")).unwrap();
    tree.scratch.file("gen/a", b"edited");
    let refused = tree.build("22").unwrap_err();
    let wanted = "gen/a was changed since its build, so the folder stays as it is";
    assert_eq!(refused, wanted);
    assert_eq!(tree.read("gen/a"), "edited");
}

#[test]
fn an_empty_folder_of_the_user_is_a_stranger() {
    let tree = Tree::new();
    tree.build("1").unwrap();
    tree.scratch.folder("gen/empty");
    assert!(tree
        .build("22")
        .unwrap_err()
        .starts_with("gen/empty isn't from a build"));
}

#[test]
fn a_link_is_known_by_its_text_and_never_followed() {
    let tree = Tree::new();
    tree.scratch.folder("kept");
    tree.scratch.folder("made");
    tree.scratch.link("../kept", "made/kept");
    tree.install().unwrap();
    tree.scratch.file("kept/notes", b"precious");
    assert_eq!(tree.build("22"), Ok(Vec::new()));
    assert_eq!(tree.read("kept/notes"), "precious");
    fs::remove_file(tree.scratch.at("gen/a")).unwrap();
    tree.scratch.link("../kept", "gen/a");
    assert!(tree
        .build("333")
        .unwrap_err()
        .starts_with("gen/a was changed"));
}

#[test]
fn a_folder_takes_the_place_of_no_file_and_of_no_link() {
    let tree = Tree::new();
    tree.scratch.file("gen", b"text");
    assert!(tree.build("1").unwrap_err().starts_with("it is no folder"));
    fs::remove_file(tree.scratch.at("gen")).unwrap();
    tree.scratch.folder("elsewhere");
    tree.scratch.link("elsewhere", "gen");
    assert!(tree.build("1").unwrap_err().starts_with("it is no folder"));
    assert_eq!(
        removal::names_in(&tree.scratch.path("elsewhere"))
            .unwrap()
            .len(),
        0
    );
}

#[test]
fn what_is_where_the_former_folder_would_wait_is_named() {
    let tree = Tree::new();
    tree.build("1").unwrap();
    tree.scratch.file("gen.old", b"precious");
    assert_eq!(tree.build("22").unwrap_err(), "gen.old is in the way");
    assert_eq!(tree.read("gen/a") + &tree.read("gen.old"), "1precious");
}

#[test]
fn a_folder_that_was_changed_while_it_was_replaced_stays_aside() {
    let tree = Tree::new();
    tree.build("1").unwrap();
    let known = tree.manifest().read().unwrap();
    fs::rename(tree.scratch.at("gen"), tree.scratch.at("gen.old")).unwrap();
    tree.scratch.file("gen.old/notes", b"precious");
    let said = remove_known(&tree.scratch.path("gen.old"), &known).unwrap();
    assert!(said.ends_with(b"what it was is in gen.old"));
    assert_eq!(tree.read("gen.old/notes"), "precious");
}

#[test]
fn a_manifest_has_the_stamps_and_the_paths_in_order() {
    let tree = Tree::new();
    tree.scratch.folder("made/sub");
    tree.scratch.link("nowhere", "made/sub/b");
    tree.install().unwrap();
    // `printf gen | sha256sum` begins with the digits of the file's name
    let file = ".redo/folders/3b6a765ede676559e0f261b5b9e339c9f36819c7";
    assert_eq!(
        tree.read(file).as_bytes(),
        b"folder\0.\0folder\0sub\0link nowhere\0sub/b\0"
    );
}

#[test]
fn a_manifest_that_was_cut_has_its_whole_entries() {
    let tree = Tree::new();
    let path = tree.manifest().path;
    tree.home.open_folder(FOLDERS, Some(0o755)).unwrap();
    let mut file = tree
        .home
        .open_file(&path, Opening::REPLACE.making(0o600))
        .unwrap();
    file.write_all(b"folder\0.\0folder\0su").unwrap();
    let wanted = Entries::from([(b"folder".to_vec(), b".".to_vec())]);
    assert_eq!(tree.manifest().read().unwrap(), wanted);
}
