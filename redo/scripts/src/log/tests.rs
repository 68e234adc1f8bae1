use super::*;
use crate::lines::{Line, Lines};
use crate::scratch::Scratch;
use redo_files::trust::Trust;

struct Tree {
    scratch: Scratch,
    home: Home,
    keys: Keys,
}

impl Tree {
    fn new() -> Tree {
        let scratch = Scratch::new();
        let home = Home::new(&scratch.top(), &Trust::of_process());
        home.make().unwrap();
        let keys = Keys::default();
        Tree {
            scratch,
            home,
            keys,
        }
    }

    fn begin(&mut self, name: &[u8]) -> Log {
        Log::begin(&self.home, name, Some(b"b2-1"), &mut self.keys).unwrap()
    }

    fn text(&self, name: &[u8]) -> String {
        String::from_utf8(self.home.read(&path_of(name)).unwrap()).unwrap()
    }

    fn lines(&self, name: &[u8]) -> Vec<Line> {
        let mut lines = Lines::open(&self.home, name, None).unwrap();
        std::iter::from_fn(|| lines.next(false).unwrap()).collect()
    }
}

fn said(text: &str) -> Line {
    Line::Text(text.as_bytes().to_vec())
}

fn built(name: &str) -> Line {
    Line::Mark(Mark::Built(name.as_bytes().to_vec()))
}

#[test]
fn a_log_has_the_name_of_its_target_in_digits() {
    // `printf gen | sha256sum` begins with these digits
    assert_eq!(
        path_of(b"gen"),
        b"logs/3b6a765ede676559e0f261b5b9e339c9f36819c7"
    );
}

#[test]
fn a_log_has_the_lines_of_its_format() {
    let mut tree = Tree::new();
    let mut log = tree.begin(b"x.o");
    log.write(b"before\n");
    log.built(b"y");
    log.unchanged([b"z".as_slice(), b"w"]);
    log.say(b"redo: said");
    let mark = String::from_utf8(log.mark().to_vec()).unwrap();
    log.end(-9, None);
    let key = mark.trim_start_matches('\x1e').trim_end();
    assert!(
        key.len() == 16 && key.bytes().all(|byte| byte.is_ascii_hexdigit()),
        "{key}"
    );
    let wanted = format!(
        "\x1etarget x.o b2-1 {key}\nbefore\n{mark}redo y\n{mark}unchanged z\n{mark}unchanged w\n\
         redo: said\n{mark}end -9 -\n"
    );
    assert_eq!(tree.text(b"x.o"), wanted);
    let end = Line::Mark(Mark::End);
    let unchanged = |name: &[u8]| Line::Mark(Mark::Unchanged(name.to_vec()));
    let wanted = [
        said("before"),
        built("y"),
        unchanged(b"z"),
        unchanged(b"w"),
        said("redo: said"),
        end,
    ];
    assert_eq!(tree.lines(b"x.o"), wanted);
}

#[test]
fn keys_differ() {
    let mut tree = Tree::new();
    let (one, other) = (tree.begin(b"x"), tree.begin(b"y"));
    assert_ne!(one.mark(), other.mark());
    assert_ne!(Keys::default().next(), Keys::default().next());
}

#[test]
fn a_log_begins_anew_with_each_build() {
    let mut tree = Tree::new();
    tree.begin(b"x").write(b"old\n");
    tree.begin(b"x").write(b"new\n");
    assert_eq!(tree.lines(b"x"), [said("new")]);
}

#[test]
fn a_part_of_a_line_is_ended_before_a_mark() {
    let mut tree = Tree::new();
    let mut log = tree.begin(b"x");
    log.write(b"part");
    log.built(b"y");
    log.write(b"rest");
    log.end(0, Some(b"b2-2"));
    let wanted = [
        said("part"),
        built("y"),
        said("rest"),
        Line::Mark(Mark::End),
    ];
    assert_eq!(tree.lines(b"x"), wanted);
}

#[test]
fn a_line_counts_once_it_ends_or_the_log_does() {
    let mut tree = Tree::new();
    let mut log = tree.begin(b"x");
    let mut lines = Lines::open(&tree.home, b"x", Some(log.mark())).unwrap();
    assert_eq!(lines.next(true).unwrap(), None);
    log.write(b"one\ntw");
    assert_eq!(lines.next(true).unwrap(), Some(said("one")));
    assert_eq!(lines.next(true).unwrap(), None);
    log.write(b"o");
    assert_eq!(lines.next(true).unwrap(), None);
    assert_eq!(lines.next(false).unwrap(), Some(said("two")));
    assert_eq!(lines.next(false).unwrap(), None);
}

#[test]
fn what_looks_like_a_mark_is_text() {
    let mut tree = Tree::new();
    let mut log = tree.begin(b"x");
    let lines = ["\x1eredo other", "\x1etarget x -", "\x1eend 0 -", "\x1e"];
    lines.iter().for_each(|line| log.say(line.as_bytes()));
    log.end(0, None);
    let mut wanted: Vec<Line> = lines.iter().map(|line| said(line)).collect();
    wanted.push(Line::Mark(Mark::End));
    assert_eq!(tree.lines(b"x"), wanted);
}

#[test]
fn a_log_without_an_end_is_read_and_its_script_has_no_marks() {
    let mut tree = Tree::new();
    tree.begin(b"x").write(b"\x1eend 0 -\n");
    assert_eq!(tree.lines(b"x"), [said("\x1eend 0 -")]);
}

#[test]
fn a_log_that_a_script_empties_has_its_marks_by_its_end() {
    let mut tree = Tree::new();
    let mut log = tree.begin(b"x");
    let mut live = Lines::open(&tree.home, b"x", Some(log.mark())).unwrap();
    log.write(b"before, which is long enough to be longer than what comes\n");
    assert!(live.next(true).unwrap().is_some());
    log.file.set_len(0).unwrap();
    log.write(b"text\n");
    assert_eq!(live.next(true).unwrap(), Some(said("text")));
    log.built(b"y");
    log.end(0, None);
    assert_eq!(
        tree.lines(b"x"),
        [said("text"), built("y"), Line::Mark(Mark::End)]
    );
}

#[test]
fn a_log_of_a_former_version_has_marks_without_a_key() {
    let tree = Tree::new();
    let mut file = renewed(&tree.home, b"x").unwrap();
    file.write_all(b"\x1etarget x -\ntext\n\x1eredo y\n\x1eend 0 -\n")
        .unwrap();
    assert_eq!(
        tree.lines(b"x"),
        [said("text"), built("y"), Line::Mark(Mark::End)]
    );
    assert!(is_kept(&tree.home, b"x").unwrap());
}

#[test]
fn a_note_is_no_log() {
    let mut tree = Tree::new();
    assert!(!is_kept(&tree.home, b"x").unwrap());
    note(&tree.home, b"x", None).unwrap();
    assert_eq!(tree.text(b"x"), "\x1etarget x -\n");
    assert!(!is_kept(&tree.home, b"x").unwrap());
    tree.begin(b"x");
    assert!(is_kept(&tree.home, b"x").unwrap());
    assert!(tree.scratch.at(".redo/logs").is_dir());
}

#[test]
fn a_long_line_is_parted() {
    let mut tree = Tree::new();
    let long = vec![b'x'; (1 << 20) + 70_000];
    tree.begin(b"x").write(&long);
    let lines = tree.lines(b"x");
    assert_eq!(lines.len(), 2);
    let texts = lines.into_iter().map(|line| match line {
        Line::Text(text) => text,
        Line::Mark(mark) => panic!("{mark:?}"),
    });
    assert_eq!(texts.flatten().count(), long.len());
}

#[test]
fn a_log_that_is_a_link_is_refused() {
    let mut tree = Tree::new();
    tree.scratch.file("mine", b"precious");
    tree.home.open_folder(b"logs", Some(0o755)).unwrap();
    let place = String::from_utf8(joined(&[b".redo/", &path_of(b"x")])).unwrap();
    tree.scratch.link("../../mine", &place);
    assert!(Log::begin(&tree.home, b"x", None, &mut tree.keys).is_err());
    assert_eq!(std::fs::read(tree.scratch.at("mine")).unwrap(), b"precious");
}
