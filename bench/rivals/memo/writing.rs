// A history that is made up: commands of one session, each with its reply.
use crate::lines::{Command, Part, Stamp};
use crate::printing::Printer;
use crate::store::Store;
use std::num::NonZeroU8;

// the file stamps 1, 2, 3 and so on
pub struct Stamps {
    text: Vec<u8>,
    all: Vec<Stamp>,
}

impl Stamps {
    pub fn up_to(last: usize) -> Stamps {
        let mut stamps = Stamps { text: Vec::new(), all: Vec::new() };
        for number in 1..=last {
            let word = number.to_string();
            let len = NonZeroU8::new(word.len() as u8).expect("a digit or more");
            stamps.all.push(Stamp { at: stamps.text.len() as u32, len });
            stamps.text.extend_from_slice(word.as_bytes());
        }
        stamps
    }
}

// names that differ in a number
pub fn numbered(
    count: usize,
    folder: &'static str,
    ending: &'static str,
) -> impl Iterator<Item = String> {
    (0..count).map(move |number| format!("{folder}/{number}{ending}"))
}

pub struct Writer<'a> {
    stamps: &'a Stamps,
    store: Store<'a>,
    printer: Printer<'a>,
    // the lines so far, and how many there may be
    count: usize,
    most: usize,
}

impl<'a> Writer<'a> {
    pub fn new(names: &'a [&'a [u8]], stamps: &'a Stamps, most: usize) -> Writer<'a> {
        let mut sorted: Vec<u32> = (0..names.len() as u32).collect();
        sorted.sort_unstable_by_key(|n| names[*n as usize]);
        let store = Store::new(&stamps.text, &[], sorted);
        let printer = Printer { names, stamps: &stamps.text, digests: &[], text: Vec::new() };
        Writer { stamps, store, printer, count: 0, most }
    }

    pub fn is_full(&self) -> bool {
        self.count == self.most
    }

    fn tell(&mut self, command: Command, lists: &[u32]) {
        if self.is_full() {
            return;
        }
        self.printer.put("1 ");
        self.printer.put_command(command, lists);
        self.printer.put(" => ");
        let reply = self.store.call(0, command, lists);
        self.printer.put_reply(reply, self.store.listed());
        self.printer.put("\n");
        self.count += 1;
    }

    pub fn file(&mut self, name: u32, stamp: usize) {
        self.tell(Command::File(name, self.stamps.all[stamp - 1]), &[]);
    }

    pub fn lock(&mut self, target: u32) {
        self.tell(Command::Lock(target), &[]);
    }

    pub fn unlock(&mut self, target: u32) {
        self.tell(Command::Unlock(target), &[]);
    }

    // builds a target, whose dependencies are reported 64 at a time
    pub fn build(&mut self, target: u32, names: &[u32], stamp: usize) {
        self.lock(target);
        self.tell(Command::Start(target), &[]);
        for some in names.chunks(64) {
            let all = Part { at: 0, len: some.len() as u32 };
            self.tell(Command::IfChange(target, all), some);
        }
        self.tell(Command::Done(target, Some(self.stamps.all[stamp - 1])), &[]);
        self.unlock(target);
    }

    // asks what is out of date
    pub fn ask(&mut self) -> &[u32] {
        self.tell(Command::Ood, &[]);
        self.store.listed()
    }

    // the history: its header, and its lines
    pub fn history(self) -> (String, Vec<u8>) {
        (format!("history {}\n", self.count), self.printer.text)
    }
}
