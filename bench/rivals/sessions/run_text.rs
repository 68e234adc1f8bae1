// The run text, as it is printed.
use crate::printing::Printer;
use crate::lines::Command;
use crate::reading::{Item, Reader, Script};
use crate::sessions::{Done, Entry, Journal};
use std::io::{stdout, Result, StdoutLock, Write};

pub struct RunText<'a> {
    reader: &'a Reader<'a>,
    printer: Printer<'a>,
    out: StdoutLock<'static>,
}

impl<'a> RunText<'a> {
    pub fn new(reader: &'a Reader<'a>) -> RunText<'a> {
        let (names, digests) = (&reader.names.texts, &reader.digests);
        let printer = Printer { names, stamps: reader.text, digests, text: Vec::new() };
        RunText { reader, printer, out: stdout().lock() }
    }

    fn write(&mut self) -> Result<()> {
        self.out.write_all(&self.printer.text)?;
        self.printer.text.clear();
        Ok(())
    }

    fn put_command(&mut self, command: Command) {
        self.printer.put_command(command, &self.reader.lists);
        if let Command::Stamp(_, content) = command {
            self.printer.put(" ");
            self.printer.put(self.reader.contents[content as usize].to_ascii_lowercase());
        }
    }

    fn put_answer(&mut self, entry: &Entry, journal: &Journal) -> Result<()> {
        self.put_command(entry.command);
        self.printer.put(" => ");
        self.printer.put_reply(entry.reply, &journal.listed);
        self.printer.put("\n");
        if self.printer.text.len() >= 1 << 16 { self.write() } else { Ok(()) }
    }

    fn put_history(&mut self, done: &Done) -> Result<()> {
        self.printer.put(format!("history {}\n", done.history.len()));
        let mut next = vec![0; done.journals.len()];
        for session in &done.history {
            let s = usize::from(*session);
            let journal = &done.journals[s];
            self.printer.put(format!("{} ", s + 1));
            self.put_answer(&journal.entries[next[s]], journal)?;
            next[s] += 1;
        }
        Ok(())
    }

    fn put_line(&mut self, item: &Item, entry: Option<&Entry>, journal: &Journal) -> Result<()> {
        if item.is_guarded {
            self.printer.put("? ");
        }
        if let Some(entry) = entry {
            return self.put_answer(entry, journal);
        }
        self.put_command(item.command);
        self.printer.put(" => skipped\n");
        Ok(())
    }

    fn put_session(&mut self, s: usize, script: &Script, journal: &Journal) -> Result<()> {
        let closing = journal.entries.iter().filter(|entry| entry.line >= script.len()).count();
        self.printer.put(format!("session {} {}\n", s + 1, script.len() + closing));
        let mut entries = journal.entries.iter().peekable();
        for (line, item) in script.iter().enumerate() {
            let entry = entries.next_if(|entry| entry.line == line);
            self.put_line(item, entry, journal)?;
        }
        entries.try_for_each(|entry| self.put_answer(entry, journal))
    }

    pub fn put(mut self, done: &Done, scripts: &[Script]) -> Result<()> {
        self.put_history(done)?;
        for (s, script) in scripts.iter().enumerate() {
            self.put_session(s, script, &done.journals[s])?;
        }
        self.write()
    }
}
