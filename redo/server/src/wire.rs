//! The lines of a client, `ID REQUEST`, and what they ask for.

use std::fmt;

use redo_files::names::{is_name, ALWAYS};

/// So many bytes of a line are kept; a longer one is answered as too long.
pub const MOST_LINE: usize = 1 << 16;

/// The first line of a client that wants no session.
pub const ONLY_ASKS: &[u8] = b"0 question\n";

/// The name instead of the one that is built, if a wait is for none.
pub const TOP_LEVEL: &[u8] = b"-";

const ROOM_KEPT: usize = 1 << 14;

/// What has come from a client, and isn't worked on yet.
#[derive(Debug, Default)]
pub struct Inbox {
    bytes: Vec<u8>,
    /// So many of the bytes are worked on.
    taken: usize,
    /// Whether what comes up to the next LF is the rest of a line that was too long.
    is_skipping: bool,
}

impl Inbox {
    /// Takes what came.
    pub fn push(&mut self, mut data: &[u8]) {
        if self.is_skipping {
            match data.iter().position(|byte| *byte == b'\n') {
                None => return,
                Some(end) => data = &data[end..],
            }
            self.is_skipping = false;
        }
        self.bytes.drain(..self.taken);
        self.taken = 0;
        self.bytes.extend_from_slice(data);
    }

    /// Takes the next whole line, without its LF.
    pub fn next_line(&mut self) -> Option<Vec<u8>> {
        let rest = &self.bytes[self.taken..];
        let length = rest.iter().position(|byte| *byte == b'\n')?;
        let line = rest[..length].to_vec();
        self.taken += length + 1;
        Some(line)
    }

    /// Takes the bytes of [`ONLY_ASKS`] if they are the first. None if no whole line is there.
    pub fn begins_with_question(&mut self) -> Option<bool> {
        let rest = &self.bytes[self.taken..];
        let begins = rest.starts_with(ONLY_ASKS);
        if begins {
            self.taken += ONLY_ASKS.len();
            return Some(true);
        }
        rest.contains(&b'\n').then_some(false)
    }

    /// Says whether nothing is there, not even the beginning of a line.
    pub fn is_empty(&self) -> bool {
        self.bytes.len() == self.taken && !self.is_skipping
    }

    /// Says whether more is there than a line may have.
    pub fn is_full(&self) -> bool {
        self.bytes.len() - self.taken > MOST_LINE
    }

    /// Takes it that all whole lines are worked on: of a line that is too long, its beginning is
    /// kept.
    pub fn cut(&mut self) {
        if self.is_full() {
            self.bytes.truncate(self.taken + MOST_LINE);
            self.is_skipping = true;
        }
        if self.taken == self.bytes.len() {
            self.bytes.clear();
            self.bytes.shrink_to(ROOM_KEPT);
            self.taken = 0;
        }
    }

    pub fn clear(&mut self) {
        *self = Inbox::default();
    }
}

/// The ID of a request: decimal digits, as the client wrote them.
#[derive(Clone, Debug, PartialEq, Eq)]
pub struct RequestId(Box<[u8]>);

impl RequestId {
    /// That of an answer to what has no ID.
    pub fn none() -> RequestId {
        RequestId(Box::from(*b"0"))
    }

    pub fn digits(&self) -> &[u8] {
        &self.0
    }
}

/// Parts a line into its ID and its request. None if it has no ID.
pub fn parted(line: &[u8]) -> Option<(RequestId, &[u8])> {
    let (digits, request) = partition(line);
    if digits.is_empty() || !digits.iter().all(u8::is_ascii_digit) {
        return None;
    }
    Some((RequestId(digits.into()), request))
}

/// What is wrong with a request of the server's own.
#[derive(Clone, Copy, Debug, PartialEq, Eq)]
pub enum Fault {
    BadId,
    BadName,
    BadGroup,
    WrongWords,
    NotWaiting,
    NoSession,
    /// The server keeps no more of this kind.
    Memory,
}

impl fmt::Display for Fault {
    fn fmt(&self, formatter: &mut fmt::Formatter<'_>) -> fmt::Result {
        formatter.write_str(match self {
            Fault::BadId => "fault bad-id",
            Fault::BadName => "fault bad-name",
            Fault::BadGroup => "fault bad-group",
            Fault::WrongWords => "fault wrong-words",
            Fault::NotWaiting => "fault not-waiting",
            Fault::NoSession => "fault no-session",
            Fault::Memory => "fault memory",
        })
    }
}

/// What a client asks for.
#[derive(Clone, Debug, PartialEq, Eq)]
pub enum Request<'a> {
    /// The lock of a target for the build of a parent, as soon as it is free.
    Wait { target: &'a [u8], parent: &'a [u8] },
    /// An end of such a wait.
    Forget { target: &'a [u8], parent: &'a [u8] },
    /// The stamp that the last `done` of a name gave.
    Made(&'a [u8]),
    /// Which of these targets, or of all, have a file that no build of them left.
    Edited(Vec<&'a [u8]>),
    /// Which of these names are no targets, and changed at this time or later: nanoseconds since
    /// 1970.
    Late { since: i128, names: Vec<&'a [u8]> },
    /// A look at the files of these names, or of all that are known.
    Look(Vec<&'a [u8]>),
    /// The end of a process group with the connection.
    Group(Vec<&'a [u8]>),
    /// That a process group has ended.
    Ungroup(Vec<&'a [u8]>),
    /// The end of all that the session holds.
    End,
    /// A session, if one is free.
    Session,
    /// A session, as soon as one is free.
    Turn,
    /// What the database is asked.
    Database(&'a [u8]),
}

/// The word of a request.
#[derive(Clone, Copy, Debug, PartialEq, Eq)]
enum Word {
    Wait,
    Forget,
    Made,
    Edited,
    Late,
    Look,
    Group,
    Ungroup,
    End,
    Session,
    Turn,
    Database,
}

impl Word {
    fn of(request: &[u8]) -> Word {
        match partition(request).0 {
            b"wait" => Word::Wait,
            b"forget" => Word::Forget,
            b"made" => Word::Made,
            b"edited" => Word::Edited,
            b"late" => Word::Late,
            b"look" => Word::Look,
            b"group" => Word::Group,
            b"ungroup" => Word::Ungroup,
            b"end" => Word::End,
            b"session" => Word::Session,
            b"turn" => Word::Turn,
            _ => Word::Database,
        }
    }
}

impl<'a> Request<'a> {
    /// Reads a request.
    pub fn parse(request: &'a [u8]) -> Result<Request<'a>, Fault> {
        let mut words = request.split(|byte| *byte == b' ').skip(1);
        match Word::of(request) {
            Word::Database => Ok(Request::Database(request)),
            Word::Wait => parse_wait(two(words)?),
            Word::Forget => two(words).map(|[target, parent]| Request::Forget { target, parent }),
            Word::Made => one(words).map(Request::Made),
            Word::Edited => Ok(Request::Edited(words.collect())),
            Word::Late => parse_late(words.next(), words.collect()),
            Word::Look => Ok(Request::Look(words.collect())),
            Word::Group => Ok(Request::Group(words.collect())),
            Word::Ungroup => Ok(Request::Ungroup(words.collect())),
            Word::End => none(words).map(|()| Request::End),
            Word::Session => none(words).map(|()| Request::Session),
            Word::Turn => none(words).map(|()| Request::Turn),
        }
    }
}

/// Says whether a request may be asked without a session.
pub fn needs_no_session(request: &[u8]) -> bool {
    match Word::of(request) {
        Word::Made | Word::Edited | Word::Late | Word::Look | Word::Session | Word::Turn => true,
        Word::Database => is_question(request),
        _ => false,
    }
}

/// Says whether the database changes nothing for a request, or only `//always`.
fn is_question(request: &[u8]) -> bool {
    let (word, rest) = partition(request);
    match word {
        b"why" | b"state" | b"deps" | b"users" => true,
        b"ood" | b"targets" | b"sources" | b"names" => true,
        b"file" => rest.starts_with(&[ALWAYS, b" "].concat()),
        _ => false,
    }
}

/// Says whether the answer to a request of the database may be long.
pub fn may_be_long(request: &[u8]) -> bool {
    matches!(
        partition(request).0,
        b"ood" | b"targets" | b"sources" | b"names" | b"deps" | b"users" | b"why"
    )
}

/// Says whether a request may give a file another stamp.
pub fn is_stamping(request: &[u8]) -> bool {
    matches!(partition(request).0, b"file" | b"gone" | b"done")
}

/// Returns what stands before the first space, and what stands behind it.
pub fn partition(text: &[u8]) -> (&[u8], &[u8]) {
    match text.iter().position(|byte| *byte == b' ') {
        Some(at) => (&text[..at], &text[at + 1..]),
        None => (text, b""),
    }
}

/// Writes content as two hexadecimal digits for each byte; that of no bytes is `-`.
pub fn write_content(content: &[u8], text: &mut Vec<u8>) {
    const DIGITS: &[u8; 16] = b"0123456789abcdef";
    if content.is_empty() {
        text.push(b'-');
    }
    for byte in content {
        text.push(DIGITS[usize::from(byte >> 4)]);
        text.push(DIGITS[usize::from(byte & 15)]);
    }
}

fn parse_wait([target, parent]: [&[u8]; 2]) -> Result<Request<'_>, Fault> {
    if is_name(target) && (parent == TOP_LEVEL || is_name(parent)) {
        return Ok(Request::Wait { target, parent });
    }
    Err(Fault::BadName)
}

fn parse_late<'a>(since: Option<&'a [u8]>, names: Vec<&'a [u8]>) -> Result<Request<'a>, Fault> {
    let digits = since.filter(|word| !word.is_empty() && word.iter().all(u8::is_ascii_digit));
    let text = digits.and_then(|digits| std::str::from_utf8(digits).ok());
    match text {
        Some(text) if !names.is_empty() => Ok(Request::Late {
            since: text.parse().unwrap_or(i128::MAX),
            names,
        }),
        _ => Err(Fault::WrongWords),
    }
}

fn none<'a>(mut words: impl Iterator<Item = &'a [u8]>) -> Result<(), Fault> {
    words.next().map_or(Ok(()), |_| Err(Fault::WrongWords))
}

fn one<'a>(mut words: impl Iterator<Item = &'a [u8]>) -> Result<&'a [u8], Fault> {
    match (words.next(), words.next()) {
        (Some(word), None) => Ok(word),
        _ => Err(Fault::WrongWords),
    }
}

fn two<'a>(mut words: impl Iterator<Item = &'a [u8]>) -> Result<[&'a [u8]; 2], Fault> {
    match (words.next(), words.next(), words.next()) {
        (Some(first), Some(second), None) => Ok([first, second]),
        _ => Err(Fault::WrongWords),
    }
}

#[cfg(test)]
mod tests;
