//! The server of a tree: one database, one Unix socket, and all who ask.
//!
//! A client is greeted by `session N`, at once or when a session is free. One whose first line is
//! `0 question` has no session, and is served at once: its greeting, or a second one if it was
//! greeted before that line came, is `session 0`. Then come lines `ID REQUEST`, each answered by
//! `ID ANSWER`; ID is a number of the client's, in decimal digits. These requests are the server's:
//!
//! | Request | Answer |
//! |---|---|
//! | `wait T P` | `granted G` as soon as the lock of T is free; `ring N..`; `forgotten` |
//! | `forget T P` | `ok`: that wait is over; `fault not-waiting` |
//! | `made N` | `made STAMP` |
//! | `edited N..`, `edited` | `edited N..` |
//! | `late TIME N..` | `late N..` |
//! | `look N..`, `look` | `ok K` |
//! | `group G`, `group G BEGAN NAMESPACE SOCKET` | `ok`; `fault bad-group` |
//! | `ungroup G` | `ok`; `fault bad-group` |
//! | `end` | `ok` |
//! | `session` | `session N`; `busy` if none is free |
//! | `turn` | `session N` as soon as one is free; until then no line is answered |
//!
//! - `wait` is for the build of P, which is a name or `-`. A ring is answered if P is needed for T.
//! - `made` has the stamp that the last `done` of N gave; `-` if there was none, or no file.
//! - `edited` has those of the targets, or without a name all, whose file no build left.
//! - `late` has the names that are no targets, and whose file changed at TIME or later: a number of
//!   nanoseconds since 1970.
//! - `look` finds K files that differ from what the database knew, and reports them to it. Without
//!   a name it looks at all that are known and aren't building.
//! - `group` has a process group killed when the connection ends, and `ungroup` takes that back.
//!   BEGAN is when its leader began, in ticks of the machine; NAMESPACE the number of its PID
//!   namespace; SOCKET the value of REDO_SOCKET in its environment, in hexadecimal digits. What
//!   isn't known is `-`.
//!
//! All others are those of the database. Without a session, questions alone are answered, and
//! `file //always STAMP`; all else is `fault no-session`. Other faults are `bad-id`, `bad-name`,
//! `wrong-words` and `memory`. If the server can't go on, each client is told `0 failed TEXT`.
//!
//! A client whose first byte is NUL is a program that speaks the frames of `redo-wire`. A call that
//! builds is a run of the machine of `redo-core`, in a session of its own, and what scripts ask are
//! its requests; all else are questions. While the machine decides, nobody else talks to the
//! database: what others have asked is answered first. Then the machine is told which names they have
//! changed, and which they have unlocked.
//!
//! One thread does all; only a look at many files uses more. The modules:
//!
//! | Module | What it is about |
//! |---|---|
//! | [`system`] | the calls of the kernel that std doesn't have; all `unsafe` of the crate |
//! | [`wire`] | the lines of a client, and what they ask for |
//! | [`outbox`] | what is to be written, and can't be yet |
//! | [`timers`] | what is done at a moment |
//! | [`sessions`], [`waits`] | who has which session, and who waits for which lock |
//! | [`conversation`] | a command goes to the database, and its reply comes back |
//! | [`names`], [`known`] | what the database knows of the files, and how they differ |
//! | [`interned`], [`sha1`] | numbers of stamps, and of contents by their digests |
//! | [`others`] | what the machine is to know of what text clients have done |
//! | [`naming`] | the names of the paths of a call |
//! | [`marks`], [`recovering`] | whether the log is whole, and what to do if it isn't |
//! | [`processes`], [`groups`] | process groups that end with a connection |
//! | [`program`], [`live`] | the process redodb-live |
//! | [`store`] | the database as the machine uses it |
//! | [`taking`] | which process is the server |
//! | [`calls`] | the runs of programs, and what their scripts ask |
//! | [`client`], [`server`] | a client, and the server of all |
//! | [`json`], [`random`] | strings of JSON, and numbers that nobody knows before |
//! | [`command`] | the words of the call |

pub mod calls;
pub mod client;
pub mod command;
pub mod conversation;
pub mod error;
pub mod groups;
pub mod interned;
pub mod json;
pub mod known;
pub mod live;
pub mod marks;
pub mod names;
pub mod naming;
pub mod others;
pub mod outbox;
pub mod processes;
pub mod program;
pub mod random;
pub mod recovering;
pub mod server;
pub mod sessions;
pub mod sha1;
pub mod steps;
pub mod store;
pub mod system;
pub mod taking;
pub mod timers;
pub mod waits;
pub mod wire;

#[cfg(test)]
mod scratch;
