//! What redo sees of files.
//!
//! Paths and names are bytes, and no name makes a function panic. The modules:
//!
//! | Module | What it is about |
//! |---|---|
//! | [`system`] | the calls of the kernel by an open folder; all `unsafe` of the crate |
//! | [`paths`] | paths as text: parts, parents, the way from one to another |
//! | [`error`] | what can be wrong with a path, a name or a file, as it is said to people |
//! | [`links`] | symbolic links on the way |
//! | [`names`] | the name of a path in the database, and back |
//! | [`trust`] | whose trees and files may be used |
//! | [`private`] | the files of `.redo`, opened so that no link is followed |
//! | [`top`] | the folder that is the top of the tree |
//! | [`rules`] | which `.do` file builds a target |
//! | [`stamp`], [`key`], [`look`] | what is in a file, and what `lstat` says of it |
//! | [`contents`], [`stored`], [`clock`] | stamps that are kept while `lstat` says the same |
//! | [`shares`] | a search that threads share |
//! | [`sha256`] | a digest of bytes |
//! | [`expected`] | the files of a tree, of which a look finds those that changed |
//!
//! What can't be read or isn't there is no error where redo only wants to know how it is: it has
//! no stamp, no key, or a digest that says so.
//!
//! ```no_run
//! use redo_files::clock::Clock;
//! use redo_files::contents::Contents;
//! use redo_files::names::{name_of, unescape};
//! use redo_files::top::{boot, find_top};
//! use redo_files::trust::Trust;
//! use redo_files::Folder;
//!
//! # fn main() -> Result<(), Box<dyn std::error::Error>> {
//! let top = find_top(b".", &Trust::of_process())?.ok_or("no tree here")?;
//! let clock = Clock::new(b".redo/server/lock");
//! let mut contents = Contents::new(Folder::open(&top)?, clock, &boot());
//! contents.begin_look();
//! let name = name_of(b"a file.c", &top)?; // in the top folder: a%20file.c
//! if let Some(stamp) = contents.stamp(&unescape(&name)?) {
//!     println!("{stamp}");
//! }
//! # Ok(())
//! # }
//! ```

#![deny(unsafe_code)]
#![warn(missing_docs)]

pub mod clock;
pub mod contents;
pub mod error;
pub mod expected;
pub mod key;
pub mod links;
pub mod look;
pub mod names;
pub mod paths;
pub mod private;
pub mod rules;
pub mod sha256;
pub mod shares;
pub mod stamp;
pub mod stored;
pub mod system;
pub mod top;
pub mod trust;

pub use error::FileError;
pub use system::Folder;

#[cfg(test)]
mod scratch;
