//! Whose trees and files may be used.
//!
//! A `.do` file is a program of whoever wrote it, and whoever can put files into `.redo` can have
//! redo do what they like. So these belong to the caller, to root, or to the owner of a tree that
//! is trusted.

use std::env;
use std::os::unix::ffi::OsStringExt;
use std::os::unix::net::UnixStream;

use crate::error::{Distrust, FileError, Obstacle};
use crate::links;
use crate::paths;
use crate::system::{self, Kind, Status};
use crate::top::HOME;

/// The rights of a folder like /tmp: all may make files, and nobody may remove those of others.
const SHARED: u32 = 0o1002;
const ROOT: u32 = 0;

/// Whom the caller trusts.
#[derive(Clone, Debug, PartialEq, Eq)]
pub struct Trust {
    /// The effective user.
    pub caller: u32,
    /// The user who called sudo, if the caller is root.
    pub sudo_user: Option<u32>,
    /// The tops of REDO_TRUST.
    pub tops: TrustedTops,
}

/// Which trees of others are trusted.
#[derive(Clone, Debug, PartialEq, Eq)]
pub enum TrustedTops {
    /// All of them.
    All,
    /// These, each absolute and without symbolic links.
    These(Vec<Vec<u8>>),
}

impl Trust {
    /// Returns whom this process trusts, by its user, SUDO_UID and REDO_TRUST.
    pub fn of_process() -> Trust {
        let caller = system::caller();
        let sudo_user = variable("SUDO_UID");
        Trust {
            caller,
            sudo_user: if caller == ROOT {
                user_number(&sudo_user)
            } else {
                None
            },
            tops: TrustedTops::parse(&variable("REDO_TRUST")),
        }
    }

    /// Fails if a tree isn't the caller's, and nobody said that it is trusted. `home` is what is
    /// known of its `.redo`, if that is there.
    pub fn check_tree(&self, top: &[u8], home: Option<&Status>) -> Result<(), FileError> {
        let folder = system::stat(top).map_err(|cause| FileError::system(top, cause))?;
        if folder.mode & SHARED == SHARED {
            return Err(Distrust::SharedTop { top: top.to_vec() }.into());
        }
        let home_path = paths::join(top, HOME);
        if let Some(obstacle) = home.and_then(obstacle_of_folder) {
            return Err(Distrust::Misplaced {
                path: home_path,
                obstacle,
            }
            .into());
        }
        let foreign = match home {
            Some(home) if !self.is_own(home.owner) => Some((home_path, home.owner)),
            _ if folder.owner != ROOT && !self.is_own(folder.owner) => {
                Some((top.to_vec(), folder.owner))
            }
            _ => None,
        };
        match foreign {
            Some((path, owner)) if !self.tops.has(top) => Err(Distrust::ForeignTree {
                path,
                top: top.to_vec(),
                owner,
            }
            .into()),
            _ => Ok(()),
        }
    }

    /// Fails if a folder above a top, which has this `.redo`, is the top of a tree as well.
    pub fn check_above(&self, top: &[u8], above: &[u8], home: &Status) -> Result<(), FileError> {
        match self.check_tree(above, Some(home)) {
            Err(FileError::Untrusted(_)) => Ok(()),
            Err(other) => Err(other),
            Ok(()) => Err(FileError::TwoTrees {
                inner: top.to_vec(),
                outer: above.to_vec(),
            }),
        }
    }

    /// Says whether files and processes of a user may have a say in a tree that was checked.
    pub fn is_trusted(&self, user: u32, top: &[u8]) -> Result<bool, FileError> {
        if user == ROOT || self.is_own(user) {
            return Ok(true);
        }
        let folder = system::stat(top).map_err(|cause| FileError::system(top, cause))?;
        Ok(folder.owner == user)
    }

    /// Fails if a file of a tree doesn't belong to one who is trusted.
    pub fn check_owner(&self, path: &[u8], owner: u32, top: &[u8]) -> Result<(), FileError> {
        if self.is_trusted(owner, top)? {
            return Ok(());
        }
        Err(Distrust::ForeignFile {
            path: path.to_vec(),
            owner,
        }
        .into())
    }

    /// Fails if the other end of a socket at a path isn't one who is trusted.
    pub fn check_peer(
        &self,
        connection: &UnixStream,
        path: &[u8],
        top: &[u8],
    ) -> Result<(), FileError> {
        let user = system::peer(connection).map_err(|cause| FileError::system(path, cause))?;
        if self.is_trusted(user, top)? {
            return Ok(());
        }
        Err(Distrust::ForeignPeer {
            path: path.to_vec(),
            user,
        }
        .into())
    }

    /// Says whether the caller is root in a tree of somebody else, given the owner of its top.
    pub fn is_root_at(&self, owner: u32) -> bool {
        self.caller == ROOT && owner != ROOT
    }

    /// Says whether trees of a user are the caller's.
    fn is_own(&self, user: u32) -> bool {
        user == self.caller || self.sudo_user == Some(user)
    }
}

impl TrustedTops {
    /// Reads the value of REDO_TRUST: paths with `:` between them, of which those that aren't
    /// absolute count for nothing, or `*` for all.
    pub fn parse(value: &[u8]) -> TrustedTops {
        let mut words = value.split(|byte| *byte == b':');
        if words.clone().any(|word| word == b"*") {
            return TrustedTops::All;
        }
        let tops = words.by_ref().filter(|word| paths::is_absolute(word));
        TrustedTops::These(tops.filter_map(|top| links::resolved(top).ok()).collect())
    }

    fn has(&self, top: &[u8]) -> bool {
        match self {
            TrustedTops::All => true,
            TrustedTops::These(tops) => tops.iter().any(|one| one == top),
        }
    }
}

/// Returns what is in the place of a folder, if it is none.
pub fn obstacle_of_folder(status: &Status) -> Option<Obstacle> {
    match status.kind() {
        Kind::Folder => None,
        Kind::Link => Some(Obstacle::Link),
        _ => Some(Obstacle::NoFolder),
    }
}

fn variable(name: &str) -> Vec<u8> {
    env::var_os(name)
        .map(OsStringExt::into_vec)
        .unwrap_or_default()
}

/// Reads the number of a user: decimal digits, and nothing else.
fn user_number(text: &[u8]) -> Option<u32> {
    let digits = text.iter().all(u8::is_ascii_digit);
    std::str::from_utf8(text)
        .ok()
        .filter(|_| digits)?
        .parse()
        .ok()
}

#[cfg(test)]
mod tests {
    use super::*;
    use crate::scratch::Scratch;
    use std::fs::{set_permissions, Permissions};
    use std::os::unix::fs::PermissionsExt;

    /// A user who owns nothing.
    const STRANGER: u32 = 3_999_999_998;

    fn trust(caller: u32) -> Trust {
        Trust {
            caller,
            sudo_user: None,
            tops: TrustedTops::These(Vec::new()),
        }
    }

    fn distrust(checked: Result<(), FileError>) -> Option<Distrust> {
        match checked {
            Ok(()) => None,
            Err(FileError::Untrusted(distrust)) => Some(distrust),
            Err(other) => panic!("{other}"),
        }
    }

    /// A tree of the caller, and what is known of its `.redo`.
    fn tree() -> (Scratch, Status) {
        let scratch = Scratch::new();
        scratch.folder(".redo");
        let home = system::lstat(&scratch.path(".redo")).unwrap();
        (scratch, home)
    }

    #[test]
    fn a_tree_of_the_caller_is_trusted_and_one_of_another_is_not() {
        let (scratch, home) = tree();
        let top = scratch.top();
        assert_eq!(
            distrust(trust(home.owner).check_tree(&top, Some(&home))),
            None
        );
        let found = distrust(trust(STRANGER).check_tree(&top, Some(&home)));
        let path = scratch.path(".redo");
        assert_eq!(
            found,
            Some(Distrust::ForeignTree {
                path,
                top,
                owner: home.owner
            })
        );
    }

    #[test]
    fn a_tree_that_is_named_is_trusted() {
        let (scratch, home) = tree();
        let top = scratch.top();
        let other = scratch.path("other");
        scratch.link(".", "link");
        for (value, is_trusted) in [
            (b"*".to_vec(), true),
            ([b"relative:", top.as_slice()].concat(), true),
            (scratch.path("link"), true),
            (other, false),
            (b"".to_vec(), false),
        ] {
            let tops = TrustedTops::parse(&value);
            let trust = Trust {
                tops,
                ..trust(STRANGER)
            };
            assert_eq!(
                distrust(trust.check_tree(&top, Some(&home))).is_none(),
                is_trusted
            );
        }
    }

    #[test]
    fn a_folder_in_which_all_may_make_files_is_no_top() {
        let (scratch, home) = tree();
        let top = scratch.top();
        set_permissions(scratch.at("."), Permissions::from_mode(0o1777)).unwrap();
        let all = Trust {
            tops: TrustedTops::All,
            ..trust(home.owner)
        };
        let wanted = Distrust::SharedTop { top: top.clone() };
        assert_eq!(distrust(all.check_tree(&top, Some(&home))), Some(wanted));
        assert!(all.check_above(b"/below", &top, &home).is_ok());
    }

    #[test]
    fn a_second_tree_above_is_refused_if_it_is_trusted() {
        let (scratch, home) = tree();
        let top = scratch.top();
        let error = trust(home.owner)
            .check_above(b"/below", &top, &home)
            .unwrap_err();
        assert!(matches!(error, FileError::TwoTrees { outer, .. } if outer == top));
        assert!(trust(STRANGER).check_above(b"/below", &top, &home).is_ok());
    }

    #[test]
    fn users_of_a_tree_are_the_caller_root_and_its_owner() {
        let (scratch, home) = tree();
        let top = scratch.top();
        let trust = trust(STRANGER);
        for user in [STRANGER, 0, home.owner] {
            assert!(trust.is_trusted(user, &top).unwrap());
        }
        let owner = STRANGER - 1;
        assert!(!trust.is_trusted(owner, &top).unwrap());
        let found = distrust(trust.check_owner(b"/file", owner, &top));
        assert_eq!(
            found,
            Some(Distrust::ForeignFile {
                path: b"/file".to_vec(),
                owner
            })
        );
        let by_sudo = Trust {
            sudo_user: Some(owner),
            ..trust
        };
        assert!(by_sudo.is_trusted(owner, &top).unwrap());
    }

    #[test]
    fn the_other_end_of_a_socket_is_known() {
        let (scratch, home) = tree();
        let (connection, _other) = UnixStream::pair().unwrap();
        let (top, path) = (scratch.top(), b"/socket");
        assert!(trust(home.owner)
            .check_peer(&connection, path, &top)
            .is_ok());
        assert_eq!(system::peer(&connection).unwrap(), system::caller());
    }

    #[test]
    fn the_number_of_a_user_has_digits_alone() {
        for (text, wanted) in [
            (b"1234".as_slice(), Some(1234)),
            (b"", None),
            (b"+1", None),
            (b"1x", None),
            (b"99999999999", None),
        ] {
            assert_eq!(user_number(text), wanted);
        }
    }
}
