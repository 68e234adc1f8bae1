//! What depends on a name: `redo-why --users`.

use std::collections::BTreeSet;

use redo_core::Name;
use redo_files::names::{edited_name, is_internal};
use redo_files::paths::shown;
use redo_wire::Call;

use crate::json;
use crate::server::runs::Refusal;
use crate::server::Server;
use crate::store::lines::users_in;

/// The targets that depend on a name by their last builds, as paths, in the order of their names.
struct Users {
    of: Vec<u8>,
    /// Those that are built from it.
    built: Vec<Vec<u8>>,
    /// Those for which it must not exist.
    absent: Vec<Vec<u8>>,
}

impl Server {
    /// What depends on each of these names, with paths from the folder of the call.
    pub(super) fn users(
        &mut self,
        names: &[Name],
        call: &Call,
        is_json: bool,
    ) -> Result<Vec<u8>, Refusal> {
        self.settle_clients();
        let mut text = Vec::new();
        for name in names {
            let users = self.users_of(*name, &call.folder)?;
            text.extend(if is_json { users.json() } else { users.lines() });
        }
        Ok(text)
    }

    fn users_of(&mut self, name: Name, folder: &[u8]) -> Result<Users, Refusal> {
        let text = self.name_text(name);
        let edited = edited_name(&text);
        let (mut built, mut absent) = (BTreeSet::new(), BTreeSet::new());
        // what is built from an edited target has its row on another name
        for one in [&text, &edited] {
            let answer = self.ask_database(&[b"users ", one])?;
            let (changes, created) = users_in(&answer);
            built.extend(changes.into_iter().map(<[u8]>::to_vec));
            absent.extend(created.into_iter().map(<[u8]>::to_vec));
        }
        let paths = |names: BTreeSet<Vec<u8>>| {
            let paths = names.iter().filter(|name| !is_internal(name));
            paths.map(|name| self.path_from(name, folder)).collect()
        };
        Ok(Users {
            built: paths(built),
            absent: paths(absent),
            of: self.path_from(&text, folder),
        })
    }
}

impl Users {
    fn lines(&self) -> Vec<u8> {
        let of = shown(&self.of);
        let line = |parts: [&[u8]; 3]| [&parts.concat()[..], b"\n"].concat();
        if self.built.is_empty() && self.absent.is_empty() {
            return line([b"no target depends on ", &of, b""]);
        }
        let built = self.built.iter().map(|path| shown(path));
        let built = built.map(|path| line([&path, b" is built from ", &of]));
        let absent = self.absent.iter().map(|path| shown(path));
        let absent = absent.map(|path| line([&of, b" must not exist for ", &path]));
        built.chain(absent).flatten().collect()
    }

    fn json(&self) -> Vec<u8> {
        let list = |paths: &[Vec<u8>]| {
            let strings = paths.iter().map(|path| json::string(path));
            strings.collect::<Vec<_>>().join(", ")
        };
        let of = json::string(&self.of);
        let (built, absent) = (list(&self.built), list(&self.absent));
        format!("{{\"name\": {of}, \"built\": [{built}], \"absent\": [{absent}]}}\n").into_bytes()
    }
}
