//! The programs.

use crate::error::WireError;
use crate::field::{Reader, Writer};

/// A program of redo.
#[derive(Clone, Copy, Debug, PartialEq, Eq, Hash)]
pub enum Program {
    /// `redo`
    Redo,
    /// `redo-ifchange`
    IfChange,
    /// `redo-ifcreate`
    IfCreate,
    /// `redo-always`
    Always,
    /// `redo-stamp`
    Stamp,
    /// `redo-ood`
    Ood,
    /// `redo-targets`
    Targets,
    /// `redo-sources`
    Sources,
    /// `redo-why`
    Why,
    /// `redo-whichdo`
    WhichDo,
    /// `redo-log`
    Log,
}

impl Program {
    /// All of them, in the order of their numbers on the wire, which are their places here.
    pub const ALL: [Program; 11] = [
        Program::Redo,
        Program::IfChange,
        Program::IfCreate,
        Program::Always,
        Program::Stamp,
        Program::Ood,
        Program::Targets,
        Program::Sources,
        Program::Why,
        Program::WhichDo,
        Program::Log,
    ];

    /// Returns what it is called.
    pub fn name(self) -> &'static str {
        match self {
            Program::Redo => "redo",
            Program::IfChange => "redo-ifchange",
            Program::IfCreate => "redo-ifcreate",
            Program::Always => "redo-always",
            Program::Stamp => "redo-stamp",
            Program::Ood => "redo-ood",
            Program::Targets => "redo-targets",
            Program::Sources => "redo-sources",
            Program::Why => "redo-why",
            Program::WhichDo => "redo-whichdo",
            Program::Log => "redo-log",
        }
    }

    /// Returns the program that is called so.
    pub fn named(name: &[u8]) -> Option<Program> {
        let mut all = Program::ALL.into_iter();
        all.find(|program| program.name().as_bytes() == name)
    }

    /// Says whether scripts call it, to tell about their targets.
    pub fn is_for_scripts(self) -> bool {
        use Program::{Always, IfChange, IfCreate, Redo, Stamp};
        matches!(self, Redo | IfChange | IfCreate | Always | Stamp)
    }

    /// Says whether it may build, if a user calls it.
    pub fn is_run(self) -> bool {
        matches!(self, Program::Redo | Program::IfChange)
    }

    pub(crate) fn write(self, writer: &mut Writer<'_>) {
        let place = Program::ALL.iter().position(|program| *program == self);
        writer.byte(
            place
                .and_then(|place| u8::try_from(place).ok())
                .unwrap_or(u8::MAX),
        );
    }

    pub(crate) fn read(reader: &mut Reader<'_>) -> Result<Program, WireError> {
        let number = reader.byte()?;
        let program = Program::ALL.get(usize::from(number)).copied();
        program.ok_or(WireError::NoProgram(number))
    }
}
