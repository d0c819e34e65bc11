//! Where the machine is not x86-64: starting a program of this workspace from another one, and how much a test takes.
#![forbid(unsafe_code)]

pub mod sample;

use std::env;
use std::ffi::{OsStr, OsString};
use std::process::Command;

/// What runs programs of this workspace, where the machine itself does not; `tools/machine.sh` sets it.
pub fn emulator() -> Option<OsString> {
    env::var_os("SAPHYR_EMULATOR")
}

/// A program as a command, by the emulator if there is one: the system may not know how to start it.
pub fn command(program: impl AsRef<OsStr>) -> Command {
    let Some(emulator) = emulator() else { return Command::new(program) };
    let mut command = Command::new(emulator);
    command.arg(program);
    command
}
