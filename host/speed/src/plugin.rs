//! The emulator's plugin, compiled when it is wanted: it is a library of the machine itself, not of what it emulates.
use std::path::{Path, PathBuf};
use std::process::Command;
use std::{env, fs, process};

const SOURCE: &str = include_str!("../count.c");

/// A folder with the plugin in it, removed at the end.
#[derive(Debug)]
pub struct Plugin(PathBuf);

impl Plugin {
    pub fn make() -> Result<Plugin, String> {
        let plugin = Plugin(env::temp_dir().join(format!("speed-{}", process::id())));
        let source = plugin.0.join("count.c");
        let failed = |error| format!("{}: {error}", source.display());
        fs::create_dir_all(&plugin.0).map_err(failed)?;
        fs::write(&source, SOURCE).map_err(failed)?;
        compile(&source, &plugin.library())?;
        Ok(plugin)
    }

    pub fn library(&self) -> PathBuf {
        self.0.join("count.so")
    }
}

impl Drop for Plugin {
    fn drop(&mut self) {
        // What cannot be removed is left in the folder for such things.
        let _ = fs::remove_dir_all(&self.0);
    }
}

fn compile(source: &Path, library: &Path) -> Result<(), String> {
    let mut gcc = Command::new("gcc");
    gcc.args(["-O2", "-shared", "-fPIC", "-o"]).arg(library).arg(source);
    match gcc.status() {
        Ok(status) if status.success() => Ok(()),
        Ok(_) => Err("gcc does not compile the emulator's plugin".to_owned()),
        Err(error) => Err(format!("gcc, which makes the emulator's plugin: {error}")),
    }
}
