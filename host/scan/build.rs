//! Lays out the published sources, byte for byte, beside a stand-in for input/buffered.rs, which is not vendored.
//! (`#[path]` cannot be used: `mod str;` of input.rs would then be looked for beside it.)
use std::path::Path;
use std::{env, fs, io};

const SOURCES: [&str; 5] =
    ["char_traits.rs", "input.rs", "input/str.rs", "parser.rs", "scanner.rs"];

const BUFFERED: &str = "\
//! Named by parser.rs, never used.
pub struct BufferedInput<T>(T);
impl<T> BufferedInput<T> {
    pub fn new(_: T) -> Self {
        unimplemented!()
    }
}
impl<T> crate::input::Input for BufferedInput<T> {
    fn lookahead(&mut self, _: usize) { unimplemented!() }
    fn buflen(&self) -> usize { unimplemented!() }
    fn bufmaxlen(&self) -> usize { unimplemented!() }
    fn raw_read_ch(&mut self) -> char { unimplemented!() }
    fn raw_read_non_breakz_ch(&mut self) -> Option<char> { unimplemented!() }
    fn skip(&mut self) { unimplemented!() }
    fn skip_n(&mut self, _: usize) { unimplemented!() }
    fn peek(&self) -> char { unimplemented!() }
    fn peek_nth(&self, _: usize) -> char { unimplemented!() }
    fn peek_opt(&self) -> Option<char> { unimplemented!() }
}
";

fn main() -> io::Result<()> {
    let vendor = Path::new("../vendor");
    let out = env::var_os("OUT_DIR").expect("cargo sets OUT_DIR");
    let tree = Path::new(&out).join("tree");
    fs::create_dir_all(tree.join("input"))?;
    for source in SOURCES {
        println!("cargo:rerun-if-changed={}", vendor.join(source).display());
        fs::write(tree.join(source), fs::read(vendor.join(source))?)?;
    }
    fs::write(tree.join("input/buffered.rs"), BUFFERED)?;
    let modules = ["mod char_traits;", "pub mod input;", "pub mod parser;", "pub mod scanner;"];
    let allow = "#[allow(dead_code, unused_imports, unexpected_cfgs, clippy::all)]";
    let lines: String = modules.iter().map(|module| format!("{allow}\n{module}\n")).collect();
    fs::write(tree.join("tree.rs"), lines)
}
