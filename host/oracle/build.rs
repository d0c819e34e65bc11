//! Makes the noted copy of parser.rs: three notes where an act wants a place, and an appended block of accessors. Every
//! added line ends in `// added`, so that a test can take them out again and compare with the vendored file.
use std::path::Path;
use std::{env, fs, io};

/// The line that an act wants a place in, and the note that goes before it.
const NOTES: [(&str, &str); 3] = [
    ("        self.states.push(state);\n", "        self.scanner.note_state(self.states.len());"),
    (
        "        self.anchors.insert(name, new_id);\n",
        "        self.scanner.note_anchor(&self.anchors, &name);",
    ),
    (
        "            self.skip();\n        }\n        self.tags.extend(tags);\n",
        "            self.scanner.note_handles(&self.tags, &tags);",
    ),
];

const ACCESSORS: [&str; 4] = [
    "impl<'input, T: Input> Parser<'input, T> {",
    "    pub fn forget(&mut self) { self.anchors.clear(); }",
    "    pub fn notes(&self) -> crate::scanner::Notes { self.scanner.notes() }",
    "}",
];

fn main() -> io::Result<()> {
    let source = Path::new("../vendor/parser.rs");
    println!("cargo:rerun-if-changed={}", source.display());
    let mut text = fs::read_to_string(source)?;
    for (act, note) in NOTES {
        assert_eq!(text.matches(act).count(), 1, "parser.rs has this act once: {act}");
        text = text.replace(act, &format!("{}{act}", added(note)));
    }
    text.extend(ACCESSORS.map(added));
    let out = env::var_os("OUT_DIR").expect("cargo sets OUT_DIR");
    fs::write(Path::new(&out).join("parser_noted.rs"), text)?;
    let allow = "#[allow(dead_code, unused_imports, unexpected_cfgs, clippy::all)]";
    fs::write(Path::new(&out).join("noted.rs"), format!("{allow}\nmod parser_noted;\n"))
}

fn added(line: &str) -> String {
    format!("{line} // added\n")
}
