//! YAML files, scanned by the real scanner.
use records::{Case, Settings};
use scan::scan;

macro_rules! files {
    ($($name:literal)*) => {
        [$(($name, include_str!(concat!("../../yaml/", $name, ".yaml")))),*]
    };
}

/// The files of `yaml/` by name, with what they hold.
pub const FILES: [(&str, &str); 51] = files! {
    "01-compose"
    "02-docs"
    "03-keys"
    "04-flow"
    "05-pipeline"
    "06-empty"
    "07-bom"
    "08-props"
    "10-pipeline-stages"
    "11-pipeline-matrix"
    "12-manifest"
    "20-tags-kept"
    "21-tags-again"
    "22-house-prefix"
    "23-version-twice"
    "24-handle-twice"
    "25-reserved"
    "26-directive-inside"
    "27-directive-no-start"
    "28-undeclared"
    "29-undeclared-after-anchor"
    "30-empty-documents"
    "31-ends"
    "32-marks-between"
    "33-mark-inside"
    "34-alias-across"
    "35-name-again"
    "36-only-anchor"
    "37-only-tag"
    "38-anchors-only"
    "39-flow-keys"
    "40-single-pairs"
    "41-bracket-too-many"
    "42-empty-entry"
    "43-trailing-commas"
    "44-implicit-pair"
    "45-open-mapping"
    "46-wrong-bracket"
    "47-no-indent"
    "48-sequence-key"
    "49-two-values"
    "50-anchor-alias"
    "51-letters"
    "52-styles"
    "53-tag-forms"
    "54-comment"
    "90-bad-open"
    "91-bad-mix"
    "92-key"
    "93-key-value"
    "94-noanchor"
};

/// Each file with all four settings.
pub fn real() -> impl Iterator<Item = Case> {
    FILES.into_iter().flat_map(|(_, yaml)| {
        let scanned = scan(yaml);
        let case = move |settings| Case::roomy(&scanned.list, scanned.text.as_bytes(), settings);
        Settings::ALL.map(case)
    })
}
