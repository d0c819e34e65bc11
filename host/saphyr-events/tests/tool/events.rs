//! `saphyr-events events`, by exact output. Expected lines are written by hand, from document 01 and the notation of the
//! YAML test suite.
use crate::call::{tool, tool_fed, Given};

fn lines(lines: &[&str]) -> String {
    lines.iter().map(|line| format!("{line}\n")).collect()
}

/// The lines for a text, which must be accepted.
fn accepted(options: &[&str], yaml: &str) -> String {
    let given = tool_fed(&[&["events"], options, &["-"]].concat(), yaml.as_bytes());
    assert_eq!((given.code, given.err.as_str()), (0, ""), "{yaml}");
    given.out
}

#[test]
fn every_kind_of_event_has_its_line() {
    let yaml = "- {a: b}\n- &x c\n- *x\n---\nd\n";
    let expected = [
        "+STR",
        "+DOC",
        "+SEQ",
        "+MAP",
        "=VAL :a",
        "=VAL :b",
        "-MAP",
        "=VAL &1 :c",
        "=ALI *1",
        "-SEQ",
        "-DOC",
        "+DOC ---",
        "=VAL :d",
        "-DOC",
        "-STR",
    ];
    assert_eq!(accepted(&[], yaml), lines(&expected));
}

#[test]
fn every_style_has_its_mark() {
    let yaml = "- plain\n- 'single'\n- \"double\"\n- |\n  literal\n- >\n  folded\n-\n";
    let expected = [
        "+STR",
        "+DOC",
        "+SEQ",
        "=VAL :plain",
        "=VAL 'single",
        "=VAL \"double",
        "=VAL |literal\\n",
        "=VAL >folded\\n",
        "=VAL :",
        "-SEQ",
        "-DOC",
        "-STR",
    ];
    assert_eq!(accepted(&[], yaml), lines(&expected));
}

#[test]
fn control_characters_and_backslashes_are_escaped() {
    let yaml = r#""\\ \n \r \t \b \0 \e \x7f \N \L \P é 日 '""#;
    let value = r#"=VAL "\\ \n \r \t \b \0 \x1b \x7f \x85 \u2028 \u2029 é 日 '"#;
    assert_eq!(accepted(&[], yaml), lines(&["+STR", "+DOC", value, "-DOC", "-STR"]));
}

#[test]
fn anchors_and_tags_stand_before_the_value() {
    let yaml =
        "%TAG !e! tag:e,1:\n--- !!map &m\nk: !e!t &v x\nl: !local [y]\nn: ! z\no: !<tag:w> w\n";
    let expected = [
        "+STR",
        "+DOC ---",
        "+MAP &1 <tag:yaml.org,2002:map>",
        "=VAL :k",
        "=VAL &2 <tag:e,1:t> :x",
        "=VAL :l",
        "+SEQ <!local>",
        "=VAL :y",
        "-SEQ",
        "=VAL :n",
        "=VAL <!> :z",
        "=VAL :o",
        "=VAL <tag:w> :w",
        "-MAP",
        "-DOC",
        "-STR",
    ];
    assert_eq!(accepted(&[], yaml), lines(&expected));
}

/// A tag may hold a line's end, escaped as %0A: it stays in its line.
#[test]
fn a_tag_is_escaped_too() {
    let given = accepted(&[], "!a%0Ab c\n");
    assert_eq!(given, lines(&["+STR", "+DOC", "=VAL <!a\\nb> :c", "-DOC", "-STR"]));
}

#[test]
fn spans_are_lines_and_columns_from_1() {
    let expected = [
        "1:1-1:1 +STR",
        "1:1-1:1 +DOC",
        "1:1-1:1 +MAP",
        "1:1-1:2 =VAL :é",
        "1:4-1:8 =VAL &1 :b",
        "2:1-2:2 =VAL :c",
        "2:2-2:2 =VAL :",
        "3:1-3:1 -MAP",
        "3:1-3:1 -DOC",
        "3:1-3:1 -STR",
    ];
    for yaml in ["é: &x b\nc:\n", "é: &x b\r\nc:\r\n", "\u{feff}é: &x b\nc:\n"] {
        assert_eq!(accepted(&["--spans"], yaml), lines(&expected), "{yaml:?}");
    }
}

#[test]
fn json_is_an_object_a_line() {
    let expected = [
        r#"{"event":"StreamStart"}"#,
        r#"{"event":"DocumentStart","explicit":true}"#,
        r#"{"event":"MappingStart","anchor":1,"tag":"tag:yaml.org,2002:map"}"#,
        r#"{"event":"Scalar","style":"double","value":"\"\\\n\t\r\u0007\u001b\u0085\u2028\u2029é"}"#,
        r#"{"event":"SequenceStart"}"#,
        r#"{"event":"Alias","anchor":1}"#,
        r#"{"event":"Scalar","anchor":2,"tag":"!t","style":"plain","value":""}"#,
        r#"{"event":"SequenceEnd"}"#,
        r#"{"event":"MappingEnd"}"#,
        r#"{"event":"DocumentEnd"}"#,
        r#"{"event":"StreamEnd"}"#,
    ];
    let yaml = "--- !!map &a\n\"\\\"\\\\\\n\\t\\r\\a\\e\\N\\L\\P\u{e9}\": [*a , !t &b ]\n";
    assert_eq!(accepted(&["--json"], yaml), lines(&expected));
}

#[test]
fn json_has_spans_where_they_are_asked_for() {
    let at = |from: &str, to: &str| {
        let spot = |spot: &str| spot.replace(':', ",\"column\":");
        format!(",\"start\":{{\"line\":{}}},\"end\":{{\"line\":{}}}}}", spot(from), spot(to))
    };
    let expected = [
        format!(r#"{{"event":"StreamStart"{}"#, at("1:1", "1:1")),
        format!(r#"{{"event":"DocumentStart","explicit":false{}"#, at("1:1", "1:2")),
        format!(r#"{{"event":"Scalar","style":"plain","value":"a"{}"#, at("1:1", "1:2")),
        format!(r#"{{"event":"DocumentEnd"{}"#, at("2:1", "2:1")),
        format!(r#"{{"event":"StreamEnd"{}"#, at("2:1", "2:1")),
    ];
    let expected: Vec<&str> = expected.iter().map(String::as_str).collect();
    assert_eq!(accepted(&["--json", "--spans"], "a\n"), lines(&expected));
}

#[test]
fn tags_are_kept_where_that_is_asked_for() {
    let yaml = "%TAG !p! tag:p:\n--- !p!a x\n--- !p!b y\n";
    let kept = [
        "+STR",
        "+DOC ---",
        "=VAL <tag:p:a> :x",
        "-DOC",
        "+DOC ---",
        "=VAL <tag:p:b> :y",
        "-DOC",
        "-STR",
    ];
    assert_eq!(accepted(&["--keep-tags"], yaml), lines(&kept));
    let refusal =
        "standard input:3:5: refused by 13: a tag whose handle no %TAG directive declares\n    \
        --- !p!b y\n        ^\n";
    assert_eq!(
        tool_fed(&["events", "-"], yaml.as_bytes()),
        Given::new(1, &lines(&kept[..5]), refusal)
    );
}

const STAGES: [&str; 30] = [
    "+STR",
    "+DOC",
    "+MAP",
    "=VAL :stage",
    "=VAL :collect",
    "=VAL :source",
    "=VAL :records.log",
    "-MAP",
    "-DOC",
    "+DOC ---",
    "+MAP",
    "=VAL :stage",
    "=VAL :statistics",
    "=VAL :replace",
    "+SEQ &1",
    "+MAP",
    "=VAL :field",
    "=VAL :patient",
    "=VAL :find",
    "=VAL \"[a-z]",
    "=VAL :by",
    "=VAL :_",
    "-MAP",
    "-SEQ",
    "-MAP",
    "-DOC",
    "+DOC ---",
    "+MAP",
    "=VAL :stage",
    "=VAL :archive",
];

/// The alias of the last document names an anchor of the one before.
#[test]
fn the_pipeline_is_refused_unless_anchors_are_kept() {
    let begun = lines(&STAGES) + "=VAL :replace\n";
    let refusal = "examples/pipeline.yaml:11:10: refused by 7: an alias with no such anchor\n    \
        replace: *names\n             ^\n  \
        &names at examples/pipeline.yaml:7:10 belongs to an earlier document; --keep-anchors would take it\n";
    let refused = Given::new(1, &begun, refusal);
    assert_eq!(tool(&["events", "examples/pipeline.yaml"]), refused);
    assert_eq!(tool(&["events", "--forget", "examples/pipeline.yaml"]), refused);
    let end = lines(&["=ALI *1", "=VAL :target", "=VAL :records.archive", "-MAP", "-DOC", "-STR"]);
    let taken = Given::new(0, &(begun + &end), "");
    assert_eq!(tool(&["events", "examples/pipeline.yaml", "--keep-anchors"]), taken);
}

#[test]
fn the_repaired_pipeline_is_accepted_either_way() {
    let mut expected = STAGES.to_vec();
    expected.splice(24..24, ["=VAL :check", "=ALI *1"]);
    expected.extend(["=VAL :replace", "+SEQ &2", "-SEQ", "=VAL :check", "=ALI *2"]);
    expected.extend(["=VAL :target", "=VAL :records.archive", "-MAP", "-DOC", "-STR"]);
    let accepted = Given::new(0, &lines(&expected), "");
    for option in ["--forget", "--keep-anchors"] {
        assert_eq!(tool(&["events", option, "examples/pipeline-repaired.yaml"]), accepted);
    }
}
