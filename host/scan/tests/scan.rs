//! Token lists of the real scanner.
use records::kinds::{token_kind, ANCHOR, SCALAR};
use scan::{scan, scan_first};

fn kinds(yaml: &str) -> String {
    let list = scan(yaml).list;
    let names: Vec<&str> = list.iter().map(|token| token_kind(token.kind).short).collect();
    names.join(" ")
}

/// Not list e of document 01: the scanner puts a flow mapping around an implicit pair. Only an explicit `?` reaches the
/// states of the single pair.
#[test]
fn an_implicit_pair_is_no_single_pair() {
    assert_eq!(kinds("[a: b]"), "SS FSS FMS KEY SCA VAL SCA FME FSE SE");
    assert_eq!(kinds("[? a : b]"), "SS FSS KEY SCA VAL SCA FSE SE");
}

#[test]
fn every_kind_has_its_number() {
    let yaml = "%YAML 1.2\n%TAG !e! t:\n%FOO\n---\n- &a !e!x v\n- *a\n- {k: [w, z]}\n...\n\u{feff}---\n? q\n: r\n";
    assert_eq!(
        kinds(yaml),
        "SS VD TD RD DS BSS ENT ANC TAG SCA ENT ALI ENT FMS KEY SCA VAL FSS SCA FEN SCA FSE FME BE DE BOM DS \
         BMS KEY SCA VAL SCA BE SE"
    );
}

#[test]
fn styles_are_those_of_document_01() {
    let list = scan("- plain\n- 'single'\n- \"double\"\n- |\n literal\n- >\n folded\n").list;
    let scalars = list.iter().filter(|token| token.kind == SCALAR);
    assert_eq!(scalars.map(|token| token.style).collect::<Vec<_>>(), [0, 1, 2, 3, 4]);
}

/// A text that stands in the input is a range of it; a text that the scanner made is appended.
#[test]
fn texts_are_ranges_of_the_input_or_appended() {
    let yaml = "- \u{e9}\n- &name plain\n- \"a\\tb\"\n";
    let scanned = scan(yaml);
    let texts: Vec<(&str, bool)> = scanned
        .list
        .iter()
        .filter(|token| [ANCHOR, SCALAR].contains(&token.kind))
        .map(|token| {
            let slice = token.a.cut(scanned.text.as_bytes()).expect("inside the text");
            let slice = std::str::from_utf8(slice).expect("whole characters");
            (slice, (token.a.to as usize) <= yaml.len())
        })
        .collect();
    assert!(scanned.text.starts_with(yaml));
    let expected = [("\u{e9}", true), ("name", true), ("plain", true), ("a\tb", false)];
    assert_eq!(texts, expected);
}

#[test]
fn an_error_ends_the_list() {
    let scanned = scan("a: 'open\n");
    let (message, place) = scanned.error.expect("an open quote is an error");
    assert!(message.contains("quoted scalar"), "{message}");
    assert!(place > 0);
    assert!(scanned.list.iter().all(|token| token_kind(token.kind).short != "SE"));
    assert_eq!(scan("a: closed\n").error, None);
}

#[test]
fn the_first_tokens_are_the_beginning_of_all() {
    let yaml = "a: 'open\n";
    let all = scan(yaml);
    for most in 0..all.list.len() {
        let first = scan_first(yaml, most);
        assert_eq!(first.list, all.list[..most]);
        assert_eq!(first.error, None, "the error stands behind the last token");
    }
    assert_eq!(scan_first(yaml, 100).error, all.error);
}
