//! Lists a to l of document 01; k is among the long ones.
use super::Named;

const E: &str = "SS@0-0 FSS@0-1 KEY@1-1 SCA@1-2(#1..2) VAL@2-3 SCA@4-5(#4..5) FSE@5-6 SE@6-6";
const G: &str = "SS ANC(x) SCA(v) DS ALI(x) SE";

const E_EVENTS: [&str; 10] = [
    "StreamStart 0-0",
    "DocumentStart 0-1",
    "SequenceStart 0-1",
    "MappingStart 1-1",
    "Scalar 1-2 value 1..2 \"a\"",
    "Scalar 4-5 value 4..5 \"b\"",
    "MappingEnd 5-5",
    "SequenceEnd 5-6",
    "DocumentEnd 6-6",
    "StreamEnd 6-6",
];

pub fn all() -> Vec<Named> {
    vec![
        Named::new("a: no tokens", "").refused(14, 0, 0),
        Named::new("b: StreamStart, StreamEnd", "SS SE").accepted(2),
        Named::new("c: StreamStart alone", "SS").refused(14, 1, 5),
        Named::new("d: two DocumentStart", "SS DS DS SE").accepted(8),
        Named::over("e: [a: b]", "[a: b]", E).accepted(10).events(&E_EVENTS),
        Named::over("f: [? ]", "[? ]", "SS@0-0 FSS@0-1 KEY@1-2 FSE@3-4 SE@4-4").refused(11, 7, 4),
        Named::new("g: alias across documents", G).accepted(8),
        Named::new("g: alias across documents, forgetting", G).forget().refused(7, 5, 40),
        Named::new("h: a name twice", "SS FSS ANC(a) SCA FEN ANC(a) SCA FEN ALI(a) FSE SE")
            .accepted(9)
            .event(5, "Alias 80-85 number 2"),
        Named::over("i: {a,}", "{a,}", "SS@0-0 FMS@0-1 SCA@1-2(#1..2) FEN@2-3 FME@3-4 SE@4-4")
            .accepted(8)
            .event(4, "Scalar 2-3")
            .event(5, "MappingEnd 2-3"),
        Named::new("j: anchor, then undeclared !e!", "SS ANC(x) TAG(!e!,t) SCA SE")
            .refused(13, 2, 10),
        Named::over("l: e, one event short", "[a: b]", E)
            .rooms(|rooms| rooms.events = 9)
            .refused(22, 9, 0)
            .events(&E_EVENTS[..9]),
    ]
}
