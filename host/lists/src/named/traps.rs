//! Wrong turns that are easily taken, by number, each with the smallest lists that show it. Numbers 27 and 37 are among
//! the long ones; 30 and 31 show only between events, so the lists here come as near as a run can.
use super::Named;
use records::{encode, Case, Range, Tok};

pub fn all() -> Vec<Named> {
    [rooms(), nodes(), collections(), documents(), tags(), anchors(), records_and_buffers()]
        .into_iter()
        .flatten()
        .collect()
}

/// 1 to 8, 29, 31: the order of acts where a room is short.
fn rooms() -> Vec<Named> {
    let t = Named::new;
    vec![
        t("trap 1: a push popped in the same step", "SS FSS SCA FSE SE")
            .states(1)
            .refused(23, 3, 0),
        t("trap 2: 23 before 8", "SS FSS VAL").states(1).refused(23, 3, 0),
        t("trap 2: 8 with room", "SS FSS VAL").states(2).refused(8, 3, 20),
        t("trap 3: 14 before 23", "SS FSS").states(1).refused(14, 3, 15),
        t("trap 4: 22 last", "SS SCA")
            .rooms(|rooms| (rooms.events, rooms.states) = (1, 0))
            .refused(23, 1, 0),
        t("trap 5: 24 before 13", "SS ANC(x) TAG(!e!,t)").anchors(0).refused(24, 2, 0),
        t("trap 5: 13 before 24", "SS TAG(!e!,t) ANC(x)").anchors(0).refused(13, 2, 10),
        t("trap 6: 24 not for a known name", "SS FSS ANC(a) SCA FEN ANC(a) SCA FSE SE")
            .anchors(1)
            .accepted(8),
        t("trap 7: 24 before 14", "SS ANC(x)").anchors(0).refused(24, 2, 0),
        t("trap 8: 14 after an anchor", "SS ANC(x)").refused(14, 2, 15),
        t("trap 29: no push, no place", "SS SE").states(0).accepted(2),
        t("trap 29: a document is a push", "SS DS SE").states(0).refused(23, 1, 0),
        t("trap 31: places used again", "SS FSS FSS SCA FSE FEN FMS SCA FME FSE SE")
            .states(3)
            .accepted(13),
    ]
}

/// 8, 11 to 16, 25, 34: what a node is.
fn nodes() -> Vec<Named> {
    let t = Named::new;
    vec![
        t("trap 11: a pair ends behind the anchor", "SS FSS KEY SCA VAL ANC(x) SCA FSE SE")
            .accepted(10)
            .event(5, "Scalar 50-65 number 1")
            .event(6, "MappingEnd 55-55"),
        t("trap 12: block start in flow", "SS FSS ANC(x) BSS")
            .refused(11, 4, 30)
            .event(3, "Scalar 20-25 number 1"),
        t("trap 13: an entry after Key and anchor", "SS BMS KEY ANC(x) ENT SCA BE SE")
            .accepted(10)
            .event(3, "SequenceStart 30-45 number 1"),
        t("trap 13: an entry after entry and anchor", "SS BSS ENT ANC(x) ENT")
            .refused(14, 4, 45)
            .event(3, "Scalar 30-35 number 1"),
        t("trap 14: Key after an entry", "SS BSS ENT KEY").refused(8, 3, 30),
        t("trap 14: Key after an entry without indent", "SS BMS KEY ENT KEY BE SE")
            .accepted(12)
            .event(4, "Scalar 30-35")
            .event(5, "SequenceEnd 40-45"),
        t("trap 25: two anchors", "SS ANC(x) ANC(y) SCA SE")
            .refused(2, 4, 20)
            .event(2, "Scalar 10-15 number 1"),
        t("trap 25: anchor and alias", "SS ANC(x) ALI(x)").refused(2, 4, 20),
        Named::over("trap 34: an empty range stays", "abcdef", "SS SCA(#5..5) SE")
            .accepted(5)
            .event(2, "Scalar 10-15 value 5..5 \"\""),
        Named::over("trap 34: an empty scalar has none", "abcdef", "SS DS SE")
            .accepted(5)
            .event(2, "Scalar 20-25"),
    ]
}

/// 9, 10, 15, 38: spans in collections, and the pair with an empty key.
fn collections() -> Vec<Named> {
    let t = Named::new;
    vec![
        t("trap 9: [a: ]", "SS FSS KEY SCA VAL FSE SE")
            .accepted(10)
            .event(5, "Scalar 50-55")
            .event(6, "MappingEnd 55-55"),
        t("trap 9: {a: }", "SS FMS KEY SCA VAL FME SE").accepted(8).event(4, "Scalar 40-45"),
        t("trap 10: {a,}", "SS FMS SCA FEN FME SE").accepted(8).event(5, "MappingEnd 30-35"),
        t("trap 10: {a: b}", "SS FMS KEY SCA VAL SCA FME SE")
            .accepted(8)
            .event(5, "MappingEnd 60-65"),
        t("trap 10: [a,]", "SS FSS SCA FEN FSE SE").accepted(7).event(4, "SequenceEnd 40-45"),
        t("trap 15: Value without Key", "SS BMS VAL SCA BE SE")
            .accepted(8)
            .event(3, "Scalar 20-25"),
        t("trap 38: [? ] ]", "SS FSS KEY FSE FSE SE").accepted(10),
        t("trap 38: [? , , a]", "SS FSS KEY FEN FEN SCA FSE SE").accepted(11),
        t("trap 38: [? , a]", "SS FSS KEY FEN SCA FSE SE").refused(11, 7, 40),
    ]
}

/// 16 to 20, 30, 33, 35: documents and directives.
fn documents() -> Vec<Named> {
    let t = Named::new;
    vec![
        t("trap 16: a second StreamStart", "SS SS")
            .refused(8, 2, 10)
            .event(1, "DocumentStart 10-15"),
        t("trap 16: BlockEnd first", "SS BE").refused(8, 2, 10),
        t("trap 17: a mark for content", "SS DS BOM SE")
            .accepted(5)
            .event(2, "Scalar 20-25")
            .event(3, "DocumentEnd 30-35"),
        t("trap 18: 5 at the first mark", "SS SCA BOM BOM SCA").refused(5, 3, 20),
        t("trap 18: a mark after a directive", "SS VD BOM").refused(5, 1, 20),
        t("trap 18: 5, not 6", "SS SCA BOM TD(!e!,p)").refused(5, 3, 20),
        t("trap 18: 6", "SS SCA TD(!e!,p)").refused(6, 3, 20),
        t("trap 19: directive, StreamEnd", "SS TD(!e!,p) SE").refused(2, 1, 20),
        t("trap 19: directive, DocumentEnd", "SS TD(!e!,p) DE DS").refused(2, 1, 20),
        t("trap 20: a kept handle again", "SS TD(!e!,p) DS DE TD(!e!,q) DS SE").keep().accepted(8),
        t("trap 20: a kept handle again, room 1", "SS TD(!e!,p) DS DE TD(!e!,q) DS SE")
            .keep()
            .handles(1)
            .accepted(8),
        t("trap 20: another handle, room 1", "SS TD(!e!,p) DS DE TD(!f!,q) DS SE")
            .keep()
            .handles(1)
            .refused(25, 4, 0),
        t("trap 20: cleared in between", "SS TD(!e!,p) DS DE TD(!f!,q) DS SE")
            .handles(1)
            .accepted(8),
        t("trap 30: a directive for content", "SS DS VD DS SE")
            .refused(6, 3, 20)
            .event(2, "Scalar 20-25"),
        t("trap 30: DocumentEnd for content", "SS DE DS DE SE").accepted(5),
        t("trap 33: forgotten at an implicit start", "SS ANC(x) SCA DE ALI(x) SE")
            .forget()
            .refused(7, 5, 40),
        t("trap 35: two scalars", "SS SCA SCA").refused(2, 4, 20),
        t("trap 35: two documents", "SS SCA DE SCA SE").accepted(8),
    ]
}

/// 21, 24, 32: handles, prefixes, suffixes.
fn tags() -> Vec<Named> {
    let t = Named::new;
    let twice = "SS TD(!e!,p) DS TAG(!e!,t) SCA DE DS TAG(!e!,t) SCA SE";
    vec![
        t("trap 21: ! undeclared", "SS TAG(!,t) SCA SE")
            .accepted(5)
            .event(2, "Scalar 10-25 tag \"!\" \"t\""),
        t("trap 21: !! undeclared", "SS TAG(!!,t) SCA SE")
            .accepted(5)
            .event(2, "Scalar 10-25 tag \"tag:yaml.org,2002:\" \"t\""),
        t("trap 21: the empty handle declared", "SS TD(,p) DS TAG(,t) SCA SE")
            .accepted(5)
            .event(2, "Scalar 30-45 tag \"p\" \"t\""),
        t("trap 21: !! declared", "SS TD(!!,p) DS TAG(!!,t) SCA SE")
            .accepted(5)
            .event(2, "Scalar 30-45 tag \"p\" \"t\""),
        t("trap 24: tags are cleared", twice).refused(13, 5, 70),
        t("trap 24: tags are kept", twice)
            .keep()
            .accepted(8)
            .event(5, "Scalar 70-85 tag \"p\" \"t\""),
        t("trap 32: whose prefix, whose suffix", "SS TD(!e!,pre) DS TAG(!e!,suf) SCA SE")
            .accepted(5)
            .event(2, "Scalar 30-45 tag \"pre\" \"suf\""),
        t("trap 32: undeclared", "SS TAG(foo,suf) SCA SE")
            .accepted(5)
            .event(2, "Scalar 10-25 tag \"foo\" \"suf\""),
    ]
}

/// 22, 23: names of anchors.
fn anchors() -> Vec<Named> {
    let t = Named::new;
    let empty = "SS FSS ANC(#0..0) SCA FEN ALI(#3..3) FSE SE";
    vec![
        t("trap 22: equal bytes elsewhere", "SS FSS ANC(x) SCA FEN ALI(x) FSE SE")
            .accepted(8)
            .event(4, "Alias 50-55 number 1"),
        Named::over("trap 22: the empty name", "abc", empty)
            .accepted(8)
            .event(4, "Alias 50-55 number 1"),
        t("trap 23: ids go on after forgetting", "SS ANC(x) SCA DS ANC(x) SCA SE")
            .forget()
            .accepted(8)
            .event(2, "Scalar 10-25 number 1")
            .event(5, "Scalar 40-55 number 2"),
    ]
}

/// 26, 28, 36, 39: what is judged, what is not, and the bytes afterwards.
fn records_and_buffers() -> Vec<Named> {
    let t = Named::new;
    let outside = Range::new(9, 1);
    let rubbish = Tok { a: outside, b: outside, style: 77, ..Tok::new(18) }.at(20, 25);
    let odd = |case: &mut Case| {
        let [events, states, anchors, handles] = case.lengths();
        *case = case.clone().with_lengths([events + 47, states + 7, anchors + 11, handles + 15]);
        (case.fill, case.answer_len) = (0xFF, 40);
    };
    vec![
        t("trap 26: 21 also behind StreamEnd, before 1", "SE SE")
            .edit(|case| case.tokens[32] = 0)
            .refused(21, 0, 1),
        t("trap 26: unused fields are not judged", "SS FMS KEY SCA FME SE")
            .edit(|case| case.tokens[64..96].copy_from_slice(&encode(&[rubbish])))
            .accepted(8),
        t("trap 28: dirty buffers with odd ends", "SS FSS ANC(x) SCA FSE SE").edit(odd).accepted(7),
        t("trap 28: dirty buffers, 20", "SS SE")
            .edit(odd)
            .edit(|case| case.tokens.truncate(63))
            .refused(20, 0, 0),
        t("trap 28: dirty buffers, 21", "SS SE")
            .edit(odd)
            .edit(|case| case.tokens[32] = 24)
            .refused(21, 0, 1),
        t("trap 28: a places' buffer of 7 bytes is no place", "SS SCA SE")
            .edit(|case| case.states_len = 7)
            .refused(23, 1, 0),
        t("trap 36: the last end, not the greatest", "SS@0-100 FSS@50-60 SCA@7-3")
            .refused(14, 4, 3),
        t("trap 39: positions are copied", "SS SCA@4294967295-0 SE@4294967294-4294967295")
            .accepted(5)
            .event(2, "Scalar 4294967295-0")
            .event(4, "StreamEnd 4294967294-4294967295"),
    ]
}
