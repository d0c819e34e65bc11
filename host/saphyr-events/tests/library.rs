//! The library, held to document 01 and to the Rust.
use lists::class;
use oracle::rust_run;
use records::kinds::{token_kind, LAST_KIND};
use records::{decode, tag_bytes, Ev, Settings as Pair};
use saphyr_events::{
    rooms, run, run_in, Event, EventKind, Lent, Node, Place, Range, Reason, Refusal, Run, Settings,
    Span, Style, Tag, TagSource, Token, TokenList, MAX_TEXT,
};

const KEPT: Settings = Settings { keep_tags: false, forget_anchors: false };

const fn plain(from: u32, to: u32) -> Token {
    Token::Scalar { value: Range { from, to }, style: Style::Plain }
}

fn list(tokens: &[(Token, u32, u32)]) -> TokenList {
    let mut list = TokenList::new();
    for (token, start, end) in tokens {
        list.push(*token, *start, *end);
    }
    list
}

/// List e of document 01.
const LIST_E: [(Token, u32, u32); 8] = [
    (Token::StreamStart, 0, 0),
    (Token::FlowSequenceStart, 0, 1),
    (Token::Key, 1, 1),
    (plain(1, 2), 1, 2),
    (Token::Value, 2, 3),
    (plain(4, 5), 4, 5),
    (Token::FlowSequenceEnd, 5, 6),
    (Token::StreamEnd, 6, 6),
];

#[test]
fn list_e_gives_its_events() {
    let node = Node::default();
    let scalar =
        |from, to| EventKind::Scalar { node, style: Style::Plain, value: Range::new(from, to) };
    let expected = [
        (EventKind::StreamStart, 0, 0),
        (EventKind::DocumentStart { explicit: false }, 0, 1),
        (EventKind::SequenceStart(node), 0, 1),
        (EventKind::MappingStart(node), 1, 1),
        (scalar(1, 2), 1, 2),
        (scalar(4, 5), 4, 5),
        (EventKind::MappingEnd, 5, 5),
        (EventKind::SequenceEnd, 5, 6),
        (EventKind::DocumentEnd, 6, 6),
        (EventKind::StreamEnd, 6, 6),
    ];
    let events = expected.map(|(kind, start, end)| Event { kind, span: Span::new(start, end) });
    let given = run(list(&LIST_E).as_bytes(), b"[a: b]", Settings::default());
    assert_eq!(given, Run { events: events.to_vec(), refusal: None });
}

/// Names are forgotten unless that is turned off: list g.
#[test]
fn the_default_forgets() {
    let name = Range::new(0, 1);
    let tokens = list(&[
        (Token::StreamStart, 0, 0),
        (Token::Anchor { name }, 0, 1),
        (plain(0, 1), 1, 2),
        (Token::DocumentStart, 2, 3),
        (Token::Alias { name }, 3, 4),
        (Token::StreamEnd, 4, 4),
    ]);
    let kept = run(tokens.as_bytes(), b"x", KEPT);
    assert_eq!((kept.events.len(), kept.refusal), (8, None));
    let forgotten = run(tokens.as_bytes(), b"x", Settings::default());
    assert_eq!(forgotten.events.len(), 5);
    let refusal = forgotten.accepted().expect_err("no such anchor");
    assert_eq!(refusal, Refusal { reason: Reason::NoSuchAnchor, place: Place::Position(3) });
}

const A: Range = Range { from: 1, to: 2 };
const B: Range = Range { from: 3, to: 4 };

/// In the order of document 01.
const TOKENS: [Token; 23] = [
    Token::StreamStart,
    Token::StreamEnd,
    Token::VersionDirective,
    Token::TagDirective { handle: A, prefix: B },
    Token::ReservedDirective,
    Token::DocumentStart,
    Token::DocumentEnd,
    Token::ByteOrderMark,
    Token::BlockSequenceStart,
    Token::BlockMappingStart,
    Token::BlockEnd,
    Token::FlowSequenceStart,
    Token::FlowSequenceEnd,
    Token::FlowMappingStart,
    Token::FlowMappingEnd,
    Token::BlockEntry,
    Token::FlowEntry,
    Token::Key,
    Token::Value,
    Token::Alias { name: A },
    Token::Anchor { name: A },
    Token::Tag { handle: A, suffix: B },
    Token::Scalar { value: A, style: Style::Folded },
];

#[test]
fn every_kind_of_token_has_its_record() {
    let list = list(&TOKENS.map(|token| (token, 8, 9)));
    assert_eq!((list.len(), list.is_empty()), (LAST_KIND as usize, false));
    for (i, (record, token)) in decode(list.as_bytes()).iter().zip(TOKENS).enumerate() {
        assert_eq!(record.kind as usize, i + 1);
        assert!(format!("{token:?}").starts_with(token_kind(record.kind).name));
        assert_eq!((record.start, record.end), (8, 9));
        let ranges: Vec<Range> = record.used_ranges().collect();
        assert_eq!(ranges, [A, B][..ranges.len()]);
        assert_eq!(record.style, if token.kind() == 23 { 4 } else { 0 });
    }
}

/// The events as the Rust gives them: numbers as they are, tags by their bytes.
fn same(event: &Event, rust: &Ev, text: &[u8], side: &[u8]) -> bool {
    let node = event.node();
    let number = match event.kind {
        EventKind::DocumentStart { explicit } => u32::from(explicit),
        EventKind::Alias { id } => id,
        _ => node.and_then(|node| node.anchor).map_or(0, |id| id.get()),
    };
    let (style, value) = match event.kind {
        EventKind::Scalar { style, value, .. } => (style.number(), value),
        _ => (0, Range::default()),
    };
    let parts = |tag: Tag| tag.prefix_in(text).zip(tag.suffix_in(text));
    let tag = node.and_then(|node| node.tag).map(|tag| parts(tag).expect("inside the text"));
    (event.span.start, event.span.end, number, style, value)
        == (rust.start, rust.end, rust.number, rust.style, rust.value)
        && tag == tag_bytes(rust, text, side)
        && event.value_in(text).is_some() == (rust.kind == records::kinds::event::SCALAR)
}

#[test]
fn typed_events_are_the_rusts() {
    let (mut lists, mut tagged) = (0, 0);
    for name in ["named", "grammar", "mutated", "steered", "real"] {
        for case in class(name, 5, 2_000)
            .into_iter()
            .flatten()
            .chain(class(name, 0, 500).into_iter().flatten())
        {
            if oracle::first_checks(&case.tokens, &case.text).is_some() {
                continue;
            }
            let Pair { keep, forget } = case.settings();
            let settings = Settings { keep_tags: keep, forget_anchors: forget };
            let given = run(&case.tokens, &case.text, settings);
            let rust = rust_run(&decode(&case.tokens), &case.text, case.settings());
            assert_eq!(given.refusal, Refusal::of(rust.number, rust.place), "{case:?}");
            assert_eq!(given.events.len(), rust.events.len(), "{case:?}");
            for (event, theirs) in given.events.iter().zip(&rust.events) {
                assert!(
                    same(event, theirs, &case.text, &rust.side),
                    "{event:?} {theirs:?}\n{case:?}"
                );
                tagged += usize::from(theirs.source != 0);
            }
            lists += 1;
        }
    }
    assert!(lists > 5_000 && tagged > 1_000, "{lists} lists, {tagged} tags");
}

/// A tag's text is the core prefix or stands in the text.
#[test]
fn a_tag_has_its_text() {
    let core = Tag { source: TagSource::Core, prefix: Range::default(), suffix: Range::new(0, 3) };
    assert_eq!(core.whole_in(b"str").as_deref(), Some(&b"tag:yaml.org,2002:str"[..]));
    let own = Tag { source: TagSource::Text, prefix: Range::new(3, 4), suffix: Range::new(0, 3) };
    assert_eq!(own.whole_in(b"str!").as_deref(), Some(&b"!str"[..]));
    assert_eq!(own.whole_in(b"st"), None, "another text");
}

/// The numbers of document 01 but 0, which is no refusal, and 28, which asks for an answer buffer that is too short.
#[test]
fn every_number_has_its_reason() {
    let numbers: Vec<u32> = Reason::ALL.iter().map(|reason| reason.number()).collect();
    assert_eq!(numbers, (1..=14).chain(20..=27).collect::<Vec<_>>());
    assert!(Reason::ALL.iter().all(|reason| Reason::of(reason.number()) == Some(*reason)));
    assert_eq!([0, 15, 19, 28, 29, 30].map(Reason::of), [None; 6]);
}

#[test]
fn a_refusal_says_its_place_where_it_has_one() {
    let shown = |number, place| Refusal::of(number, place).expect("a refusal").to_string();
    assert_eq!(shown(7, 40), "refused by 7: an alias with no such anchor, at 40");
    assert_eq!(shown(14, 0), "refused by 14: the token list ended before StreamEnd, at 0");
    assert_eq!(
        shown(21, 3),
        "refused by 21: a token record with a bad kind, style or range, record 3"
    );
    assert_eq!(shown(26, 0), "refused by 26: more than 65,536 tokens");
    let error: Box<dyn std::error::Error> = Box::new(Refusal::of(22, 0).expect("a refusal"));
    assert_eq!(error.to_string(), "refused by 22: no place left for an event");
}

#[test]
fn what_the_first_checks_refuse_is_refused() {
    let number = |tokens: &[u8], text: &[u8]| {
        let given = run(tokens, text, KEPT);
        assert!(given.events.is_empty());
        given.refusal.map(|refusal| (refusal.reason.number(), refusal.place))
    };
    let start = list(&[(Token::StreamStart, 0, 0)]);
    assert_eq!(number(&start.as_bytes()[..31], b""), Some((20, Place::None)));
    assert_eq!(number(&start.as_bytes().repeat(65_537), b""), Some((26, Place::None)));
    assert_eq!(number(start.as_bytes(), &vec![b' '; MAX_TEXT + 1]), Some((27, Place::None)));
    let bad = list(&[(Token::StreamStart, 0, 0), (plain(0, 2), 0, 2)]);
    assert_eq!(number(bad.as_bytes(), b"a"), Some((21, Place::Record(1))));
}

/// Rooms of 22 to 25, and what a call leaves in the lent memory.
#[test]
fn lent_memory_is_left_as_promised() {
    let name = Range::new(0, 1);
    let tokens = list(&[
        (Token::StreamStart, 0, 0),
        (Token::TagDirective { handle: name, prefix: name }, 0, 1),
        (Token::DocumentStart, 1, 2),
        (Token::Anchor { name }, 2, 3),
        (plain(0, 1), 3, 4),
        (Token::StreamEnd, 4, 4),
    ]);
    let full = rooms(tokens.len()).expect("a short list");
    let full = [full.events, full.states, full.anchors, full.handles];
    // Which memory is lent none of, the number, and how many events stand before it.
    for (none, number, count) in [(4, 0, 5), (0, 22, 0), (1, 23, 1), (2, 24, 2), (3, 25, 1)] {
        let lent = |i: usize| vec![0xA5; if i == none { 0 } else { full[i] }];
        let [mut events, mut states, mut anchors, mut handles] = std::array::from_fn(lent);
        let memory = Lent {
            events: &mut events,
            states: &mut states,
            anchors: &mut anchors,
            handles: &mut handles,
        };
        let answer = run_in(tokens.as_bytes(), b"x", KEPT, memory);
        assert_eq!((answer.number, answer.count), (number, count));
        assert_eq!(answer.refusal(), Refusal::of(number, 0));
        assert!(events[count as usize * 48..].iter().all(|byte| *byte == 0xA5));
        assert!([states, anchors, handles].concat().iter().all(|byte| *byte == 0));
    }
}

/// Two shared slices may overlap; the answer is that of two copies.
#[test]
fn the_list_may_be_its_own_text() {
    let name = Range::new(4, 6);
    let tokens = list(&[
        (Token::StreamStart, 0, 0),
        (Token::Anchor { name }, 0, 1),
        (Token::StreamEnd, 1, 1),
    ]);
    let (bytes, copy) = (tokens.as_bytes(), tokens.as_bytes().to_vec());
    let given = run(bytes, bytes, KEPT);
    assert_eq!(given, run(bytes, &copy, KEPT));
    assert_eq!((given.events.len(), given.refusal), (5, None));
}
