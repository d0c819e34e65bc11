//! Events with their types, read from their records.
use crate::style::Style;
use crate::token::Span;
use records::kinds::event as kinds;
use records::sizes::CORE_PREFIX;
use records::{Ev, Range};
use std::num::NonZeroU32;

/// Where the prefix of a tag stands.
#[derive(Clone, Copy, Debug, PartialEq, Eq, Hash)]
pub enum TagSource {
    /// It is `tag:yaml.org,2002:`, which need not stand in the text.
    Core,
    /// In the text.
    Text,
}

/// The tag of a node.
#[derive(Clone, Copy, Debug, PartialEq, Eq, Hash)]
pub struct Tag {
    pub source: TagSource,
    /// Empty where the source is `Core`.
    pub prefix: Range,
    pub suffix: Range,
}

impl Tag {
    /// The bytes of the prefix; none if `text` is not the text of the run.
    pub fn prefix_in<'t>(&self, text: &'t [u8]) -> Option<&'t [u8]> {
        match self.source {
            TagSource::Core => Some(CORE_PREFIX),
            TagSource::Text => self.prefix.cut(text),
        }
    }

    /// The bytes of the suffix.
    pub fn suffix_in<'t>(&self, text: &'t [u8]) -> Option<&'t [u8]> {
        self.suffix.cut(text)
    }

    /// The whole tag: the prefix, then the suffix.
    pub fn whole_in(&self, text: &[u8]) -> Option<Vec<u8>> {
        Some([self.prefix_in(text)?, self.suffix_in(text)?].concat())
    }
}

/// What a node's event carries beside its kind.
#[derive(Clone, Copy, Debug, Default, PartialEq, Eq, Hash)]
pub struct Node {
    /// The id of its anchor. Ids rise by one for each anchor of the stream, from 1.
    pub anchor: Option<NonZeroU32>,
    pub tag: Option<Tag>,
}

/// What happened.
#[derive(Clone, Copy, Debug, PartialEq, Eq, Hash)]
pub enum EventKind {
    StreamStart,
    StreamEnd,
    DocumentStart {
        /// Whether `---` stood there.
        explicit: bool,
    },
    DocumentEnd,
    Alias {
        /// The id of the anchor that it names.
        id: u32,
    },
    Scalar {
        node: Node,
        style: Style,
        value: Range,
    },
    SequenceStart(Node),
    SequenceEnd,
    MappingStart(Node),
    MappingEnd,
}

/// An event and where it stands.
#[derive(Clone, Copy, Debug, PartialEq, Eq, Hash)]
pub struct Event {
    pub kind: EventKind,
    pub span: Span,
}

impl Event {
    /// The event of a record; none if the record is not one that a run stores.
    pub fn read(record: &Ev) -> Option<Event> {
        let kind = match record.kind {
            kinds::STREAM_START => EventKind::StreamStart,
            kinds::STREAM_END => EventKind::StreamEnd,
            kinds::DOCUMENT_START => EventKind::DocumentStart { explicit: record.number != 0 },
            kinds::DOCUMENT_END => EventKind::DocumentEnd,
            kinds::ALIAS => EventKind::Alias { id: record.number },
            kinds::SCALAR => {
                let (node, style) = (node(record)?, Style::of(record.style)?);
                EventKind::Scalar { node, style, value: record.value }
            }
            kinds::SEQUENCE_START => EventKind::SequenceStart(node(record)?),
            kinds::SEQUENCE_END => EventKind::SequenceEnd,
            kinds::MAPPING_START => EventKind::MappingStart(node(record)?),
            kinds::MAPPING_END => EventKind::MappingEnd,
            _ => return None,
        };
        Some(Event { kind, span: Span::new(record.start, record.end) })
    }

    /// Anchor and tag, of a scalar or of a collection's start.
    pub fn node(&self) -> Option<&Node> {
        match &self.kind {
            EventKind::Scalar { node, .. } => Some(node),
            EventKind::SequenceStart(node) | EventKind::MappingStart(node) => Some(node),
            _ => None,
        }
    }

    /// The bytes of a scalar's value; none for another event, or if `text` is not the text of the run.
    pub fn value_in<'t>(&self, text: &'t [u8]) -> Option<&'t [u8]> {
        match self.kind {
            EventKind::Scalar { value, .. } => value.cut(text),
            _ => None,
        }
    }

    /// The same as a string; none too if the bytes are not UTF-8.
    pub fn value_str_in<'t>(&self, text: &'t [u8]) -> Option<&'t str> {
        std::str::from_utf8(self.value_in(text)?).ok()
    }
}

fn node(record: &Ev) -> Option<Node> {
    let source = match record.source {
        0 => None,
        1 => Some(TagSource::Core),
        2 => Some(TagSource::Text),
        _ => return None,
    };
    let tag = source.map(|source| Tag { source, prefix: record.prefix, suffix: record.suffix });
    Some(Node { anchor: NonZeroU32::new(record.number), tag })
}
