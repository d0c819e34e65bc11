//! Events of any compiled copy of parser.rs, seen in one way.

/// What an event says, in the terms of document 01; tags and values are still strings.
#[derive(Clone, Copy, PartialEq, Eq, Debug, Default)]
pub struct View<'e> {
    pub kind: u32,
    pub number: usize,
    pub style: u32,
    pub value: &'e str,
    /// Prefix and suffix.
    pub tag: Option<(&'e str, &'e str)>,
}

/// `From<&Event> for View` for the events of one compiled copy of parser.rs: each has a type of its own.
#[macro_export]
macro_rules! view_of {
    ($parser:ident) => {
        impl<'e> From<&'e $parser::Event<'_>> for $crate::events::View<'e> {
            fn from(event: &'e $parser::Event<'_>) -> Self {
                use ::records::kinds::event as kinds;
                use $parser::Event;
                let mut view = Self::default();
                let node = match event {
                    Event::Nothing => panic!("the event Nothing is never given"),
                    Event::StreamStart => (kinds::STREAM_START, 0, None),
                    Event::StreamEnd => (kinds::STREAM_END, 0, None),
                    Event::DocumentStart(explicit) => {
                        (kinds::DOCUMENT_START, usize::from(*explicit), None)
                    }
                    Event::DocumentEnd => (kinds::DOCUMENT_END, 0, None),
                    Event::Alias(id) => (kinds::ALIAS, *id, None),
                    Event::Scalar(value, style, id, tag) => {
                        view.style = $crate::tokens::style_number(*style);
                        view.value = value;
                        (kinds::SCALAR, *id, tag.as_ref())
                    }
                    Event::SequenceStart(id, tag) => (kinds::SEQUENCE_START, *id, tag.as_ref()),
                    Event::SequenceEnd => (kinds::SEQUENCE_END, 0, None),
                    Event::MappingStart(id, tag) => (kinds::MAPPING_START, *id, tag.as_ref()),
                    Event::MappingEnd => (kinds::MAPPING_END, 0, None),
                };
                (view.kind, view.number) = (node.0, node.1);
                view.tag = node.2.map(|tag| (tag.handle.as_str(), tag.suffix.as_str()));
                view
            }
        }
    };
}
