//! The two calls of the proved library, by slices.

/// Whether the proved library is part of this program.
pub const LINKED: bool = cfg!(face);

/// What to do where it is not.
pub const MISSING: &str = "built without the proved library: make it with `tools/library.sh` in the top folder \
    (it writes target/staticlib/libface.a, for x86-64 programs), then run this again; SAPHYR_FACE may name another; \
    where the machine is not x86-64, tools/host.sh, called as cargo, builds for it";

/// The memory that a call borrows; `rooms` says how much is always enough.
#[derive(Debug, Default)]
pub struct Lent<'a> {
    /// 48 bytes for each event.
    pub events: &'a mut [u8],
    /// 8 bytes for each open state.
    pub states: &'a mut [u8],
    /// 12 bytes for each anchor.
    pub anchors: &'a mut [u8],
    /// 16 bytes for each tag handle.
    pub handles: &'a mut [u8],
}

/// `saphyr_run` of the C header as it stands: settings as 0 or not 0, an answer buffer of any length, the number
/// returned. Slices are never null, and what is lent to be changed overlaps nothing; so every call is sound.
///
/// # Panics
/// Where the proved library is not part of the program (see [`LINKED`]), with the words of [`MISSING`].
pub fn call(
    tokens: &[u8],
    text: &[u8],
    [keep_tags, forget_anchors]: [u32; 2],
    lent: Lent,
    answer: &mut [u8],
) -> u32 {
    // The face asks that no two buffers overlap; two shared slices may, so the text then goes as a copy.
    let copy = if overlap(tokens, text) { text.to_vec() } else { Vec::new() };
    let text = if copy.is_empty() { text } else { &copy };
    linked::call(tokens, text, [keep_tags, forget_anchors], lent, answer)
}

/// `saphyr_load` of the C header as it stands: the walk of `load` over event bytes, the number returned.
///
/// # Panics
/// As [`call`].
pub fn load(events: &[u8], answer: &mut [u8]) -> u32 {
    linked::load(events, answer)
}

fn overlap(left: &[u8], right: &[u8]) -> bool {
    let (left, right) = (left.as_ptr_range(), right.as_ptr_range());
    left.start < right.end && right.start < left.end
}

#[cfg(face)]
mod linked {
    use super::Lent;

    extern "C" {
        fn saphyr_run(
            tokens: *const u8,
            tokens_len: usize,
            text: *const u8,
            text_len: usize,
            keep_tags: u32,
            forget_anchors: u32,
            events: *mut u8,
            events_len: usize,
            states: *mut u8,
            states_len: usize,
            anchors: *mut u8,
            anchors_len: usize,
            handles: *mut u8,
            handles_len: usize,
            answer: *mut u8,
            answer_len: usize,
        ) -> u32;
        fn saphyr_load(
            events: *const u8,
            events_len: usize,
            answer: *mut u8,
            answer_len: usize,
        ) -> u32;
    }

    pub fn load(events: &[u8], answer: &mut [u8]) -> u32 {
        // SAFETY: each pointer is that of a slice of the length beside it, never null; the answer is borrowed
        // exclusively, so the two do not overlap.
        unsafe { saphyr_load(events.as_ptr(), events.len(), answer.as_mut_ptr(), answer.len()) }
    }

    pub fn call(
        tokens: &[u8],
        text: &[u8],
        [keep_tags, forget_anchors]: [u32; 2],
        lent: Lent,
        answer: &mut [u8],
    ) -> u32 {
        // SAFETY: each pointer is that of a slice of the length beside it, never null; the five that are written are
        // borrowed exclusively, and the two that are read were looked at for overlap.
        unsafe {
            saphyr_run(
                tokens.as_ptr(),
                tokens.len(),
                text.as_ptr(),
                text.len(),
                keep_tags,
                forget_anchors,
                lent.events.as_mut_ptr(),
                lent.events.len(),
                lent.states.as_mut_ptr(),
                lent.states.len(),
                lent.anchors.as_mut_ptr(),
                lent.anchors.len(),
                lent.handles.as_mut_ptr(),
                lent.handles.len(),
                answer.as_mut_ptr(),
                answer.len(),
            )
        }
    }
}

#[cfg(not(face))]
mod linked {
    /// Fails: there is nothing to call.
    pub fn call(_: &[u8], _: &[u8], _: [u32; 2], _: super::Lent, _: &mut [u8]) -> u32 {
        panic!("{}", super::MISSING)
    }

    /// Likewise.
    pub fn load(_: &[u8], _: &mut [u8]) -> u32 {
        panic!("{}", super::MISSING)
    }
}

#[cfg(test)]
mod tests {
    use super::overlap;

    #[test]
    fn slices_overlap_where_a_byte_is_shared() {
        let bytes = [0; 10];
        for (left, right, shared) in [
            (0..4, 3..6, true),
            (3..6, 0..4, true),
            (0..10, 4..5, true),
            (0..4, 4..6, false),
            (6..9, 0..6, false),
        ] {
            assert_eq!(
                overlap(&bytes[left.clone()], &bytes[right.clone()]),
                shared,
                "{left:?} {right:?}"
            );
        }
        assert!(!overlap(&[], &[]));
        assert!(!overlap(&bytes, &[]));
    }
}
