//! Every shape is a valid list of its size, and both sides agree on it.
use emulated::sample;
use records::sizes::MAX_TOKENS;
use speed::{agree, Buffers, List, Shape, Side, SHAPES};

/// Small ones, in what each shape counts.
const SIZES: [usize; 4] = [24, 100, 333, 1_000];

fn each(mut see: impl FnMut(&Shape, usize, List)) {
    for shape in SHAPES {
        for size in SIZES {
            see(&shape, size, shape.list(size));
        }
    }
}

/// The proved run, and parser.rs behind both feeders: every field of every event.
#[test]
fn both_sides_agree() {
    each(|shape, size, list| {
        let agreed = agree(list);
        assert!(
            agreed.as_ref().is_ok_and(|events| *events > 4),
            "{} {size}: {agreed:?}",
            shape.name
        );
    });
}

#[test]
fn every_side_ends_as_it_should() {
    each(|shape, size, list| {
        for side in Side::ALL {
            let mut buffers = Buffers::new(side.rooms(list.count()));
            let done = side.run(list, &mut buffers).and_then(|()| side.run(list, &mut buffers));
            assert_eq!(done, Ok(()), "{} {size}: {}", shape.name, side.name());
        }
    });
}

/// As near as a part of the shape allows, never above.
#[test]
fn lists_have_their_size() {
    each(|shape, size, list| {
        let near = size.saturating_sub(32)..=size;
        assert!(!shape.of_tokens || near.contains(&list.count()), "{} {size}", shape.name);
    });
    assert_eq!(SHAPES.len(), sample::SHAPES.all);
    for shape in SHAPES.iter().step_by(sample::SHAPES.step()) {
        let largest = shape.list(*shape.sizes.last().expect("a shape has sizes"));
        assert!(largest.count() <= MAX_TOKENS, "{}: {}", shape.name, largest.count());
    }
}

/// A counted program reads what was written for it.
#[test]
fn a_list_goes_through_a_frame() {
    each(|shape, size, list| {
        let back = List::read(&mut list.frame().as_slice()).expect("a frame");
        assert_eq!((back.tokens, back.text), (list.tokens, list.text), "{} {size}", shape.name);
    });
}
