//! How many stamps a history has, by hand from documents 01 and 02, and shapes that have a given number.

use compare::lists::sized::{self, MOST_STAMPS};
use compare::random::Random;
use compare::shape::RawShape;

fn shape(format: u64, width: u32, height: u32, levels: u32, kind: u64) -> RawShape {
    RawShape {
        format,
        width,
        height,
        depth: 7,
        levels,
        kind,
        compared: [0; 6],
    }
}

#[test]
fn stamps_of_shapes() {
    for (format, width, height, levels, kind, stamps) in [
        // "a 1 by 1 level still takes a page of 1,024 stamps": now one.
        (0, 1, 1, 1, 0, 1),
        (0, 0, 0, 15, 0, 15),
        (0, 16, 17, 1, 0, 2),
        (2, 64, 64, 1, 0, 16),
        // 16, 4, 1 and 1.
        (2, 64, 64, 4, 0, 22),
        (2, 64, 64, 4, 1, 132),
        (2, 64, 64, 4, 2, 22),
        (0, 512, 512, 1, 0, 1_024),
        // 513: an edge of 17, 31 tiles; with blocks of four an edge of 20, 26 tiles.
        (0, 513, 513, 1, 0, 961),
        (5, 513, 513, 1, 0, 676),
        (6, 513, 20, 1, 0, 52),
        (0, 16_384, 16_384, 6, 0, 6_144),
        (0, 16_384, 16_384, 15, 0, 6_489),
        (0, 16_384, 16_384, 15, 1, 38_934),
        // "eight cubes of fifteen levels", each of ninety grids of one stamp.
        (8, 16, 16, 15, 1, 90),
        // 768, 192, 48, 12, 4, then one.
        (0, 384, 512, 5, 0, 1_024),
        (0, 384, 512, 6, 0, 1_025),
        (0, 12_288, 16_384, 10, 0, 6_144),
        (0, 12_288, 16_384, 11, 0, 6_145),
    ] {
        let shape = shape(format, width, height, levels, kind);
        assert_eq!(shape.stamps(), stamps, "{shape}");
    }
}

/// No shape has more. A grid's stamps are a product of both axes, so those of squares are the most.
#[test]
fn the_most_stamps() {
    for format in [0, 5] {
        let most = (0..=16_384).map(|edge| shape(format, edge, edge, 15, 1).stamps());
        assert_eq!(most.max(), Some(MOST_STAMPS));
    }
}

#[test]
fn shapes_of_a_number() {
    let mut random = Random::new(1);
    let mut missing = 0;
    for stamps in 1..=6_489 {
        match sized::exactly(&mut random, stamps) {
            Some(shape) => assert_eq!(shape.stamps(), stamps, "{shape}"),
            None => missing += 1,
        }
        let less = sized::at_most(&mut random, stamps);
        assert!(less.desc().is_some() && less.stamps() <= stamps);
    }
    assert!(missing < 300, "{missing} numbers have no shape");
    assert_eq!(sized::ninety(&mut random).stamps(), 90);
}
