//! Has wrong functions for the bytes of a copy, each of which the stored questions tell from the right one.

use compare::copies::{self, CopyBytes, Region, Shape};
use compare::questions;
use compare::refusal::Refusal;

use crate::answers;
use crate::worked::{Copy, block, blocks, copied, cut, extent, parts};

/// Lists functions that count other blocks.
const BLOCKS: [(&str, CopyBytes); 8] = [
    ("rounding down kept", |shape, level, region| {
        copied(shape, level, region, |copy| {
            let (edge, bytes) = block(copy.format);
            copy.texels() * bytes / (edge * edge)
        })
    }),
    ("texels rounded up to blocks", |shape, level, region| {
        copied(shape, level, region, |copy| {
            let (edge, bytes) = block(copy.format);
            copy.texels().div_ceil(edge * edge) * bytes
        })
    }),
    (
        "blocks from the box's own corner",
        |shape, level, region| {
            copied(shape, level, region, |copy| {
                copy.bytes_by(|edge, extent, side| {
                    let (first, end) = cut(side, extent);
                    (end - first).div_ceil(edge)
                })
            })
        },
    ),
    (
        "a last block that is not full left out",
        |shape, level, region| {
            copied(shape, level, region, |copy| {
                copy.bytes_by(|edge, extent, side| {
                    let (first, end) = cut(side, extent);
                    (end / edge).saturating_sub(first / edge)
                })
            })
        },
    ),
    (
        "whole blocks at the level's edge alone",
        |shape, level, region| {
            copied(shape, level, region, |copy| {
                let (edge, bytes) = block(copy.format);
                let ends = |(extent, side)| cut(side, extent).1 == extent;
                if copy.axes.into_iter().any(ends) {
                    copy.bytes()
                } else {
                    copy.texels() * bytes / (edge * edge)
                }
            })
        },
    ),
    ("an empty cut touches a block", |shape, level, region| {
        copied(shape, level, region, |copy| {
            copy.bytes_by(|edge, extent, side| {
                let (first, end) = cut(side, extent);
                blocks(first, end, edge).max(1)
            })
        })
    }),
    (
        "a box of no width taken as whole",
        |shape, level, region| {
            let whole = region.is_some_and(|region| region.width == 0 || region.height == 0);
            copies::bytes(shape, level, region.filter(|_| !whole))
        },
    ),
    ("blocks of 8 bytes in format 6", |shape, level, region| {
        copied(shape, level, region, |copy| {
            copy.bytes() / if copy.format == 6 { 2 } else { 1 }
        })
    }),
];

/// Lists functions that cut and add otherwise.
const CUTS: [(&str, CopyBytes); 7] = [
    ("not cut to the level", |shape, level, region| {
        copied(shape, level, region, |copy| {
            copy.bytes_by(|edge, extent, side| {
                let (first, length) = side.unwrap_or((0, extent));
                // Keeps the product small enough for 64 bits.
                blocks(first, first.saturating_add(length), edge).min(1 << 20)
            })
        })
    }),
    ("cut to the level's whole blocks", |shape, level, region| {
        copied(shape, level, region, |copy| {
            copy.bytes_by(|edge, extent, side| {
                let (first, end) = cut(side, extent.next_multiple_of(edge));
                blocks(first, end, edge)
            })
        })
    }),
    ("left and width wrap around", |shape, level, region| {
        let wrapped = region.map(|region| wrap(region, [true, false]));
        copies::bytes(shape, level, wrapped.as_ref())
    }),
    ("top and height wrap around", |shape, level, region| {
        let wrapped = region.map(|region| wrap(region, [false, true]));
        copies::bytes(shape, level, wrapped.as_ref())
    }),
    ("a box of 32 bits", |shape, level, region| {
        let short = region.map(|region| Region {
            x: region.x & 0xffff_ffff,
            y: region.y & 0xffff_ffff,
            width: region.width & 0xffff_ffff,
            height: region.height & 0xffff_ffff,
        });
        copies::bytes(shape, level, short.as_ref())
    }),
    ("the axes exchanged", |shape, level, region| {
        copied(shape, level, region, |copy| {
            let [(width, across), (height, down)] = copy.axes;
            let axes = [(height, across), (width, down)];
            Copy { axes, ..*copy }.bytes()
        })
    }),
    (
        "a box measured by right and bottom",
        |shape, level, region| {
            let ends = region.map(|region| Region {
                width: region.width.saturating_sub(region.x),
                height: region.height.saturating_sub(region.y),
                ..*region
            });
            copies::bytes(shape, level, ends.as_ref())
        },
    ),
];

/// Returns a box whose ends are sums of 64 bits that wrap around, along the axes named.
fn wrap(region: &Region, [across, down]: [bool; 2]) -> Region {
    let length = |first: u64, length: u64| first.wrapping_add(length).saturating_sub(first);
    let mut wrapped = *region;
    if across {
        wrapped.width = length(region.x, region.width);
    }
    if down {
        wrapped.height = length(region.y, region.height);
    }
    wrapped
}

/// Lists functions with other depths, levels and refusals.
const LEVELS: [(&str, CopyBytes); 10] = [
    ("no depth", |shape, level, region| {
        copied(shape, level, region, |copy| {
            Copy { depths: 1, ..*copy }.bytes()
        })
    }),
    ("depth of flat ones", |shape, level, region| {
        let depths = if shape.kind == 0 {
            extent(shape.depth, level.min(14))
        } else {
            1
        };
        copies::bytes(shape, level, region).map(|bytes| bytes * depths)
    }),
    ("depth of cubes", |shape, level, region| {
        let depths = if shape.kind == 1 {
            extent(shape.depth, level.min(14))
        } else {
            1
        };
        copies::bytes(shape, level, region).map(|bytes| bytes * depths)
    }),
    ("depth not halved", |shape, level, region| {
        copied(shape, level, region, |copy| {
            let depths = if shape.kind == 2 {
                shape.depth.max(1)
            } else {
                1
            };
            Copy { depths, ..*copy }.bytes()
        })
    }),
    ("depth in blocks", |shape, level, region| {
        copied(shape, level, region, |copy| {
            let depths = copy.depths.div_ceil(block(copy.format).0);
            Copy { depths, ..*copy }.bytes()
        })
    }),
    ("six slices of a cube", |shape, level, region| {
        let slices = if shape.kind == 1 { 6 } else { 1 };
        copies::bytes(shape, level, region).map(|bytes| bytes * slices)
    }),
    ("a lacking level counted", |shape, level, region| {
        copies::bytes(shape, level, region)?;
        Ok(parts(shape, level.min(63), region).bytes())
    }),
    (
        "the level after the last counted",
        |shape, level, region| {
            copies::bytes(shape, level, region)?;
            if level == shape.levels {
                return Ok(parts(shape, level, region).bytes());
            }
            copies::bytes(shape, level, region)
        },
    ),
    ("a level of 32 bits", |shape, level, region| {
        copies::bytes(shape, level & 0xffff_ffff, region)
    }),
    ("0 of a lacking level before 2", |shape, level, region| {
        if level >= shape.levels {
            return Ok(0);
        }
        copies::bytes(shape, level, region)
    }),
];

/// Returns the right answer for a shape whose numbers are altered first.
fn altered(
    shape: &Shape,
    level: u64,
    region: Option<&Region>,
    alter: impl Fn(&mut Shape),
) -> Result<u64, Refusal> {
    let mut shape = *shape;
    alter(&mut shape);
    copies::bytes(&shape, level, region)
}

/// Lists functions that take shapes of other numbers.
const SHAPES: [(&str, CopyBytes); 9] = [
    ("a format of 32 bits", |shape, level, region| {
        altered(shape, level, region, |shape| shape.format &= 0xffff_ffff)
    }),
    ("a width of 32 bits", |shape, level, region| {
        altered(shape, level, region, |shape| shape.width &= 0xffff_ffff)
    }),
    ("a height of 32 bits", |shape, level, region| {
        altered(shape, level, region, |shape| shape.height &= 0xffff_ffff)
    }),
    ("a depth of 32 bits", |shape, level, region| {
        altered(shape, level, region, |shape| shape.depth &= 0xffff_ffff)
    }),
    ("levels of 32 bits", |shape, level, region| {
        altered(shape, level, region, |shape| shape.levels &= 0xffff_ffff)
    }),
    ("a kind of 32 bits", |shape, level, region| {
        altered(shape, level, region, |shape| shape.kind &= 0xffff_ffff)
    }),
    (
        "the depth of flat ones not looked at",
        |shape, level, region| {
            altered(shape, level, region, |shape| {
                if shape.kind < 2 {
                    shape.depth = 1;
                }
            })
        },
    ),
    ("width and height of 16,385", |shape, level, region| {
        altered(shape, level, region, |shape| {
            shape.width -= u64::from(shape.width == 16_385);
            shape.height -= u64::from(shape.height == 16_385);
        })
    }),
    ("15 levels refused", |shape, level, region| {
        altered(shape, level, region, |shape| {
            shape.levels += u64::from(shape.levels == 15);
        })
    }),
];

#[test]
fn each_fault_is_seen_by_the_stored_questions() {
    let stored = questions::fixed();
    let right = answers(copies::bytes, stored.text());
    let all = BLOCKS.iter().chain(&CUTS).chain(&LEVELS).chain(&SHAPES);
    for (fault, wrong) in all {
        let wrong = answers(*wrong, stored.text());
        assert_ne!(wrong, right, "{fault} is not seen");
    }
}

/// Shows that the functions above alter nothing by themselves: otherwise every fault would be seen, whatever is asked.
#[test]
fn functions_without_a_fault_are_not_seen() {
    let same: [CopyBytes; 3] = [
        |shape, level, region| copied(shape, level, region, Copy::bytes),
        |shape, level, region| altered(shape, level, region, |_| {}),
        |shape, level, region| {
            let same = region.map(|region| wrap(region, [false, false]));
            copies::bytes(shape, level, same.as_ref())
        },
    ];
    for stored in [questions::fixed(), questions::seeded(1, 20_000)] {
        let right = answers(copies::bytes, stored.text());
        for function in same {
            assert_eq!(answers(function, stored.text()), right);
        }
    }
}
