//! Has wrong tables of tile edges, each of which the stored questions tell from the right ones: by an entry, by an extent, or by both.

use compare::leaf::Functions;
use compare::questions;

use crate::answers;

/// Lists the edges of blocks that have a table.
const BLOCKS: [u32; 2] = [1, 4];

/// Is the last index of a table.
const LAST: u32 = 512;

/// Works out an entry of a block's table, the first number, from its index, the second.
type Rule = fn(u32, u32) -> u32;

/// Works out the index of an extent.
type Index = fn(u32) -> u32;

/// Works out the answer to a block and an index, none if there is no such entry.
type Entry = fn(u64, u64) -> Option<u32>;

/// Is the right rule: "at least 16, raised to a multiple of the block edge" (01).
fn raised(block: u32, index: u32) -> u32 {
    index.max(16).next_multiple_of(block)
}

/// Is the right index: "extent over 32 rounded up" (02).
fn rounded_up(extent: u32) -> u32 {
    extent.div_ceil(32)
}

/// Holds the table of a block and how an extent's index in it is worked out.
struct Table {
    edges: Vec<u32>,
    index: Index,
}

/// Holds the tables of `BLOCKS`, in this order.
struct Tables([Table; 2]);

impl Tables {
    fn right() -> Self {
        let table = |block| Table {
            edges: (0..=LAST).map(|index| raised(block, index)).collect(),
            index: rounded_up,
        };
        Self(BLOCKS.map(table))
    }

    fn of(&mut self, block: u32) -> &mut Table {
        &mut self.0[usize::from(block == 4)]
    }

    fn entry(&self, block: u64, index: u64) -> Option<u32> {
        let place = BLOCKS.iter().position(|edge| u64::from(*edge) == block)?;
        let edges = &self.0[place].edges;
        edges.get(usize::try_from(index).ok()?).copied()
    }

    /// Returns the edge that the extent's entry has. An extent past 16,384 has none, and gets the Rust's edge.
    fn edge(&self, extent: u32, block: u32) -> u32 {
        let place = usize::from(block == 4);
        let index = (self.0[place].index)(extent);
        let entry = self.entry(block.into(), index.into());
        entry.unwrap_or_else(|| (Functions::RIGHT.tile_edge)(extent, block))
    }

    /// Returns the answers by these tables.
    fn answers(&self, text: &str) -> String {
        let functions = Functions {
            tile_edge: &|extent, block| self.edge(extent, block),
            table_entry: &|block, index| self.entry(block, index),
            ..Functions::RIGHT
        };
        answers(&functions, text)
    }
}

/// Holds the stored questions that begin with a word, and the right answers to them.
struct Asked {
    text: String,
    right: String,
}

impl Asked {
    fn stored(word: &str) -> Self {
        let stored = questions::fixed();
        let lines = stored.text().split_inclusive('\n');
        let text: String = lines.filter(|line| line.starts_with(word)).collect();
        let right = answers(&Functions::RIGHT, &text);
        Self { text, right }
    }

    fn entries() -> Self {
        Self::stored("table,")
    }

    fn extents() -> Self {
        Self::stored("tile_edge,")
    }

    /// Returns the questions that these answers tell from the right ones.
    fn told_by(&self, wrong: &str) -> Vec<&str> {
        let asked = self.text.split_terminator('\n');
        let both = self.right.lines().zip(wrong.lines());
        let differing = asked.zip(both).filter(|(_, (right, wrong))| right != wrong);
        differing.map(|(question, _)| question).collect()
    }
}

/// Alters each entry of each table alone, by one block up and down: 2,052 tables. The entry itself and both ends of its extents are asked.
#[test]
fn each_wrong_entry_is_seen_by_an_entry_and_by_extents() {
    let asked = [Asked::entries(), Asked::extents()];
    for block in BLOCKS {
        for index in 0..=LAST {
            let right = raised(block, index);
            check_entry(&asked, block, index, right + block);
            check_entry(&asked, block, index, right - block);
        }
    }
}

/// Tests that an edge in place of an entry's right one is seen by the questions about the entry and both ends of its extents.
fn check_entry([entries, extents]: &[Asked; 2], block: u32, index: u32, edge: u32) {
    let mut tables = Tables::right();
    tables.of(block).edges[index as usize] = edge;
    let mut told = entries.told_by(&tables.answers(&entries.text));
    told.extend(extents.told_by(&tables.answers(&extents.text)));
    let last = 32 * index;
    let first = last.saturating_sub(31);
    for question in [
        format!("table,{block},{index}"),
        format!("tile_edge,{first},{block}"),
        format!("tile_edge,{last},{block}"),
    ] {
        assert!(
            told.contains(&&*question),
            "{edge} in entry {index} is not seen by {question}"
        );
    }
}

/// Lists wrong rules, with the blocks whose tables they alter.
const RULES: [(&str, &[u32], Rule); 8] = [
    ("entry k read at k + 1", &BLOCKS, |block, index| {
        raised(block, LAST.min(index + 1))
    }),
    ("entry k read at k - 1", &BLOCKS, |block, index| {
        raised(block, index.saturating_sub(1))
    }),
    ("the other block's table", &BLOCKS, |block, index| {
        raised(5 - block, index)
    }),
    ("the least edge left out", &BLOCKS, |block, index| {
        index.next_multiple_of(block)
    }),
    ("a least edge of 17", &BLOCKS, |block, index| {
        index.max(17).next_multiple_of(block)
    }),
    ("multiples raised too", &BLOCKS, |block, index| {
        (index.max(16) + 1).next_multiple_of(block)
    }),
    ("not raised to the block", &[4], |_, index| index.max(16)),
    ("lowered to the block", &[4], |block, index| {
        index.max(16) / block * block
    }),
];

/// Puts each wrong rule into each table alone: 14 tables.
#[test]
fn each_wrong_rule_is_seen_by_an_entry_and_by_an_extent() {
    let (entries, extents) = (Asked::entries(), Asked::extents());
    for (fault, blocks, rule) in RULES {
        for block in blocks {
            let mut tables = Tables::right();
            tables.of(*block).edges = (0..=LAST).map(|index| rule(*block, index)).collect();
            for asked in [&entries, &extents] {
                let told = asked.told_by(&tables.answers(&asked.text));
                assert!(!told.is_empty(), "{fault}, block {block}: not seen");
            }
        }
    }
}

/// Lists wrong indices.
const INDICES: [(&str, Index); 6] = [
    ("rounded down", |extent| extent / 32),
    ("rounded to the nearest", |extent| (extent + 16) / 32),
    ("one more than rounded down", |extent| extent / 32 + 1),
    ("one more than rounded up", |extent| extent.div_ceil(32) + 1),
    ("one fewer than rounded up", |extent| {
        extent.div_ceil(32).saturating_sub(1)
    }),
    ("extent over 31", |extent| extent.div_ceil(31)),
];

/// Puts each wrong index into each table alone: 12 tables. The entries are right, so that the extents alone can tell.
#[test]
fn each_wrong_index_is_seen_by_an_extent() {
    let (entries, extents) = (Asked::entries(), Asked::extents());
    for (fault, index) in INDICES {
        for block in BLOCKS {
            let mut tables = Tables::right();
            tables.of(block).index = index;
            let told = extents.told_by(&tables.answers(&extents.text));
            assert!(!told.is_empty(), "{fault}, block {block}: not seen");
            let told = entries.told_by(&tables.answers(&entries.text));
            assert!(told.is_empty(), "{fault}, block {block}: {told:?}");
        }
    }
}

/// Returns the right answer to a block and an index.
fn entry(block: u64, index: u64) -> Option<u32> {
    (Functions::RIGHT.table_entry)(block, index)
}

/// Lists functions that have other tables, or tables of other lengths.
const LIMITS: [(&str, Entry); 12] = [
    ("no entry 0", |block, index| {
        entry(block, index).filter(|_| index > 0)
    }),
    ("one entry fewer", |block, index| {
        entry(block, index).filter(|_| index < 512)
    }),
    ("one entry more", |block, index| {
        entry(block, index - u64::from(index == 513))
    }),
    ("the last entry for all after it", |block, index| {
        entry(block, index.min(512))
    }),
    ("an index of 9 bits", |block, index| {
        entry(block, index & 0x1ff)
    }),
    ("an index of 10 bits", |block, index| {
        entry(block, index & 0x3ff)
    }),
    ("an index of 32 bits", |block, index| {
        entry(block, index & 0xffff_ffff)
    }),
    ("a block of 32 bits", |block, index| {
        entry(block & 0xffff_ffff, index)
    }),
    ("block 1's table for other blocks", |block, index| {
        entry(if block == 4 { 4 } else { 1 }, index)
    }),
    ("block 4's table for other blocks", |block, index| {
        entry(if block == 1 { 1 } else { 4 }, index)
    }),
    ("a table for block 2", |block, index| {
        entry(block + 2 * u64::from(block == 2), index)
    }),
    ("block and index exchanged", |block, index| {
        entry(index, block)
    }),
];

/// Answers by each of these: 12 functions. The edges at extents are the right ones, so that the entries alone can tell.
#[test]
fn each_wrong_limit_is_seen_by_an_entry() {
    let entries = Asked::entries();
    for (fault, wrong) in LIMITS {
        let functions = Functions {
            table_entry: &wrong,
            ..Functions::RIGHT
        };
        let told = entries.told_by(&answers(&functions, &entries.text));
        assert!(!told.is_empty(), "{fault}: not seen");
    }
}

/// Shows that the tables above alter nothing by themselves: otherwise every fault would be seen, whatever is asked.
#[test]
fn tables_without_a_fault_are_not_seen() {
    for list in [questions::fixed(), questions::seeded(1, 20_000)] {
        let right = answers(&Functions::RIGHT, list.text());
        assert_eq!(Tables::right().answers(list.text()), right);
    }
}
