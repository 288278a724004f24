//! The memory that a caller lends, in the layout of docs/POOL.md ("What is lent"): numbers and nothing else.

use crate::text::push_field;

/// Numbers that a place has in each of the six slices: in `newest` a grid's newest stamp and its tiling; stamps are lent by the page.
pub const STRIDES: [usize; 6] = [22, 7, 2, 3, 2, 1_024];

/// The most grids of a history: six slices of fifteen levels.
pub const MOST_GRIDS: usize = 90;

/// The six slices, by their place in `Memory::slices`.
pub const TEXTURES: usize = 0;
pub const RETIRING: usize = 1;
pub const DOOMED: usize = 2;
pub const SPARES: usize = 3;
pub const NEWEST: usize = 4;
pub const STAMPS: usize = 5;

/// The counts, by their place in `Memory::counts`. `GRIDS` counts numbers of `newest`, two for each grid.
pub const TRACKED: usize = 0;
pub const KEPT: usize = 1;
pub const GRIDS: usize = 2;
pub const STAMPED: usize = 3;
pub const HEAD: usize = 4;
pub const POPPED: usize = 5;
pub const QUEUED: usize = 6;
pub const FIRST: usize = 7;
pub const WAITING: usize = 8;
pub const SINCE: usize = 9;
pub const TRACKINGS: usize = 10;
pub const PARKED: usize = 11;
pub const DOOMING: usize = 12;
pub const CAP: usize = 13;
pub const LINE: usize = 14;

/// The pacing book behind its eight arrivals, by place in `Memory::book`.
pub const SLOT: usize = 8;
pub const PRESSED: usize = 9;
pub const EXCESS: usize = 10;

/// What a texture's record has behind its id and the twelve numbers of its shape. `FIRST_GRID` is a place in `newest`.
pub const TRACKING: usize = 13;
pub const HISTORY: usize = 14;
pub const BIRTH: usize = 15;
pub const RENAME: usize = 16;
pub const DUE: usize = 17;
pub const OWN_SPARES: usize = 18;
pub const BYTES: usize = 19;
pub const FIRST_GRID: usize = 20;
pub const FIRST_STAMP: usize = 21;

/// What stands in `newest` behind a grid's newest stamp: how many stamps of its history stand before its own, and its tiles' edges.
#[derive(Clone, Copy, Debug, PartialEq, Eq)]
pub struct Tiling {
    pub start: u64,
    pub across: u64,
    pub down: u64,
}

impl Tiling {
    /// Packs the three into one number: the start below 2^17, the edge across below 2^32, the edge down above.
    pub const fn number(&self) -> u64 {
        self.start + (self.across << 17) + (self.down << 32)
    }
}

/// The most values that one put line has behind its store and index.
const MOST_VALUES: usize = 14;

/// Everything that is lent but the answer buffers.
#[derive(Clone, Debug, PartialEq, Eq)]
pub struct Memory {
    pub counts: [u64; 15],
    pub book: [u64; 11],
    pub slices: [Vec<u64>; 6],
}

impl Memory {
    /// Zeros, with this many places.
    pub fn lent(textures: usize, versions: usize, pages: usize) -> Self {
        let grids = grid_places(textures, STRIDES[STAMPS] * pages);
        let places = [textures, versions, versions, versions, grids, pages];
        let slices = std::array::from_fn(|at| vec![0; STRIDES[at] * places[at]]);
        Self {
            counts: [0; 15],
            book: [0; 11],
            slices,
        }
    }

    /// Numbers that `newest` is to have, by the textures and stamps that are lent.
    pub fn newest_length(&self) -> usize {
        STRIDES[NEWEST] * grid_places(self.places(TEXTURES), self.slices[STAMPS].len())
    }

    /// Whole places of a slice.
    pub fn places(&self, slice: usize) -> usize {
        self.slices[slice].len() / STRIDES[slice]
    }

    /// One place of a slice.
    pub fn record(&self, slice: usize, place: usize) -> &[u64] {
        &self.slices[slice][STRIDES[slice] * place..][..STRIDES[slice]]
    }

    pub fn record_mut(&mut self, slice: usize, place: usize) -> &mut [u64] {
        &mut self.slices[slice][STRIDES[slice] * place..][..STRIDES[slice]]
    }

    /// The places of a ring that begins at `head` and has `count` records.
    pub fn ring(&self, slice: usize, head: u64, count: u64) -> impl Iterator<Item = usize> + use<> {
        let places = self.places(slice) as u64;
        (0..count).map(move |at| ((head + at) % places) as usize)
    }

    /// A store by the number that a put line gives it.
    pub fn store(&self, number: usize) -> &[u64] {
        match number {
            0 => &self.counts,
            1 => &self.book,
            _ => &self.slices[number - 2],
        }
    }

    /// One number of a store.
    pub fn number_mut(&mut self, store: usize, index: usize) -> &mut u64 {
        match store {
            0 => &mut self.counts[index],
            1 => &mut self.book[index],
            _ => &mut self.slices[store - 2][index],
        }
    }

    /// How many numbers are not 0.
    pub fn weight(&self) -> usize {
        let stores = (0..8).flat_map(|number| self.store(number));
        stores.filter(|number| **number != 0).count()
    }

    /// The line that a list on this memory begins with: places if the lengths are those of places, else lengths.
    pub fn header(&self, answers: usize, name: &str) -> String {
        let [textures, versions, pages] = [TEXTURES, RETIRING, STAMPS].map(|at| self.places(at));
        let whole = Self::lent(textures, versions, pages);
        let same = (0..6).all(|at| self.slices[at].len() == whole.slices[at].len());
        if same {
            return format!("=,{textures},{versions},{pages},{answers},{name}\n");
        }
        let lengths: Vec<String> = (self.slices.iter())
            .map(|slice| slice.len().to_string())
            .collect();
        let (copies, lengths) = (7 * answers, lengths.join(","));
        format!("=,{lengths},{copies},{answers},{name}\n")
    }

    /// The lines that put every number that is not 0; tells how many they are.
    pub fn push_puts(&self, out: &mut Vec<u8>) -> u64 {
        let mut lines = 0;
        for number in 0..8 {
            let store = self.store(number);
            let mut at = 0;
            while let Some(next) = store[at..].iter().position(|value| *value != 0) {
                let start = at + next;
                let end = run_end(store, start);
                out.extend_from_slice(b"put");
                push_field(out, number as u64);
                push_field(out, start as u64);
                store[start..end]
                    .iter()
                    .for_each(|value| push_field(out, *value));
                out.push(b'\n');
                lines += 1;
                at = end;
            }
        }
        lines
    }
}

/// How many grids there can be: no more than ninety a texture, nor than stamps.
fn grid_places(textures: usize, stamps: usize) -> usize {
    (MOST_GRIDS * textures).min(stamps)
}

/// Where the numbers of one line end that begins at `start`: not with 0, and with no more than three zeros in a row.
fn run_end(store: &[u64], start: usize) -> usize {
    let most = store.len().min(start + MOST_VALUES);
    let mut end = start + 1;
    for at in start + 1..most {
        if store[at] != 0 {
            end = at + 1;
        } else if at >= end + 3 {
            break;
        }
    }
    end
}
