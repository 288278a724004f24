//! The memory that the published Rust holds, by a counting allocator: `memory`.
//!
//! A line for each number of textures: what the bytes are for, how many textures, bytes held, and the most held on the way there.

use std::alloc::{GlobalAlloc, Layout, System};
use std::sync::atomic::{AtomicUsize, Ordering::Relaxed};

use bench::{bench_desc, ids_of, rect_of};
use compare::texture_versions::{Retiring, Spare, TextureVersions, VersionBudget, VersionShape};

/// Counts the bytes asked for, without what the allocator adds.
struct Counting;

static HELD: AtomicUsize = AtomicUsize::new(0);
static MOST: AtomicUsize = AtomicUsize::new(0);

// SAFETY: every call goes to the system's allocator as it came.
unsafe impl GlobalAlloc for Counting {
    unsafe fn alloc(&self, layout: Layout) -> *mut u8 {
        let held = HELD.fetch_add(layout.size(), Relaxed) + layout.size();
        MOST.fetch_max(held, Relaxed);
        unsafe { System.alloc(layout) }
    }

    unsafe fn dealloc(&self, pointer: *mut u8, layout: Layout) {
        HELD.fetch_sub(layout.size(), Relaxed);
        unsafe { System.dealloc(pointer, layout) }
    }
}

#[global_allocator]
static COUNTING: Counting = Counting;

/// What `work` holds afterwards beyond what was held before it, and the most on the way.
fn held_by<T>(work: impl FnOnce() -> T) -> (T, usize, usize) {
    let before = HELD.load(Relaxed);
    MOST.store(before, Relaxed);
    let made = work();
    let held = HELD.load(Relaxed) - before;
    (made, held, MOST.load(Relaxed) - before)
}

fn fresh() -> TextureVersions<u64> {
    TextureVersions::new(VersionBudget::from_working_set(17_179_869_184))
}

fn tracked(n: u64, extent_of: u64, records: bool) -> TextureVersions<u64> {
    let mut pool = fresh();
    for id in ids_of(n, 2) {
        pool.take_spare(
            id,
            VersionShape::of(&bench_desc(extent_of, 1)),
            records,
            1,
        );
    }
    pool
}

fn print(word: &str, n: u64, held: usize, most: usize) {
    println!("{word} {n} {held} {most}");
}

fn main() {
    println!("size_pool {}", size_of::<TextureVersions<u64>>());
    println!("size_retiring {}", size_of::<Retiring<u64>>());
    println!("size_spare {}", size_of::<Spare<u64>>());
    println!("size_doomed {}", size_of::<(u64, u64)>());
    for n in [8, 64, 512, 4096] {
        let (_plain, held, most) = held_by(|| tracked(n, 0, false));
        print("textures", n, held, most);
        for (word, extent_of) in [("grids_16", 0), ("grids_1024", 1)] {
            let (_pool, with, most) = held_by(|| tracked(n, extent_of, true));
            print(word, n, with - held, most);
        }
        versions(n);
    }
}

/// One version of each of `n` textures, in each of the three places that it can be in.
fn versions(n: u64) {
    let mut pool = tracked(n, 0, true);
    let ids = ids_of(n, 2);
    let ((), held, most) = held_by(|| {
        for (i, id) in ids.iter().enumerate() {
            pool.retire(*id, 1, 1);
            pool.note_write(*id, 0, 0, &rect_of(i as u64, 1));
        }
    });
    print("retiring", n, held, most);
    let ((), held, most) = held_by(|| {
        while let Some(version) = pool.pop_retired(1) {
            pool.park(version, 0, 1);
        }
    });
    print("spares", n, held, most);
    // Versions of textures that are not tracked are to be destroyed at once.
    let mut pool = fresh();
    for id in &ids {
        pool.retire(*id, 1, 1);
    }
    let ((), held, most) = held_by(|| {
        while let Some(version) = pool.pop_retired(1) {
            pool.park(version, 0, 1);
        }
    });
    print("doomed", n, held, most);
}
