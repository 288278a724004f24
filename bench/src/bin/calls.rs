//! The workloads of crates/bench_calls over the published Rust: `calls WORKLOAD ORDER TEXTURES ROUNDS`.
//!
//! The phases, the ids, the rectangles and the clock are those of the Rattle program, so that the two are compared line by line.

use std::env;
use std::hint::black_box;

use bench::{bench_desc, clock, ids_of, rect_of, shuffle};
use compare::standins::{TextureCreateDesc, TextureId};
use compare::texture_versions::inspect;
use compare::texture_versions::{TextureVersions, UploadFootprint, VersionBudget, VersionShape};

/// The phases of a round by their numbers in crates/bench_calls/src/phases.rt: phase by phase, by textures, by lifetimes,
/// and by textures without the calls that are for none.
const WORKLOADS: [&[usize]; 4] = [
    &[0, 1, 2, 3, 13, 6, 7, 8],
    &[12, 13, 6, 7, 8],
    &[0, 2, 9, 13, 10, 11],
    &[12, 13],
];

/// Calls a round of the kinds that are for no texture.
const REPEATS: u64 = 8;

/// Rounds after which every texture is forgotten.
const LIFETIME: u64 = 16;

struct Work {
    pool: TextureVersions<u64>,
    desc: TextureCreateDesc,
    shape: VersionShape,
    ids: Vec<TextureId>,
    held: Vec<Option<u64>>,
}

impl Work {
    fn new(n: u64, levels: u32, order: u64) -> Self {
        let desc = bench_desc(n, levels);
        Self {
            pool: TextureVersions::new(VersionBudget::from_working_set(17_179_869_184)),
            shape: VersionShape::of(&desc),
            desc,
            ids: ids_of(n, order),
            held: vec![None; n as usize],
        }
    }

    /// The sum of what the phase's calls answer, as the Rattle program counts it.
    fn phase(&mut self, phase: usize, seq: u64) -> u64 {
        let n = self.ids.len();
        match phase {
            0 => (0..n).map(|i| self.take(i, seq)).sum(),
            1 => (0..n).map(|i| self.plan(i)).sum(),
            2 => (0..n).map(|i| self.retire(i, seq)).sum(),
            3 => (0..n).map(|i| self.write(i, seq)).sum(),
            6 => {
                for _ in 0..REPEATS {
                    self.pool.note_allocated(black_box(1_048_576));
                }
                0
            }
            7 => (0..REPEATS)
                .map(|_| black_box(self.pool.take_doomed()).len() as u64)
                .sum(),
            8 => {
                for _ in 0..REPEATS {
                    self.pool.trim(seq);
                }
                0
            }
            9 => {
                for id in &self.ids {
                    self.pool.note_mip_regeneration(*id);
                }
                0
            }
            10 => black_box(self.pool.drain_versions()).len() as u64,
            11 => {
                if seq % LIFETIME == 0 {
                    for id in &self.ids {
                        self.pool.forget_texture(*id);
                    }
                }
                0
            }
            12 => (0..n)
                .map(|i| {
                    self.take(i, seq) + self.plan(i) + self.retire(i, seq) + self.write(i, seq)
                })
                .sum(),
            _ => (0..n).map(|_| self.settle(seq)).sum(),
        }
    }

    fn take(&mut self, i: usize, seq: u64) -> u64 {
        let shape = VersionShape::of(&self.desc);
        let spare = self.pool.take_spare(self.ids[i], shape, true, seq);
        let held = spare.and_then(|s| s.into_parts().1);
        self.held[i] = held;
        held.map_or(0, |writes| writes + 1)
    }

    fn plan(&mut self, i: usize) -> u64 {
        let upload = UploadFootprint::new(0, 0, false);
        let plan = self
            .pool
            .preserve_plan(self.ids[i], &self.shape, self.held[i], &upload);
        black_box(plan).len() as u64
    }

    fn retire(&mut self, i: usize, seq: u64) -> u64 {
        self.pool.retire(self.ids[i], seq, seq);
        0
    }

    fn write(&mut self, i: usize, seq: u64) -> u64 {
        self.pool
            .note_write(self.ids[i], 0, 0, &rect_of(i as u64, seq));
        0
    }

    fn settle(&mut self, seq: u64) -> u64 {
        let Some(version) = self.pool.pop_retired(seq) else {
            return 0;
        };
        let view = *version.views();
        self.pool.park(version, 0, seq);
        view
    }
}

/// Whether the time counts. The first rounds do not, nor the first lifetime; of a lifetime's takes only those of textures that are not tracked.
fn is_counted(workload: u64, phase: usize, seq: u64) -> bool {
    if workload != 2 {
        return seq >= 8;
    }
    seq > LIFETIME
        && match phase {
            0 => seq % LIFETIME == 1,
            11 => seq % LIFETIME == 0,
            _ => true,
        }
}

/// So many readings of the clock, one right after the other: what reading it costs.
fn idle_time(readings: u64) -> i64 {
    (0..readings).map(|_| -clock() + clock()).sum()
}

fn main() {
    let numbers: Vec<u64> = env::args()
        .skip(1)
        .map(|a| a.parse().expect("a number"))
        .collect();
    let [workload, order, n, rounds] = numbers[..] else {
        panic!("calls WORKLOAD ORDER TEXTURES ROUNDS")
    };
    let levels = if workload == 2 && n <= 1024 { 4 } else { 1 };
    let mut work = Work::new(n, levels, order);
    let (mut times, mut sums) = ([0; 14], [0u64; 14]);
    for seq in 1..=rounds {
        if order != 0 {
            shuffle(&mut work.ids, seq);
        }
        for &phase in WORKLOADS[workload as usize] {
            let start = clock();
            sums[phase] += work.phase(phase, seq);
            let time = clock() - start;
            if is_counted(workload, phase, seq) {
                times[phase] += time;
            }
        }
    }
    println!("clock {}", idle_time(100_000));
    for (phase, (time, sum)) in times.iter().zip(sums).enumerate() {
        println!("{phase} {time} {sum}");
    }
    println!("versions {}", inspect::versions(&work.pool));
    println!("grids {}", inspect::grids_used(&work.pool));
    println!("stamps {}", inspect::stamps_used(&work.pool));
    println!("tracked {}", inspect::tracked(&work.pool));
    println!("trackings {}", inspect::trackings(&work.pool));
    println!("id {}", work.ids[0].raw());
}
