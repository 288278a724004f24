//! What the programs here have in common: the textures, their ids and the clock, as crates/bench_calls and crates/bench_common have them.

use compare::standins::mtl::{PixelFormat, StorageMode, Swizzle, TextureCreateFlags, TextureUsage};
use compare::standins::{TextureCreateDesc, TextureId};
use compare::texture_versions::TexelRect;

unsafe extern "C" {
    /// The processor time of the process, in microseconds.
    pub safe fn clock() -> i64;
}

/// 64 by 64 texels of four bytes, sixteen tiles; where the number of textures is odd, 512 by 512 of one byte, with as many tiles as a page has stamps.
pub fn bench_desc(n: u64, levels: u32) -> TextureCreateDesc {
    let (format, extent) = if n % 2 == 1 { (0, 512) } else { (2, 64) };
    square_desc(format, extent, 1, levels, 0)
}

/// Returns a texture as wide as it is high, by the numbers of its format and its kind.
pub fn square_desc(
    format: u64,
    extent: u32,
    depth: u32,
    levels: u32,
    kind: u64,
) -> TextureCreateDesc {
    TextureCreateDesc {
        width: extent,
        height: extent,
        depth,
        levels,
        pixel_format: PixelFormat::numbered(format).expect("a format"),
        storage_mode: StorageMode(0),
        flags: TextureCreateFlags::of_kind(kind).expect("a kind"),
        usage_flags: TextureUsage::from_bits(0),
        swizzle_r: Swizzle(0),
        swizzle_g: Swizzle(0),
        swizzle_b: Swizzle(0),
        swizzle_a: Swizzle(0),
    }
}

/// Ten by ten texels, at another place for each texture and in each round.
pub fn rect_of(i: u64, seq: u64) -> TexelRect {
    let (a, b) = (i % 65_536, seq % 65_536);
    TexelRect::new(
        ((13 * a + 7 * b) % 54) as u32,
        ((5 * a + 11 * b) % 54) as u32,
        10,
        10,
    )
}

/// Marsaglia's xorshift.
fn mixed(x: u64) -> u64 {
    let a = x ^ (x << 13);
    let b = a ^ (a >> 7);
    b ^ (b << 17)
}

/// Returns a random number of 64 bits, always the same for one `x`.
pub fn random_from(x: u64) -> u64 {
    mixed(mixed(mixed(x.wrapping_add(88_172_645_463_325_252))))
}

/// The ids of `n` textures: small ones, or random ones of 64 bits for the order 2.
pub fn ids_of(n: u64, order: u64) -> Vec<TextureId> {
    let id = |i: u64| {
        if order == 2 {
            random_from(i)
        } else {
            i % 65_536 * 40_503 % 65_536
        }
    };
    (0..n).map(|i| TextureId::from_raw(id(i))).collect()
}

/// The ids in another order: each changes places with one that is drawn among those up to it.
pub fn shuffle(ids: &mut [TextureId], seed: u64) {
    let mut drawn = random_from(seed);
    for i in 0..ids.len() {
        drawn = mixed(drawn);
        ids.swap(i, (drawn % (i as u64 + 1)) as usize);
    }
}
