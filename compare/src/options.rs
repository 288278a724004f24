//! The sizes of a program, named on the command line of every binary that needs them.

use crate::limited::Limits;

/// What the usage of a binary says of them.
pub const SIZES: &str = "[--textures N] [--versions N] [--pages N] [--answers N]";

/// What the sizes are.
pub const SIZES_HELP: &str = "textures and versions 1 to 4096 (8 and 64), pages 0 to 4096 (6), answers (90): entries of an answer buffer";

/// Takes the sizes out of a command line; the other words stay in their order.
pub fn take_sizes(words: Vec<String>) -> Result<(Limits, Vec<String>), String> {
    let mut limits = Limits::default();
    let mut others = Vec::new();
    let mut words = words.into_iter();
    while let Some(word) = words.next() {
        let (place, least, most) = match word.as_str() {
            "--textures" => (&mut limits.textures, 1, 4_096),
            "--versions" => (&mut limits.versions, 1, 4_096),
            "--pages" => (&mut limits.pages, 0, 4_096),
            "--answers" => (&mut limits.answers, 0, usize::MAX),
            _ => {
                others.push(word);
                continue;
            }
        };
        let value = words.next().ok_or(format!("{word} lacks its number"))?;
        *place = value
            .parse()
            .ok()
            .filter(|size| (least..=most).contains(size))
            .ok_or(format!(
                "{word} {value}: not a number from {least} to {most}"
            ))?;
    }
    Ok((limits, others))
}
