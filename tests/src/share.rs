//! How much of a comparison is run. `make whole`, and a plain `cargo test`, run all of it. The gate runs a fourth of what is
//! drawn where drawing is dear (the feature `fourth`), and all else whole. On a machine that is not x86-64 it runs a tenth
//! besides, drawn or not, on the shipped archive under an emulator (the feature `tenth`).
//!
//! Seeds are the same in all three. A cell of a table wants as much less as is drawn, and where so few draws leave one short
//! they go on ([`goes_on`]), so that none is empty.

const TENTH: bool = cfg!(feature = "tenth");
/// Into how many parts all that is run is cut, of which one is run, and what is drawn where that is dear.
const ALL_IN: usize = if TENTH { 10 } else { 1 };
const DRAWN_IN: usize = if TENTH || !cfg!(feature = "fourth") { ALL_IN } else { 4 };

/// So many draws, or of a share as many fewer; never none.
pub const fn share(whole: usize) -> usize {
    whole.div_ceil(DRAWN_IN)
}

/// So many, or under an emulator a tenth of them; never none.
pub const fn tenth(whole: usize) -> usize {
    whole.div_ceil(ALL_IN)
}

/// Whether one more is drawn: the least at any rate, and then on until nothing is missing, at most as many as of the whole.
/// What the whole fills a share fills too: it draws the same, and wants no more of it.
pub fn goes_on(turn: usize, least: usize, whole: usize, full: impl FnOnce() -> bool) -> bool {
    turn < least || turn < whole && !full()
}

/// Whether the input with this number is run. Of each ten it is another one, so that no bit is the same in all of them.
pub const fn in_tenth(at: usize) -> bool {
    at % ALL_IN == at / ALL_IN % ALL_IN
}

/// All of them, or one of each ten.
pub fn tenths<T>(all: impl IntoIterator<Item = T>) -> impl Iterator<Item = T> {
    all.into_iter().enumerate().filter(|(at, _)| in_tenth(*at)).map(|(_, one)| one)
}
