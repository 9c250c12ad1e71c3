// Drafts of calls whose arguments stand at and around their limits, in order or
// not: every choice of every two arguments, and any choice of up to four.

use sides::random::Random;

/// How an argument is chosen: a number, or one that depends on the others.
#[derive(Clone, Copy)]
pub enum Pick {
    Is(usize),
    /// The least that is in order, or the first that is not (of a position),
    /// and so much more.
    Limit(i64),
}

pub const TOP: usize = usize::MAX;

/// The choices of each of a call's arguments. The first of each is in order,
/// whatever the others are.
pub type Choices<const N: usize> = [&'static [Pick]; N];

/// Which of its choices each argument takes.
pub type Draft<const N: usize> = [usize; N];

/// An argument's value, given its limit in this call.
pub fn resolved(pick: Pick, limit: u128) -> usize {
    match pick {
        Pick::Is(n) => n,
        Pick::Limit(more) => (limit as i128 + i128::from(more)).clamp(0, TOP as i128) as usize,
    }
}

pub fn every_pair<const N: usize>(choices: &Choices<N>, mut visit: impl FnMut(&Draft<N>)) {
    for a in 0..N {
        for b in a + 1..N {
            for i in 0..choices[a].len() {
                for j in 0..choices[b].len() {
                    let mut draft = [0; N];
                    draft[a] = i;
                    draft[b] = j;
                    visit(&draft);
                }
            }
        }
    }
}

pub fn any_draft<const N: usize>(choices: &Choices<N>, random: &mut Random) -> Draft<N> {
    let mut draft = [0; N];
    for _ in 0..random.below(5) {
        let argument = random.below(N);
        draft[argument] = random.below(choices[argument].len());
    }
    draft
}

/// Zeros after a megabyte of noise; what is never looked at costs no memory.
pub fn long_plane(bytes: u128, random: &mut Random) -> Vec<u8> {
    let mut plane = vec![0u8; bytes as usize];
    random.fill(&mut plane[..1 << 20]);
    plane
}

/// The first `length` bytes, or all where there are fewer.
pub fn part(bytes: &[u8], length: usize) -> &[u8] {
    &bytes[..length.min(bytes.len())]
}
