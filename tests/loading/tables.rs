//! The four tables that loading is lent.
use common::prng::Prng;

/// "11 work area under 16,384 words"
pub const WORK: usize = 16_384;
pub const ROW: usize = 8;
/// The word of a row that says where its term starts.
pub const OFFSET: usize = ROW - 1;
pub const RECORD: usize = 5;

/// One thing for each table: its length in words, or its words.
#[derive(Clone, Copy, Debug, Eq, Ord, PartialEq, PartialOrd)]
pub struct Tables<T> {
    pub surface: T,
    pub core: T,
    pub declarations: T,
    pub work: T,
}

pub type Sizes = Tables<usize>;

/// "It lends 1,024 rows to each row table, 256 declarations and a work area of 16,384 words."
pub const LISTING: Sizes = Tables { surface: 1_024 * ROW, core: 1_024 * ROW, declarations: 256 * RECORD, work: WORK };

impl<T> Tables<T> {
    pub fn map<U>(self, mut of: impl FnMut(T) -> U) -> Tables<U> {
        Tables {
            surface: of(self.surface),
            core: of(self.core),
            declarations: of(self.declarations),
            work: of(self.work),
        }
    }

    pub fn each_mut(&mut self) -> Tables<&mut T> {
        Tables {
            surface: &mut self.surface,
            core: &mut self.core,
            declarations: &mut self.declarations,
            work: &mut self.work,
        }
    }

    pub fn named(&self) -> [(&'static str, &T); 4] {
        [("surface", &self.surface), ("core", &self.core), ("declarations", &self.declarations), ("work", &self.work)]
    }
}

/// What the lent words are before a call: never 0, so that a word that should be cleared is seen.
#[derive(Clone, Copy, Debug)]
pub enum Rubbish {
    Ones,
    /// Numbers that could be kinds, rows and lengths.
    Small,
    Mixed,
    /// Any numbers, from a seed.
    Random(u64),
}

impl Rubbish {
    pub const ALL: [Self; 3] = [Self::Ones, Self::Small, Self::Mixed];

    pub fn words(self, count: usize) -> Vec<u32> {
        match self {
            Self::Ones => vec![u32::MAX; count],
            Self::Small => (0..count as u32).map(|at| at % 32 + 1).collect(),
            Self::Mixed => (0..count as u32).map(|at| at.wrapping_mul(0x9e37_79b1) | 1).collect(),
            Self::Random(seed) => {
                let mut prng = Prng::new(seed);
                (0..count).map(|_| (prng.bits() as u32).max(1)).collect()
            }
        }
    }
}
