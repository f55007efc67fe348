//! rustc-hash 1.1 with the name that version 2 gave its builder.

pub use rustc_hash::FxHasher;

#[derive(Clone, Copy, Debug, Default)]
pub struct FxBuildHasher;

impl std::hash::BuildHasher for FxBuildHasher {
    type Hasher = FxHasher;
    fn build_hasher(&self) -> FxHasher {
        FxHasher::default()
    }
}
