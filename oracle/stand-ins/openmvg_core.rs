//! Stand-in for openmvg_core: names that the kernel's text needs to compile. Nothing here is ever run: the random start of
//! positions is no part of the linear step.

#[derive(Clone, Copy, Debug, PartialEq)]
pub struct RunSeed(u64);

impl RunSeed {
    pub const fn from_u64(seed: u64) -> Self {
        Self(seed)
    }

    pub fn derive(self, _name: &str, _path: &[u64]) -> Self {
        unreachable!("positions are given, never drawn")
    }
}

pub mod determinism {
    pub struct AlgorithmRng;

    impl AlgorithmRng {
        pub fn new(_seed: super::RunSeed) -> Self {
            unreachable!("positions are given, never drawn")
        }

        pub fn symmetric_unit_f64(&mut self) -> f64 {
            unreachable!("positions are given, never drawn")
        }
    }
}
