//! Kinds of grade.

pub trait Grade: Copy + PartialEq {
    const LOWEST: Self;
    const HIGHEST: Self;
    fn join(self, other: Self) -> Self;
    fn meet(self, other: Self) -> Self;
    fn turn(self) -> Self;
    fn to_number(self) -> u32;
    fn from_number(number: u32) -> Option<Self>;
}

impl Grade for bool {
    const LOWEST: bool = false;
    const HIGHEST: bool = true;

    fn join(self, other: bool) -> bool {
        self | other
    }

    fn meet(self, other: bool) -> bool {
        self & other
    }

    fn turn(self) -> bool {
        !self
    }

    fn to_number(self) -> u32 {
        self as u32
    }

    fn from_number(number: u32) -> Option<bool> {
        match number {
            0 => Some(false),
            1 => Some(true),
            _ => None,
        }
    }
}

#[derive(Clone, Copy, PartialEq, Eq)]
pub struct StageSet(pub u32);

impl Grade for StageSet {
    const LOWEST: StageSet = StageSet(0);
    const HIGHEST: StageSet = StageSet(u32::MAX);

    fn join(self, other: StageSet) -> StageSet {
        StageSet(self.0 | other.0)
    }

    fn meet(self, other: StageSet) -> StageSet {
        StageSet(self.0 & other.0)
    }

    fn turn(self) -> StageSet {
        StageSet(!self.0)
    }

    fn to_number(self) -> u32 {
        self.0
    }

    fn from_number(number: u32) -> Option<StageSet> {
        Some(StageSet(number))
    }
}
