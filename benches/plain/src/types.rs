use std::hash::{BuildHasherDefault, Hash, Hasher};

pub const TOP: u64 = 1 << 62;
pub const TOP_LATER: u64 = (1 << 62) + (1 << 20);

/// A hash, hashed by its own bytes 8 to 15.
#[derive(Clone, Copy, PartialEq, Eq, Debug)]
#[repr(transparent)]
pub struct H(pub [u8; 32]);
impl Hash for H {
    #[inline]
    fn hash<S: Hasher>(&self, s: &mut S) {
        s.write_u64(u64::from_le_bytes(self.0[8..16].try_into().unwrap()))
    }
}
/// A transaction id with an input index.
#[derive(Clone, Copy, PartialEq, Eq, Debug)]
pub struct HI(pub [u8; 32], pub u8);
impl Hash for HI {
    #[inline]
    fn hash<S: Hasher>(&self, s: &mut S) {
        let x = u64::from_le_bytes(self.0[8..16].try_into().unwrap());
        s.write_u64(x ^ (self.1 as u64).wrapping_mul(0x9e37_79b9_7f4a_7c15))
    }
}
#[derive(Default, Clone, Copy)]
pub struct Own(u64);
impl Hasher for Own {
    #[inline]
    fn finish(&self) -> u64 {
        self.0
    }
    fn write(&mut self, _: &[u8]) {
        unreachable!()
    }
    #[inline]
    fn write_u64(&mut self, x: u64) {
        self.0 = x
    }
}
pub type Map<K, V> = std::collections::HashMap<K, V, BuildHasherDefault<Own>>;

#[derive(Clone, Copy, PartialEq, Eq, Debug)]
pub struct Shape {
    pub shards: u32,
    pub coords: u32,
    pub lanes: u32,
    pub batch: u32,
}
impl Shape {
    #[inline]
    pub fn lane_count(&self) -> u32 {
        self.coords * self.lanes
    }
    #[inline]
    pub fn shard_of(&self, b: u8) -> u32 {
        (b as u32 * self.shards) >> 8
    }
    pub fn nodes(&self) -> u32 {
        self.coords + self.shards
    }
    pub fn ok(&self) -> bool {
        (1..=64).contains(&self.shards)
            && (1..=16).contains(&self.coords)
            && (1..=16).contains(&self.lanes)
            && (1..=1024).contains(&self.batch)
    }
}

#[derive(Clone, Copy, PartialEq, Eq, Debug)]
pub struct Header {
    pub node: u64,
    pub shape: Shape,
    pub genesis: [u8; 32],
}

#[derive(Clone, PartialEq, Eq, Debug)]
pub enum Fail {
    Missing([u8; 32]),
    Locked([u8; 32], u32, u64),
}

#[derive(Clone, PartialEq, Eq, Debug)]
pub enum Refusal {
    NoInputs,
    NoOutputs,
    WitnessCount,
    RepeatedInput(u8),
    ZeroInput(u8),
    ZeroOutput(u8),
    InputOverflow,
    OutputOverflow,
    Unbalanced(u64, u64),
    BurnedInput(u8),
    PermitCount(u8, u8),
    PermitRaised(u64, u64),
    BadWitness(u8),
    Unverified(u8),
}

pub struct Rejected {
    pub number: u64,
    pub shard: u32,
    pub fail: Fail,
}

pub enum Fate {
    Confirmed(u64),
    Rejected(Box<Rejected>),
    Refused(Box<Refusal>),
}

/// The answer of a command other than Ok.
#[derive(Debug, Clone, PartialEq, Eq)]
pub enum Fault {
    Words,
    Input(String, u64, &'static str),
    Minted(u128),
    NotReady(u32),
    Foreign(u32),
    NotEmpty(u32),
    Full(u32, u64, u64, u64),
    Unsound(u64, String),
    Clock(u32, u64),
    Damaged(u32, u64),
    Read(String),
    Write,
    Disk(u32),
    /// No answer of a ledger that is in order: a shard refused its own lane's call.
    Refused(u32),
}

#[inline]
pub fn u64_at(b: &[u8], at: usize) -> u64 {
    u64::from_le_bytes(b[at..at + 8].try_into().unwrap())
}
#[inline]
pub fn h_at(b: &[u8], at: usize) -> [u8; 32] {
    b[at..at + 32].try_into().unwrap()
}
#[inline]
pub fn put(v: &mut Vec<u8>, x: u64) {
    v.extend_from_slice(&x.to_le_bytes())
}
