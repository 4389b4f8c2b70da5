//! A plain Rust program for the two-phase-commit ledger, to measure against.
pub mod sha;
pub mod types;
pub mod bytes;
pub mod files;
pub mod disk;
pub mod journal;
pub mod record;
pub mod shard;
pub mod coord;
pub mod batch;
pub mod lane;
pub mod audit;
pub mod text;
pub mod gen;
pub mod commands;
