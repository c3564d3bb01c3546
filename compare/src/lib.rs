//! An independent second checker for Linear Programs with their certificates and traces, converters
//! between the two forms of a certificate, trimming, choices made definite, builders and generators of
//! inputs, and a driver that compares others with them.

pub mod benchmark;
pub mod build;
pub mod checker;
pub mod compare;
pub mod convert;
pub mod definite;
pub mod examples;
pub mod explain;
pub mod families;
pub mod files;
pub mod generate;
pub mod plans;
pub mod proved;
pub mod random;
pub mod trim;
