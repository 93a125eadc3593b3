//! Decides Kubernetes admission in process, under ValidatingAdmissionPolicies.
//!
//! ```no_run
//! # fn main() -> Result<(), Box<dyn std::error::Error>> {
//! # let (policy, review) = (b"", b"");
//! let mut gate = celbpf::Gate::new(policy)?;
//! let response = gate.decide(&celbpf::Request::of(review))?;
//! println!("{} {}", response.allowed, String::from_utf8_lossy(&response.json));
//! # Ok(())
//! # }
//! ```
//!
//! A [`Gate`] is a policy that is compiled once. It is `Send` and takes `&mut self`, so give each thread one. The
//! decisions are those of the program gatekeeper, byte for byte: both are the same proved code. This crate is a thin
//! layer over it, and is not proved. [`Gate::decide_within`] takes another limit of reads than [`DEFAULT_READS`];
//! [`Gate::new_in`] reads a policy as the program celbpf does.
#![deny(missing_docs)]

mod ffi;
mod gate;
mod refusal;

pub use gate::{compile, review, review_in, review_within, Gate, Language, Request, Response, DEFAULT_READS, DEFAULT_STEPS};
pub use refusal::{Refusal, Status};
