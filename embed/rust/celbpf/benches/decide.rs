//! How fast a gate decides the first example. `cargo bench`
use celbpf::{Gate, Request};
use std::fs;
use std::path::Path;
use std::time::Instant;

fn main() {
    let folder = Path::new(env!("CARGO_MANIFEST_DIR")).join("../../../examples/policies/replicas");
    let policy = fs::read(folder.join("policy.json")).unwrap();
    let review = fs::read(folder.join("five.review.json")).unwrap();
    let mut gate = Gate::new(&policy).unwrap();
    let count = 100_000;
    let began = Instant::now();
    for _ in 0..count {
        gate.decide(&Request::of(&review)).unwrap();
    }
    let took = began.elapsed().as_secs_f64();
    println!("{:.0} decisions a second on one thread, {:.4} ms each", count as f64 / took, took * 1e3 / count as f64);
}
