//! The repository's examples, and the edges.
use celbpf::{compile, review, review_in, Gate, Language, Request, Response, Status, DEFAULT_READS, DEFAULT_STEPS};
use std::fs;
use std::path::{Path, PathBuf};
use std::thread;

struct Example {
    name: PathBuf,
    policy: Vec<u8>,
    review: Vec<u8>,
    namespace: Vec<u8>,
    params: Vec<u8>,
    response: Response,
}

impl Example {
    fn request(&self) -> Request<'_> {
        Request { review: &self.review, namespace: &self.namespace, params: &self.params, steps: DEFAULT_STEPS }
    }
}

fn folder() -> PathBuf {
    Path::new(env!("CARGO_MANIFEST_DIR")).join("../../../examples/policies")
}

/// The document of this kind for a review, or else for all of its folder.
fn document(folder: &Path, stem: &str, kind: &str) -> Vec<u8> {
    fs::read(folder.join(format!("{stem}.{kind}.json")))
        .or_else(|_| fs::read(folder.join(format!("{kind}.json"))))
        .unwrap_or_default()
}

fn of_folder(folder: &Path) -> Vec<Example> {
    let mut all = Vec::new();
    for entry in fs::read_dir(folder).unwrap() {
        let name = entry.unwrap().path();
        let stem = match name.file_name().unwrap().to_str().unwrap().strip_suffix(".review.json") {
            Some(stem) => stem,
            None => continue,
        };
        let mut json = fs::read(folder.join(format!("{stem}.response.json"))).unwrap();
        json.pop();
        let allowed = String::from_utf8_lossy(&json).contains("\"allowed\":true");
        all.push(Example {
            policy: fs::read(folder.join("policy.json")).unwrap(),
            review: fs::read(&name).unwrap(),
            namespace: document(folder, stem, "namespace"),
            params: document(folder, stem, "params"),
            response: Response { allowed, json },
            name,
        });
    }
    all
}

fn examples() -> Vec<Example> {
    let folders = fs::read_dir(folder()).unwrap().map(|entry| entry.unwrap().path());
    folders.filter(|path| path.is_dir()).flat_map(|path| of_folder(&path)).collect()
}

fn replicas() -> Example {
    of_folder(&folder().join("replicas")).remove(0)
}

#[test]
fn every_response() {
    let all = examples();
    assert!(!all.is_empty());
    for of in &all {
        for language in [Language::Wide, Language::Profile] {
            let mut gate = Gate::new_in(language, &of.policy).unwrap();
            assert_eq!(gate.decide(&of.request()).as_ref(), Ok(&of.response), "{:?}", of.name);
            let alone = review_in(language, &of.policy, &of.request(), DEFAULT_READS);
            assert_eq!(alone.as_ref(), Ok(&of.response), "{:?}", of.name);
        }
        assert!(compile(&of.policy).unwrap().starts_with(b"CELBPF02"));
    }
    println!("{} reviews", all.len());
}

#[test]
fn gates_move_between_threads() {
    let gates: Vec<Gate> = (0..8).map(|_| Gate::new(&replicas().policy).unwrap()).collect();
    let threads: Vec<_> = gates
        .into_iter()
        .map(|mut gate| {
            thread::spawn(move || {
                let of = replicas();
                for _ in 0..1000 {
                    assert_eq!(gate.decide(&of.request()).as_ref(), Ok(&of.response));
                }
            })
        })
        .collect();
    for thread in threads {
        thread.join().unwrap();
    }
}

#[test]
fn refusals() {
    let of = replicas();
    let refused = Gate::new(b"{}").err().unwrap();
    assert_eq!((refused.status, refused.line.as_str()), (Status::PolicyUnread, "celbpf: K2"));
    let mut gate = Gate::new(&of.policy).unwrap();
    assert_eq!(gate.decide(&Request::of(b"{")).unwrap_err().status, Status::ReviewRefused);
    assert_eq!(gate.decide(&Request { params: b"[", ..of.request() }).unwrap_err().status, Status::DocumentRefused);
    assert_eq!(
        gate.decide(&Request { steps: 1, ..of.request() }).unwrap_err().to_string(),
        "celbpf: N4: the policy's program has not ended"
    );
    assert_eq!(
        gate.decide_within(&of.request(), 0).unwrap_err().to_string(),
        "celbpf: N7: the policy's program has read too much"
    );
    assert_eq!(celbpf::review_within(&of.policy, &of.request(), 0).unwrap_err().status, Status::OutOfReads);
    assert_eq!(gate.decide(&of.request()), Ok(of.response.clone()));
}

/// A policy with this expression.
fn of_expression(text: &str) -> Vec<u8> {
    let head = r#"{"apiVersion":"admissionregistration.k8s.io/v1","kind":"ValidatingAdmissionPolicy","#;
    format!(r#"{head}"spec":{{"validations":[{{"expression":"{text}"}}]}}}}"#).into_bytes()
}

#[test]
fn the_wide_language() {
    let policy = of_expression("object.?spec.?replicas.orValue(1) <= 3");
    let five = fs::read(folder().join("replicas/five.review.json")).unwrap();
    let response = Gate::new(&policy).unwrap().decide(&Request::of(&five)).unwrap();
    let message = r#""message":"failed expression: object.?spec.?replicas.orValue(1) <= 3""#;
    assert!(!response.allowed && String::from_utf8_lossy(&response.json).contains(message));
    assert_eq!(review(&policy, &Request::of(&five)), Ok(response));
    let refused = Gate::new_in(Language::Profile, &policy).err().unwrap();
    assert_eq!(refused.line, "celbpf: K6 validation 0 P4 at 7");
    let long = "a".repeat(5000);
    for (text, name) in [("url('a')", "url"), (&long, &long)] {
        let refused = Gate::new(&of_expression(text)).err().unwrap();
        assert_eq!((refused.status, refused.line), (Status::PolicyUncompiled, format!("celbpf: K6 validation 0 W5 {name}")));
    }
}

#[test]
fn a_hostile_policy() {
    // they take the most stack, of which a test's thread has 2 MB: they have too many nodes, or are too deep
    for (count, line) in [(511, "celbpf: G3"), (2044, "celbpf: K6 validation 0 W10")] {
        let wide = of_expression(&format!("object{}", ".a".repeat(count)));
        assert_eq!(Gate::new(&wide).err().unwrap().line, line);
    }
    let policy = of_expression(&format!("{}true", "!".repeat(4095)));
    assert_eq!(Gate::new_in(Language::Profile, &policy).err().unwrap().line, "celbpf: G3");
    assert_eq!(compile(&policy).unwrap_err().status, Status::PolicyUncompiled);
}
