//! Gates, and the calls that need none.
use crate::ffi::{
    celbpf_compile_checked, celbpf_gate_decide_within_checked, celbpf_gate_free, celbpf_gate_new_checked,
    celbpf_gate_new_wide_checked, celbpf_review_wide_checked, celbpf_review_within_checked, Place, DENIED, DONE,
};
use crate::refusal::{Refusal, Status};
use std::ptr::null_mut;

/// How many steps a policy's program may take, unless a request says otherwise.
pub const DEFAULT_STEPS: u64 = 10_000_000;

/// How many bytes the helper calls of a policy's program may read together, unless a call says otherwise.
pub const DEFAULT_READS: u64 = 16_777_216;

/// The room for a text at the first try. Most are shorter.
const FIRST_ROOM: usize = 4096;

/// How a policy is read.
#[derive(Clone, Copy, Debug, PartialEq, Eq)]
pub enum Language {
    /// As clusters store it, and as the program gatekeeper reads it.
    Wide,
    /// The language that is compiled, as the program celbpf reads it.
    Profile,
}

/// What a policy decides.
#[derive(Clone, Copy, Debug)]
pub struct Request<'a> {
    /// The AdmissionReview (`admission.k8s.io/v1`), as JSON.
    pub review: &'a [u8],
    /// The namespace of the request. Empty: null.
    pub namespace: &'a [u8],
    /// The params. Empty: null.
    pub params: &'a [u8],
    /// How many steps the policy's program may take.
    pub steps: u64,
}

impl<'a> Request<'a> {
    /// The request of a review, without namespace and params.
    pub fn of(review: &'a [u8]) -> Request<'a> {
        Request { review, namespace: &[], params: &[], steps: DEFAULT_STEPS }
    }
}

/// A decision.
#[derive(Clone, Debug, PartialEq, Eq)]
pub struct Response {
    /// Whether the request is allowed.
    pub allowed: bool,
    /// The response, an AdmissionReview (`admission.k8s.io/v1`), as JSON.
    pub json: Vec<u8>,
}

/// A policy that is compiled once.
pub struct Gate {
    place: Place,
    room: Vec<u8>,
}

// The library proves that a gate may go to another thread. A call takes `&mut self`, so there is one at a time.
unsafe impl Send for Gate {}

impl Gate {
    /// Compiles a ValidatingAdmissionPolicy (`admissionregistration.k8s.io/v1`), which is read as clusters store it. As
    /// [`review`] and [`compile`] it runs on a thread of its own if this one's stack is small.
    pub fn new(policy: &[u8]) -> Result<Gate, Refusal> {
        Gate::new_in(Language::Wide, policy)
    }

    /// Compiles a policy that is read in this language. See [`Gate::new`].
    pub fn new_in(language: Language, policy: &[u8]) -> Result<Gate, Refusal> {
        let make = match language {
            Language::Wide => celbpf_gate_new_wide_checked,
            Language::Profile => celbpf_gate_new_checked,
        };
        let mut gate = Gate { place: Place { held: null_mut() }, room: Vec::new() };
        let place = &mut gate.place;
        told(&mut gate.room, |room, room_len, len| unsafe { make(place, policy.as_ptr(), policy.len(), room, room_len, len) })?;
        Ok(gate)
    }

    /// Decides a request. An error is no decision.
    pub fn decide(&mut self, request: &Request) -> Result<Response, Refusal> {
        self.decide_within(request, DEFAULT_READS)
    }

    /// Decides a request; helper calls may read this many bytes together. `u64::MAX` is no limit.
    pub fn decide_within(&mut self, request: &Request, reads: u64) -> Result<Response, Refusal> {
        let place = &mut self.place;
        told(&mut self.room, |room, room_len, len| unsafe {
            celbpf_gate_decide_within_checked(
                place,
                request.review.as_ptr(),
                request.review.len(),
                request.namespace.as_ptr(),
                request.namespace.len(),
                request.params.as_ptr(),
                request.params.len(),
                request.steps,
                reads,
                room,
                room_len,
                len,
            )
        })
    }
}

impl Drop for Gate {
    fn drop(&mut self) {
        unsafe { celbpf_gate_free(&mut self.place) }
    }
}

/// Decides a request under a policy that is compiled for this call alone.
pub fn review(policy: &[u8], request: &Request) -> Result<Response, Refusal> {
    review_within(policy, request, DEFAULT_READS)
}

/// Decides such a request; helper calls may read this many bytes together. `u64::MAX` is no limit.
pub fn review_within(policy: &[u8], request: &Request, reads: u64) -> Result<Response, Refusal> {
    review_in(Language::Wide, policy, request, reads)
}

/// Decides such a request, under a policy that is read in this language.
pub fn review_in(language: Language, policy: &[u8], request: &Request, reads: u64) -> Result<Response, Refusal> {
    let decide = match language {
        Language::Wide => celbpf_review_wide_checked,
        Language::Profile => celbpf_review_within_checked,
    };
    told(&mut Vec::new(), |room, room_len, len| unsafe {
        decide(
            policy.as_ptr(),
            policy.len(),
            request.review.as_ptr(),
            request.review.len(),
            request.namespace.as_ptr(),
            request.namespace.len(),
            request.params.as_ptr(),
            request.params.len(),
            request.steps,
            reads,
            room,
            room_len,
            len,
        )
    })
}

/// Compiles a policy of [`Language::Profile`] to the file of its image, as `celbpf compile` does.
pub fn compile(policy: &[u8]) -> Result<Vec<u8>, Refusal> {
    let made = told(&mut Vec::new(), |room, room_len, len| unsafe {
        celbpf_compile_checked(policy.as_ptr(), policy.len(), room, room_len, len)
    })?;
    Ok(made.json)
}

/// What a call tells that is given a room, its size, and where the length goes.
fn told(room: &mut Vec<u8>, mut call: impl FnMut(*mut u8, usize, *mut usize) -> u32) -> Result<Response, Refusal> {
    let mut len = 0;
    room.resize(room.len().max(FIRST_ROOM), 0);
    let mut status = call(room.as_mut_ptr(), room.len(), &mut len);
    // the line of a refusal may be longer than the room, too
    if len > room.len() {
        room.resize(len, 0);
        status = call(room.as_mut_ptr(), room.len(), &mut len);
    }
    let text = &room[..len];
    if status <= DENIED {
        return Ok(Response { allowed: status == DONE, json: text.to_vec() });
    }
    Err(Refusal { status: Status::of(status), line: String::from_utf8_lossy(text).trim_end().to_string() })
}
