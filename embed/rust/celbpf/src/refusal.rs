//! Why there is no decision.
use std::error::Error;
use std::fmt;

/// Why there is no gate, or no decision.
#[derive(Clone, Copy, Debug, PartialEq, Eq, Hash)]
#[non_exhaustive]
pub enum Status {
    /// The document is not a policy.
    PolicyUnread,
    /// An expression or the size of the policy is refused. The line says which and where.
    PolicyUncompiled,
    /// The review is not an AdmissionReview, or its objects are refused.
    ReviewRefused,
    /// The namespace or the params are refused.
    DocumentRefused,
    /// The policy's program still ran after the steps that it was given.
    OutOfSteps,
    /// The policy's program was stopped, since a value is too deep, or all are too large together.
    OverLimit,
    /// An allocation failed, which says nothing of the documents.
    NoMemory,
    /// There is no stack to compile a policy, and no thread that has it could be started.
    SmallStack,
    /// A helper call of the policy's program would have read past the limit of reads.
    OutOfReads,
}

impl Status {
    pub(crate) fn of(status: u32) -> Status {
        match status {
            2 => Status::PolicyUnread,
            3 => Status::PolicyUncompiled,
            4 => Status::ReviewRefused,
            5 => Status::DocumentRefused,
            6 => Status::OutOfSteps,
            7 => Status::OverLimit,
            9 => Status::NoMemory,
            11 => Status::SmallStack,
            12 => Status::OutOfReads,
            _ => unreachable!("the library returned the status {status}"),
        }
    }

    fn text(self) -> &'static str {
        match self {
            Status::PolicyUnread => "the document is not a policy",
            Status::PolicyUncompiled => "the policy is not compiled",
            Status::ReviewRefused => "the review is refused",
            Status::DocumentRefused => "the namespace or the params are refused",
            Status::OutOfSteps => "the policy's program has not ended",
            Status::OverLimit => "the policy's program was stopped",
            Status::NoMemory => "out of memory",
            Status::SmallStack => "no stack to compile a policy",
            Status::OutOfReads => "the policy's program has read too much",
        }
    }
}

/// A refusal, with the line that the program gatekeeper prints, or celbpf for a policy of the language `Profile`.
#[derive(Clone, Debug, PartialEq, Eq)]
pub struct Refusal {
    /// Why.
    pub status: Status,
    /// The line, as `celbpf: K6 validation 0 P4 at 13`, or empty if the program prints nothing.
    pub line: String,
}

impl fmt::Display for Refusal {
    fn fmt(&self, f: &mut fmt::Formatter<'_>) -> fmt::Result {
        let line = if self.line.is_empty() { "celbpf" } else { &self.line };
        write!(f, "{line}: {}", self.status.text())
    }
}

impl Error for Refusal {}
