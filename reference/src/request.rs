//! A call as data, so that lists of calls can be made, run and compared.

use crate::calls::{self, Answer};
use crate::random::Random;
use std::fmt;

/// The six kinds of call.
#[derive(Clone, Copy, Debug, PartialEq, Eq, PartialOrd, Ord)]
pub enum CallKind {
    Check,
    Get,
    Put,
    Remove,
    Next,
    Create,
}

impl CallKind {
    /// All kinds.
    pub const ALL: [CallKind; 6] = [
        CallKind::Check,
        CallKind::Get,
        CallKind::Put,
        CallKind::Remove,
        CallKind::Next,
        CallKind::Create,
    ];
}

impl fmt::Display for CallKind {
    fn fmt(&self, f: &mut fmt::Formatter<'_>) -> fmt::Result {
        f.pad(match self {
            CallKind::Check => "check",
            CallKind::Get => "get",
            CallKind::Put => "put",
            CallKind::Remove => "remove",
            CallKind::Next => "next",
            CallKind::Create => "create",
        })
    }
}

/// One of the six calls with its name, key and value.
#[derive(Clone, Debug, PartialEq, Eq)]
pub enum Call {
    Check,
    Get {
        name: Vec<u8>,
        key: Vec<u8>,
    },
    Put {
        name: Vec<u8>,
        key: Vec<u8>,
        value: Vec<u8>,
    },
    Remove {
        name: Vec<u8>,
        key: Vec<u8>,
    },
    Next {
        name: Vec<u8>,
        key: Vec<u8>,
    },
    Create {
        name: Vec<u8>,
    },
}

/// A call with the lengths of the scratch and the answer buffer it brings. `fill` determines what
/// these hold before the call.
#[derive(Clone, Debug, PartialEq, Eq)]
pub struct Request {
    pub call: Call,
    pub scratch_length: usize,
    pub answer_length: usize,
    pub fill: u64,
}

impl Call {
    /// The call's kind.
    pub fn kind(&self) -> CallKind {
        match self {
            Call::Check => CallKind::Check,
            Call::Get { .. } => CallKind::Get,
            Call::Put { .. } => CallKind::Put,
            Call::Remove { .. } => CallKind::Remove,
            Call::Next { .. } => CallKind::Next,
            Call::Create { .. } => CallKind::Create,
        }
    }

    /// The name of the table; check has none.
    pub fn name(&self) -> Option<&[u8]> {
        match self {
            Call::Check => None,
            Call::Get { name, .. }
            | Call::Put { name, .. }
            | Call::Remove { name, .. }
            | Call::Next { name, .. }
            | Call::Create { name } => Some(name),
        }
    }

    /// The key; check and create have none.
    pub fn key(&self) -> Option<&[u8]> {
        match self {
            Call::Check | Call::Create { .. } => None,
            Call::Get { key, .. }
            | Call::Put { key, .. }
            | Call::Remove { key, .. }
            | Call::Next { key, .. } => Some(key),
        }
    }

    /// Whether the call may change the image.
    pub fn changes(&self) -> bool {
        matches!(
            self,
            Call::Put { .. } | Call::Remove { .. } | Call::Create { .. }
        )
    }
}

impl Request {
    /// The scratch and the answer buffer as they are before the call.
    pub fn buffers(&self) -> (Vec<u8>, Vec<u8>) {
        let mut random = Random::new(self.fill);
        let mut scratch = vec![0; self.scratch_length];
        let mut answer = vec![0; self.answer_length];
        random.fill(&mut scratch);
        random.fill(&mut answer);
        (scratch, answer)
    }

    /// Runs the call by this program.
    pub fn run(&self, image: &mut [u8], scratch: &mut [u8], answer: &mut [u8]) -> Answer {
        match &self.call {
            Call::Check => calls::check(image, scratch),
            Call::Get { name, key } => calls::get(image, scratch, name, key, answer),
            Call::Put { name, key, value } => calls::put(image, scratch, name, key, value),
            Call::Remove { name, key } => calls::remove(image, scratch, name, key),
            Call::Next { name, key } => calls::next(image, scratch, name, key, answer),
            Call::Create { name } => calls::create(image, scratch, name),
        }
    }
}
