//! Programs that have the six calls, or some of them, and what a call of theirs leaves.

use crate::calls::{self, Answer};
use crate::page::PAGE;
use crate::request::{Call, Request};
use crate::twin::{self, ByteLoop, Order};

/// Check.
pub type CheckCall = fn(&[u8], &mut [u8]) -> Answer;
/// Get and next: image, scratch, name, key, answer buffer.
pub type ReadCall = fn(&[u8], &mut [u8], &[u8], &[u8], &mut [u8]) -> Answer;
/// Put: image, scratch, name, key, value.
pub type PutCall = fn(&mut [u8], &mut [u8], &[u8], &[u8], &[u8]) -> Answer;
/// Remove: image, scratch, name, key.
pub type RemoveCall = fn(&mut [u8], &mut [u8], &[u8], &[u8]) -> Answer;
/// Create: image, scratch, name.
pub type CreateCall = fn(&mut [u8], &mut [u8], &[u8]) -> Answer;

/// The calls of a program, as far as it has them.
#[derive(Clone, Copy, Debug)]
pub struct Program {
    pub name: &'static str,
    pub check: CheckCall,
    pub get: Option<ReadCall>,
    pub next: Option<ReadCall>,
    pub put: Option<PutCall>,
    pub remove: Option<RemoveCall>,
    pub create: Option<CreateCall>,
}

/// The reference itself.
pub const REFERENCE: Program = Program {
    name: "reference",
    check: calls::check,
    get: Some(calls::get),
    next: Some(calls::next),
    put: Some(calls::put),
    remove: Some(calls::remove),
    create: Some(calls::create),
};

/// The twin.
pub const TWIN: Program = Program {
    name: "twin",
    check: twin::check,
    get: Some(twin::get),
    next: Some(twin::next),
    put: Some(twin::put),
    remove: Some(twin::remove),
    create: Some(twin::create),
};

/// The calls of the twin that only read, with one comparison of keys in check and another in search.
pub const fn reading_twin<C: Order, S: Order>(name: &'static str) -> Program {
    Program {
        name,
        check: twin::check_by::<C>,
        get: Some(twin::get_by::<C, S>),
        next: Some(twin::next_by::<C, S>),
        put: None,
        remove: None,
        create: None,
    }
}

/// The twin with a plain loop over the bytes of keys.
pub const BYTE_LOOP: Program = reading_twin::<ByteLoop, ByteLoop>("byte loop");

/// What a call leaves: its answer and all lent memory.
#[derive(Clone, Debug, PartialEq, Eq)]
pub struct Outcome {
    pub answer: Answer,
    pub image: Vec<u8>,
    pub scratch: Vec<u8>,
    pub buffer: Vec<u8>,
}

impl Program {
    /// Makes a call; `None` where the program has not this one.
    pub fn call(
        &self,
        call: &Call,
        image: &mut [u8],
        scratch: &mut [u8],
        buffer: &mut [u8],
    ) -> Option<Answer> {
        Some(match call {
            Call::Check => (self.check)(image, scratch),
            Call::Get { name, key } => (self.get?)(image, scratch, name, key, buffer),
            Call::Next { name, key } => (self.next?)(image, scratch, name, key, buffer),
            Call::Put { name, key, value } => (self.put?)(image, scratch, name, key, value),
            Call::Remove { name, key } => (self.remove?)(image, scratch, name, key),
            Call::Create { name } => (self.create?)(image, scratch, name),
        })
    }

    /// Runs a request on a copy of the image; `None` where the program has not this call.
    pub fn run(&self, image: &[u8], request: &Request) -> Option<Outcome> {
        let mut image = image.to_vec();
        let (mut scratch, mut buffer) = request.buffers();
        let answer = self.call(&request.call, &mut image, &mut scratch, &mut buffer)?;
        Some(Outcome {
            answer,
            image,
            scratch,
            buffer,
        })
    }
}

impl Outcome {
    /// Whether another outcome is this one, the expected, or what differs.
    pub fn same_as(&self, other: &Outcome) -> Result<(), String> {
        if self.answer != other.answer {
            return Err(format!("{:?}, expected {:?}", other.answer, self.answer));
        }
        same_bytes("image", &self.image, &other.image)?;
        same_bytes("scratch", &self.scratch, &other.scratch)?;
        same_bytes("answer buffer", &self.buffer, &other.buffer)
    }
}

/// Whether two pieces of memory hold the same bytes, or where they first differ.
fn same_bytes(what: &str, expected: &[u8], given: &[u8]) -> Result<(), String> {
    if expected == given {
        return Ok(());
    }
    let at = expected.iter().zip(given).position(|(one, two)| one != two);
    let at = at.unwrap_or(expected.len().min(given.len()));
    let (page, offset) = (at / PAGE + 1, at % PAGE);
    Err(format!(
        "the {what} differs first at page {page}, offset {offset}"
    ))
}
