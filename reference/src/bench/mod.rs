//! How long the calls take: the twin, the library where it is linked, and the memory limit, each
//! in the same rounds; with serial numbers as keys also the twin that compares them byte by byte.

pub mod cards;
pub mod cases;
mod report;
mod timer;

use crate::compare::programs::{Program, BYTE_LOOP, TWIN};
use crate::page::PAGE;
use cases::Case;
use report::Row;
use std::cell::RefCell;
use std::hint::black_box;
use timer::Task;

/// Runs all cases, and gives the tables in Markdown.
pub fn bench(library: Option<&Program>) -> String {
    let checks = measure_all(&cases::check_cases(), None, library);
    let calls = measure_all(&cases::call_cases(), None, library);
    let serials = measure_all(&cases::serial_cases(), Some(&BYTE_LOOP), library);
    [
        "Check:\n\n".to_owned(),
        report::rows_table(&checks),
        "\nThe other calls, each with the check it begins with:\n\n".to_owned(),
        report::rows_table(&calls),
        "\nCheck, time per page:\n\n".to_owned(),
        report::per_page_table(&checks),
        "\nSerial numbers as keys:\n\n".to_owned(),
        report::serials_table(&serials),
    ]
    .concat()
}

fn measure_all(cases: &[Case], byte_loop: Option<&Program>, library: Option<&Program>) -> Vec<Row> {
    let rows = cases.iter();
    rows.filter_map(|case| measure(case, byte_loop, library))
        .collect()
}

/// Times one case, for the programs beside the twin only where they have the call. All have to leave
/// the same.
fn measure(case: &Case, byte_loop: Option<&Program>, library: Option<&Program>) -> Option<Row> {
    let outcome = TWIN.run(&case.image, &case.request)?;
    let has_call = |other: &&Program| {
        let given = other.run(&case.image, &case.request);
        let same = given.as_ref().map(|given| outcome.same_as(given));
        same.transpose().expect("the same outcome").is_some()
    };
    let (byte_loop, library) = (byte_loop.filter(has_call), library.filter(has_call));
    let lent = RefCell::new(Lent {
        image: case.image.clone(),
        scratch: outcome.scratch.clone(),
        buffer: outcome.buffer.clone(),
    });
    let mut tasks = vec![memory_task(case, &lent), call_task(case, &lent, &TWIN)];
    let others = byte_loop.into_iter().chain(library);
    tasks.extend(others.map(|other| call_task(case, &lent, other)));
    let mut times = timer::time(&mut tasks).into_iter();
    let mut next = || times.next().expect("a time of every task");
    Some(Row {
        call: case.call,
        image: case.image_name.clone(),
        pages: case.image.len() / PAGE,
        number: outcome.answer.number,
        memory: next(),
        twin: next(),
        byte_loop: byte_loop.map(|_| next()),
        library: library.map(|_| next()),
    })
}

/// The memory that the tasks of a case share, so that each finds it as warm as the others.
struct Lent {
    image: Vec<u8>,
    scratch: Vec<u8>,
    buffer: Vec<u8>,
}

/// How often a call is made in a round: more than once on small images, if they stay the same.
fn repeat(case: &Case) -> u32 {
    let pages = (case.image.len() / PAGE) as u32;
    match case.request.call.changes() {
        true => 1,
        false => (512 / pages).max(1),
    }
}

fn memory_task<'a>(case: &'a Case, lent: &'a RefCell<Lent>) -> Task<'a> {
    let run = move || {
        let lent = &mut *lent.borrow_mut();
        timer::memory(&lent.image, &mut lent.scratch);
    };
    Task {
        repeat: repeat(case),
        prepare: Box::new(move || restore(case, lent)),
        run: Box::new(run),
    }
}

fn call_task<'a>(case: &'a Case, lent: &'a RefCell<Lent>, program: &'a Program) -> Task<'a> {
    let run = move || {
        let Lent {
            image,
            scratch,
            buffer,
        } = &mut *lent.borrow_mut();
        let answer = program.call(&case.request.call, image, scratch, buffer);
        black_box(&answer);
    };
    Task {
        repeat: repeat(case),
        prepare: Box::new(move || restore(case, lent)),
        run: Box::new(run),
    }
}

/// Makes the image again what it was, where the call changes it; else it stays as warm as a call
/// leaves it.
fn restore(case: &Case, lent: &RefCell<Lent>) {
    if case.request.call.changes() {
        lent.borrow_mut().image.copy_from_slice(&case.image);
    }
}
