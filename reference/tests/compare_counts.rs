//! A program that is wrong about the kept free count in one thing is found out.

use reference::calls::Answer;
use reference::check::check;
use reference::compare::programs::{CheckCall, Program, TWIN};
use reference::compare::{count_lists, images};
use reference::page::{pages_of, read_u32, superblock, write_u32, SUPERBLOCK};
use reference::rule::Rule;
use reference::twin;

/// On how many lists a wrong program has to be found out.
const LISTS: u64 = 1_000;
/// On how many images with a false count, and on how many images of any kind.
const IMAGES: u64 = 100;

fn kept(image: &[u8]) -> u32 {
    read_u32(image, SUPERBLOCK, superblock::KEPT_COUNT)
}

fn keep(image: &mut [u8], count: u32) {
    write_u32(image, SUPERBLOCK, superblock::KEPT_COUNT, count);
}

/// F and the number of keys of a well-formed image.
fn free_and_keys(image: &[u8]) -> (u32, usize) {
    let layout = check(image).expect("well-formed");
    (layout.free_pages() as u32, layout.keys())
}

fn free(image: &[u8]) -> u32 {
    free_and_keys(image).0
}

/// A program's wrong way to keep the count after a put, a remove or a create.
trait Wrong {
    /// The kept count after a done call, with the images before it and after it by the twin.
    fn done(before: &[u8], after: &[u8]) -> u32;

    /// The kept count after a refused call on a well-formed image.
    fn refused(image: &[u8]) -> u32 {
        kept(image)
    }
}

/// Makes a call by the twin, and keeps a wrong count.
fn with_count<W: Wrong>(image: &mut [u8], call: impl FnOnce(&mut [u8]) -> Answer) -> Answer {
    let before = image.to_vec();
    let answer = call(image);
    let count = match answer.number {
        0 => W::done(&before, image),
        1..=3 => return answer,
        _ => W::refused(&before),
    };
    keep(image, count);
    answer
}

fn put<W: Wrong>(
    image: &mut [u8],
    scratch: &mut [u8],
    name: &[u8],
    key: &[u8],
    value: &[u8],
) -> Answer {
    with_count::<W>(image, |image| twin::put(image, scratch, name, key, value))
}

fn remove<W: Wrong>(image: &mut [u8], scratch: &mut [u8], name: &[u8], key: &[u8]) -> Answer {
    with_count::<W>(image, |image| twin::remove(image, scratch, name, key))
}

fn create<W: Wrong>(image: &mut [u8], scratch: &mut [u8], name: &[u8]) -> Answer {
    with_count::<W>(image, |image| twin::create(image, scratch, name))
}

/// Whether a program is found out in a call of this kind, in the four bytes of the kept count.
fn assert_found_in(kind: &str, program: &Program) {
    let found = count_lists(program, 1, LISTS)
        .expect_err("a difference")
        .what;
    let offset = found.split(", offset ").nth(1);
    let offset = offset.and_then(|offset| offset.parse::<usize>().ok());
    let is_kept = offset.is_some_and(|offset| (28..32).contains(&offset));
    let at = format!("a {kind}: the image differs first at page 1, ");
    assert!(is_kept && found.contains(&at), "{found}");
}

fn assert_found_in_put<W: Wrong>() {
    let put = Some(put::<W> as _);
    assert_found_in("put", &Program { put, ..TWIN });
}

fn assert_found_in_remove<W: Wrong>() {
    let remove = Some(remove::<W> as _);
    assert_found_in("remove", &Program { remove, ..TWIN });
}

fn assert_found_in_create<W: Wrong>() {
    let create = Some(create::<W> as _);
    assert_found_in("create", &Program { create, ..TWIN });
}

/// Whether a wrong way is found out in put, in remove and in create, each alone.
fn assert_found<W: Wrong>() {
    assert_found_in_put::<W>();
    assert_found_in_remove::<W>();
    assert_found_in_create::<W>();
}

#[test]
fn the_twin_is_right() {
    count_lists(&TWIN, 1, LISTS).expect("no difference");
    on_false_counts(TWIN.check).expect("no difference");
}

/// F itself.
struct Free;

impl Wrong for Free {
    fn done(_: &[u8], after: &[u8]) -> u32 {
        free(after)
    }
}

#[test]
fn f_instead_of_f_plus_1() {
    assert_found::<Free>();
}

/// F as it was before the call.
struct Before;

impl Wrong for Before {
    fn done(before: &[u8], _: &[u8]) -> u32 {
        free(before) + 1
    }
}

#[test]
fn f_before_the_call() {
    assert_found::<Before>();
}

/// Not written at all.
struct NotWritten;

impl Wrong for NotWritten {
    fn done(before: &[u8], _: &[u8]) -> u32 {
        kept(before)
    }
}

#[test]
fn a_count_that_is_not_written() {
    assert_found::<NotWritten>();
}

/// Written only where it was kept.
struct WhereKept;

impl Wrong for WhereKept {
    fn done(before: &[u8], after: &[u8]) -> u32 {
        kept(before).min(1) * kept(after)
    }
}

#[test]
fn a_count_that_is_written_only_where_it_was_kept() {
    assert_found::<WhereKept>();
}

/// Written only where pages were taken or given back.
struct WherePagesMove;

impl Wrong for WherePagesMove {
    fn done(before: &[u8], after: &[u8]) -> u32 {
        match free(before) == free(after) {
            true => kept(before),
            false => kept(after),
        }
    }
}

/// Every create takes pages.
#[test]
fn a_count_that_is_written_only_where_pages_move() {
    assert_found_in_put::<WherePagesMove>();
    assert_found_in_remove::<WherePagesMove>();
}

/// Not written where only a value is replaced.
struct NotReplaced;

impl Wrong for NotReplaced {
    fn done(before: &[u8], after: &[u8]) -> u32 {
        match free_and_keys(before).1 == free_and_keys(after).1 {
            true => kept(before),
            false => kept(after),
        }
    }
}

#[test]
fn a_count_that_is_not_written_where_a_value_is_replaced() {
    assert_found_in_put::<NotReplaced>();
}

/// Not written where a value is replaced by an equal one.
struct NotAgain;

impl Wrong for NotAgain {
    fn done(before: &[u8], after: &[u8]) -> u32 {
        let tables = |image| check(image).expect("well-formed").tables;
        match tables(before) == tables(after) {
            true => kept(before),
            false => kept(after),
        }
    }
}

#[test]
fn a_count_that_is_not_written_where_a_value_is_put_again() {
    assert_found_in_put::<NotAgain>();
}

/// 0 where no page is free.
struct NoneFree;

impl Wrong for NoneFree {
    fn done(_: &[u8], after: &[u8]) -> u32 {
        match free(after) {
            0 => 0,
            free => free + 1,
        }
    }
}

#[test]
fn a_count_of_0_where_no_page_is_free() {
    assert_found::<NoneFree>();
}

/// The lowest byte alone.
struct OneByte;

impl Wrong for OneByte {
    fn done(_: &[u8], after: &[u8]) -> u32 {
        kept(after) & 0xff
    }
}

#[test]
fn a_count_of_one_byte() {
    assert_found::<OneByte>();
}

/// Right, and written by refused calls too.
struct Refused;

impl Wrong for Refused {
    fn done(_: &[u8], after: &[u8]) -> u32 {
        kept(after)
    }

    fn refused(image: &[u8]) -> u32 {
        free(image) + 1
    }
}

#[test]
fn a_count_that_a_refused_call_writes() {
    assert_found::<Refused>();
}

/// The refusal with 3.
const NOT_WELL_FORMED: Answer = Answer {
    number: 3,
    length: 0,
    pages: 0,
    tables: 0,
    keys: 0,
    free: 0,
};

/// A wrong rule for the kept count of an image that is well-formed but for it.
trait Rules {
    /// Whether a figure is accepted where this one is F plus 1.
    fn accepts(count: u32, right: u32) -> bool;
}

/// A check by this rule.
fn check_by<R: Rules>(image: &[u8], scratch: &mut [u8]) -> Answer {
    let mut copy = image.to_vec();
    if pages_of(image.len()).is_some() {
        keep(&mut copy, 0);
    }
    let answer = twin::check(&copy, scratch);
    match answer.number {
        0 if !R::accepts(kept(image), answer.free as u32 + 1) => NOT_WELL_FORMED,
        _ => answer,
    }
}

/// What is found of a check on images that are damaged by a false count.
fn on_false_counts(check: CheckCall) -> Result<(), String> {
    let rule = Rule::ALL.iter().position(|rule| *rule == Rule::KeptCount);
    let (rule, rules) = (rule.expect("a rule") as u64, Rule::ALL.len() as u64);
    let program = Program { check, ..TWIN };
    for step in 0..IMAGES {
        let seed = 2 * (rule + step * rules) + 1;
        images(&program, seed, 1).map_err(|failure| failure.what)?;
    }
    Ok(())
}

fn assert_accepts_too_much<R: Rules>() {
    let found = on_false_counts(check_by::<R>).expect_err("a difference");
    let accepted = "check on Damaged(KeptCount): Answer { number: 0";
    assert!(found.starts_with(accepted), "{found}");
}

fn assert_accepts_too_little<R: Rules>() {
    let check = check_by::<R>;
    let found = images(&Program { check, ..TWIN }, 1, IMAGES).expect_err("a difference");
    let refused = "check on Sound: Answer { number: 3";
    assert!(found.what.starts_with(refused), "{}", found.what);
}

struct Anything;

impl Rules for Anything {
    fn accepts(_: u32, _: u32) -> bool {
        true
    }
}

#[test]
fn any_figure_accepted() {
    assert_accepts_too_much::<Anything>();
}

struct OneLess;

impl Rules for OneLess {
    fn accepts(count: u32, right: u32) -> bool {
        count == 0 || count == right || count == right - 1
    }
}

#[test]
fn f_itself_accepted() {
    assert_accepts_too_much::<OneLess>();
}

struct OneMore;

impl Rules for OneMore {
    fn accepts(count: u32, right: u32) -> bool {
        count == 0 || count == right || count == right + 1
    }
}

#[test]
fn one_more_accepted() {
    assert_accepts_too_much::<OneMore>();
}

struct LowHalf;

impl Rules for LowHalf {
    fn accepts(count: u32, right: u32) -> bool {
        count == 0 || count & 0xffff == right
    }
}

#[test]
fn the_high_half_not_looked_at() {
    assert_accepts_too_much::<LowHalf>();
}

struct EitherByteOrder;

impl Rules for EitherByteOrder {
    fn accepts(count: u32, right: u32) -> bool {
        count == 0 || count == right || count.swap_bytes() == right
    }
}

#[test]
fn the_other_byte_order_accepted() {
    assert_accepts_too_much::<EitherByteOrder>();
}

struct Largest;

impl Rules for Largest {
    fn accepts(count: u32, right: u32) -> bool {
        matches!(count, 0 | u32::MAX) || count == right
    }
}

#[test]
fn the_largest_accepted() {
    assert_accepts_too_much::<Largest>();
}

struct Kept;

impl Rules for Kept {
    fn accepts(count: u32, right: u32) -> bool {
        count == right
    }
}

#[test]
fn an_image_without_a_count_refused() {
    assert_accepts_too_little::<Kept>();
}

struct NotKept;

impl Rules for NotKept {
    fn accepts(count: u32, _: u32) -> bool {
        count == 0
    }
}

#[test]
fn an_image_with_a_count_refused() {
    assert_accepts_too_little::<NotKept>();
}

struct SomeFree;

impl Rules for SomeFree {
    fn accepts(count: u32, right: u32) -> bool {
        count == 0 || (count == right && count > 1)
    }
}

#[test]
fn a_full_card_with_a_count_refused() {
    assert_accepts_too_little::<SomeFree>();
}

/// Puts that refuse an image whose count is not kept, in place of keeping it.
#[test]
fn a_put_that_refuses_0() {
    let put = |image: &mut [u8], scratch: &mut [u8], name: &[u8], key: &[u8], value: &[u8]| {
        if kept(image) != 0 {
            return twin::put(image, scratch, name, key, value);
        }
        let answer = twin::put(&mut image.to_vec(), scratch, name, key, value);
        match answer.number {
            2 => answer,
            _ => NOT_WELL_FORMED,
        }
    };
    let put = Some(put as _);
    let found = count_lists(&Program { put, ..TWIN }, 1, LISTS).expect_err("a difference");
    let refused = "a put: Answer { number: 3";
    assert!(found.what.contains(refused), "{}", found.what);
}
