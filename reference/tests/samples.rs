//! The sample cards: their lines, and that the files are those that the command makes.

use reference::calls;
use reference::check::check;
use reference::page::read_u32;
use reference::program::line;
use reference::rule::Rule;
use reference::samples::samples;
use reference::towers::agree;
use std::fs;
use std::path::Path;

#[test]
fn every_sample_has_its_line() {
    for sample in samples() {
        assert_eq!(line(&sample.card), sample.line, "{}", sample.name);
    }
}

#[test]
fn only_one_sample_is_longer_than_the_program_reads() {
    let samples = samples();
    let mut long = samples.iter().filter(|sample| sample.card.len() > 32_768);
    assert_eq!(long.next().map(|sample| sample.card.len()), Some(32_769));
    assert!(long.next().is_none());
}

#[test]
fn a_full_card_has_no_room_but_every_camera_can_be_removed() {
    let mut card = card("full");
    let mut scratch = vec![0; card.len()];
    let put = calls::put(&mut card, &mut scratch, b"lens", b"cam99", &[0; 1024]);
    assert_eq!(put.number, 10);
    for camera in (1..=22).rev() {
        let key = format!("cam{camera:02}");
        let remove = calls::remove(&mut card, &mut scratch, b"lens", key.as_bytes());
        assert_eq!(remove.number, 0, "{key}");
    }
    assert_eq!(line(&card), "pages 16 tables 1 keys 0 free 9");
}

/// The sample card of this name.
fn card(name: &str) -> Vec<u8> {
    let mut samples = samples().into_iter();
    let sample = samples.find(|sample| sample.name == name);
    sample.expect("a sample of this name").card
}

#[test]
fn offsets_are_gone_through_as_numbers() {
    let card = card("offsets");
    let mut scratch = vec![0; card.len()];
    let mut numbers = Vec::new();
    let (mut length, mut key) = (0, [0; 4]);
    loop {
        let asked = key;
        let asked = &asked[..length];
        let answer = calls::next(&card, &mut scratch, b"#sync", asked, &mut key);
        if answer.number == 8 {
            break;
        }
        length = answer.length as usize;
        numbers.push(i32::from_be_bytes(key));
    }
    let expected: Vec<i32> = (-25..=30).step_by(5).collect();
    assert_eq!(numbers, expected);
}

#[test]
fn offsets_in_byte_order_break_the_order_alone() {
    assert_eq!(broken("offsets-by-bytes"), [Rule::OffsetsRising]);
}

/// The rules that the sample card of this name breaks.
fn broken(name: &str) -> Vec<Rule> {
    let broken = check(&card(name)).expect_err("refused");
    broken.iter().map(|one| one.rule).collect()
}

/// The blank card keeps no count; the others keep F plus 1, so the full card keeps 1.
#[test]
fn counts_are_kept_or_not() {
    for (name, count) in [
        ("blank", 0),
        ("lens", 2),
        ("cameras", 12),
        ("full", 1),
        ("count", 5),
    ] {
        let card = card(name);
        assert_eq!(read_u32(&card, 1, 28), count, "{name}");
    }
}

#[test]
fn false_counts_break_their_rule_alone() {
    for name in ["count-off-by-one", "count-garbage", "count-largest"] {
        assert_eq!(broken(name), [Rule::KeptCount], "{name}");
    }
}

/// The searches agree on the card, and it has what the searches are to be tried on.
#[test]
fn towers_are_such_as_no_put_makes() {
    let card = card("towers");
    let layout = check(&card).expect("well-formed");
    let reached = agree::on_image(&card, &layout).expect("no difference");
    for case in [
        "Ordinary: head's current 252",
        "Ordinary: 252 levels, several towers passed",
        "Ordinary: a tower passed at every level",
        "Ordinary: walk from a tower over other spans",
        "Offsets: head higher than every tower",
        "Offsets: the head passed at some levels, a tower at others",
        "Offsets: several towers passed",
        "Offsets: key in an empty first span, others follow",
        "Offsets: walk from a tower over other spans",
    ] {
        assert!(reached.contains_key(case), "{case}");
    }
}

#[test]
fn the_files_are_those_that_the_command_makes() {
    let folder = Path::new(env!("CARGO_MANIFEST_DIR")).join("../samples");
    for sample in samples() {
        let read = |end| fs::read(folder.join(format!("{}.{end}", sample.name)));
        assert!(
            read("card").expect("a card") == sample.card,
            "{}",
            sample.name
        );
        let line = format!("{}\n", sample.line);
        assert_eq!(
            read("line").expect("a line"),
            line.as_bytes(),
            "{}",
            sample.name
        );
    }
}
