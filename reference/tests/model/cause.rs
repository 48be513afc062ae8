//! Why a subframe was skipped (02, "L2"): the question, what backward hands on,
//! numbers 8 and 18, and a picture's last line.

use crate::common::{ask, value};
use reference::model::cell::{Cell, ANCHOR_PERIOD};

/// Standalone anchor, identity 0, schedule 0, no bitmap.
const ANCHOR: &str = "set mode=3 nports=1\n";

fn cause(words: &str) -> String {
    ask(&format!("{ANCHOR}cause {words}")).remove(0)
}

#[test]
fn each_cause() {
    for (t, word) in [
        (0, "npbch"),
        (5, "npss"),
        (9, "nsss"),
        (19, "none"),
        (4, "sib1"),
        (14, "none"),
        (24, "sib1"),
        (164, "none"),
        (1, "none"),
    ] {
        assert_eq!(cause(&format!("t={t}")), format!("no=0 cause={word}"));
    }
    let withheld = cause("t=1 bits=10 anchor=bfc0");
    assert_eq!(withheld, "no=0 cause=bitmap");
}

/// What the bitmap withholds too is named by what comes first.
#[test]
fn the_first_in_order() {
    let bitmap = "bits=10 anchor=4000"; // subframe 1 alone
    for (t, word) in [(0, "npbch"), (5, "npss"), (9, "nsss"), (4, "sib1")] {
        let answer = cause(&format!("t={t} {bitmap}"));
        assert_eq!(answer, format!("no=0 cause={word}"));
    }
    for t in [14, 19, 2] {
        let answer = cause(&format!("t={t} {bitmap}"));
        assert_eq!(answer, "no=0 cause=bitmap");
    }
}

#[test]
fn the_bitmap_alone_off_the_anchor() {
    for t in [0, 4, 5, 9] {
        assert_eq!(cause(&format!("carrier=1 t={t}")), "no=0 cause=none");
        let withheld = format!("carrier=1 bits=10 other=4000 t={t}");
        assert_eq!(cause(&withheld), "no=0 cause=bitmap");
    }
}

/// 2^64 - 1 is subframe 5 of its frame; no t is refused.
#[test]
fn any_subframe() {
    assert_eq!(cause("t=18446744073709551615"), "no=0 cause=npss");
    assert_eq!(cause("t=18446744073709551611"), "no=0 cause=none");
    assert_eq!(cause("t=1073741824 n=99999999999"), "no=0 cause=none");
}

#[test]
fn repeats_after_the_period() {
    let cell = Cell {
        nports: 1,
        mode: 3,
        identity: 3,
        bits: 40,
        anchor: vec![0xF7, 0x3E, 0x9A, 0x55, 0xE1],
        ..Cell::default()
    };
    let cell = cell.accept().expect("accepted");
    for t in 0..ANCHOR_PERIOD {
        assert_eq!(cell.cause(t), cell.cause(t + 4 * ANCHOR_PERIOD));
        assert_eq!(cell.cause(t).is_none(), cell.usable(t));
    }
}

#[test]
fn refusals_8_and_18() {
    let none = "bits=40 anchor=0000000000 other=ffffffffff";
    assert_eq!(cause(none), "no=8 cause=none");
    let none = "carrier=1 bits=10 anchor=ffc0 other=0000";
    assert_eq!(cause(none), "no=8 cause=none");
    assert_eq!(cause("bits=10 anchor=8400"), "no=18 cause=none");
    assert_eq!(cause("bits=10 other=8400 carrier=1"), "no=0 cause=none");
    let sib1_alone = "bits=40 anchor=0800000000";
    assert_eq!(cause(&format!("{sib1_alone} sib1=2")), "no=18 cause=none");
    assert_eq!(
        cause(&format!("{sib1_alone} sib1=1 t=4")),
        "no=0 cause=sib1"
    );
    assert_eq!(
        cause(&format!("{sib1_alone} sib1=1 t=164")),
        "no=0 cause=none"
    );
    let early = "bits=10 anchor=8400 n=1073741824 rmax=3 delay=9";
    let answer = &ask(&format!("{ANCHOR}plan down {early}"))[0];
    assert_eq!(value(answer, "no"), 18, "before 9, 10 and 12");
}

/// P7's grant: 21, 22, 23, 26, 27, 28, 31, 32.
const P7: &str = "set mode=3 nports=1 n=15 rmax=1 subframes=6\n";

#[test]
fn backward_hands_it_on_between_first_and_last() {
    for (t, word) in [
        (20, "none"),
        (21, "none"),
        (24, "sib1"),
        (25, "npss"),
        (29, "nsss"),
        (30, "npbch"),
        (32, "none"),
        (35, "none"),
        (u64::MAX, "none"),
    ] {
        let answer = &ask(&format!("{P7}backward down t={t} slot=0 l=5 k=0"))[0];
        let kind = if [21, 32].contains(&t) { 1 } else { 0 };
        let expected = format!("no=0 ours=0 symbol=0 p=0 kind={kind} cause={word}");
        assert_eq!(*answer, expected, "t = {t}");
    }
    let outside = &ask(&format!("{P7}backward down t=24 slot=2"))[0];
    assert_eq!(outside, "no=14 ours=0 symbol=0 p=0 kind=0 cause=none");
    let control = &ask(&format!("{P7}backward control r=8 n=19 t=24"))[0];
    assert_eq!(control, "no=0 ours=0 symbol=0 p=0 kind=0 cause=sib1");
    let up = &ask("backward up n=100 copies=4 slot=199 l=4")[0];
    assert_eq!(
        up, "no=0 ours=0 symbol=0 p=0 kind=0",
        "no cause in the uplink"
    );
}

/// The line after the rows of the i-th subframe sent.
fn skipped(words: &str) -> String {
    let answers = ask(&format!("{P7}picture {words}"));
    assert_eq!(answers.len(), 18);
    answers[17].clone()
}

#[test]
fn pictures_say_what_was_skipped() {
    assert_eq!(skipped("down i=0"), "skipped: none");
    assert_eq!(skipped("down i=2"), "skipped: 24 sib1, 25 npss");
    assert_eq!(skipped("down i=5"), "skipped: 29 nsss, 30 npbch");
    assert_eq!(skipped("down i=7"), "skipped: none", "the last one sent");
    let bitmap = "bits=10 anchor=6000"; // subframes 1 and 2
    assert_eq!(
        skipped(&format!("control n=20 r=4 i=1 {bitmap}")),
        "skipped: 23 bitmap, 24 sib1, 25 npss, 26 bitmap, 27 bitmap, 28 bitmap, 29 nsss, 30 npbch"
    );
}

/// The longest line without messages: one bit of forty that SIB1 takes four
/// times in a row.
#[test]
fn the_longest_picture_line() {
    let bitmap = "bits=40 anchor=0800000000 sib1=0 n=1073741823 r=64";
    let longest = (0..63).map(|i| skipped(&format!("control i={i} {bitmap}")));
    let longest = longest.max_by_key(|line| line.len()).expect("63 lines");
    assert_eq!(longest.split(", ").count(), 199);
    assert!(longest.len() < 4096);
}
