//! System information messages (02, "L5"): what they take, number 21, 8 and 18
//! beside them, and what backward and pictures say.

use crate::common::{ask, value};
use reference::generator::cells::random_cell;
use reference::generator::random::Random;
use reference::model::accepted_cell::AcceptedCell;
use reference::model::cell::{Cause, Cell};
use reference::model::system_information::{
    Messages, Schedule, COPY_SIZES, MESSAGE_PERIOD, PERIODS, REPETITION_PATTERNS, WINDOW_LENGTHS,
};
use reference::text::answer::Answer;
use reference::text::picture::Picture;
use reference::text::question::Kind;

fn schedule(period: u64, every: u64, size: u64) -> Schedule {
    Schedule {
        period,
        every,
        size,
    }
}

fn messages(window: u64, offset: u64, schedules: &[Schedule]) -> Messages {
    let mut messages = Messages {
        window,
        offset,
        count: schedules.len() as u64,
        ..Messages::default()
    };
    messages.entries[..schedules.len()].copy_from_slice(schedules);
    messages
}

/// Standalone anchor, identity 0, schedule 0, no bitmap, one port.
fn p7(messages: Messages) -> Cell {
    Cell {
        mode: 3,
        nports: 1,
        messages,
        ..Cell::default()
    }
}

fn accepted(cell: &Cell) -> AcceptedCell {
    cell.accept().expect("an accepted cell")
}

/// The subframes below the end with this cause, or usable ones.
fn subframes(cell: &AcceptedCell, end: u64, cause: Option<Cause>) -> Vec<u64> {
    (0..end).filter(|&t| cell.cause(t) == cause).collect()
}

const MESSAGE: Option<Cause> = Some(Cause::Message);

/// READING C5.7.
#[test]
fn eight_of_every_second_frame() {
    let cell = accepted(&p7(messages(160, 0, &[schedule(64, 2, 8)])));
    let taken = subframes(&cell, 640, MESSAGE);
    assert_eq!(taken[..8], [1, 2, 3, 6, 7, 8, 11, 12]);
    assert_eq!(taken[8..16], [21, 22, 23, 26, 27, 28, 31, 32]);
    assert_eq!(taken.len(), 64, "in the window of 160 alone");
    assert_eq!(taken[63], 152);
    assert_eq!(subframes(&cell, 160, None).len(), 112 - 64);
    for (t, word) in [
        (0, "npbch"),
        (4, "sib1"),
        (5, "npss"),
        (9, "nsss"),
        (13, "none"),
    ] {
        let set = "mode=3 nports=1 messages=1 m1=64,2,8";
        let answer = &ask(&format!("cause {set} t={t}"))[0];
        assert_eq!(*answer, format!("no=0 cause={word}"));
    }
}

/// REQUESTS L5 and READING C5.8: 216 of 640, 13,824 of 40,960; twice it is 18.
#[test]
fn a_window_that_fills_its_period() {
    let once = p7(messages(640, 0, &[schedule(64, 2, 8)]));
    let usable = subframes(&accepted(&once), MESSAGE_PERIOD, None);
    assert_eq!(usable.len(), 13_824);
    assert_eq!(usable.iter().filter(|&&t| t < 640).count(), 216);
    for offset in 0..16 {
        let schedules = [schedule(64, 2, 8); 4];
        let alone = accepted(&p7(messages(640, offset, &schedules[..1])));
        assert_eq!(subframes(&alone, MESSAGE_PERIOD, None).len(), 13_824);
        for count in 2..5 {
            let cell = p7(messages(640, offset, &schedules[..count]));
            assert_eq!(cell.accept().err(), Some(18));
        }
    }
}

/// READING C5.6: the fourth window opens at frame 56, so at frame -8 too, and
/// has frames 0 to 7.
#[test]
fn a_window_over_t_0() {
    let mut schedules = [schedule(4096, 16, 2); 4];
    schedules[3] = schedule(64, 2, 8);
    let cell = accepted(&p7(messages(160, 8, &schedules)));
    let begin = [1, 2, 3, 6, 7, 8, 11, 12, 21, 22, 23, 26, 27, 28, 31, 32];
    let taken = subframes(&cell, 560, MESSAGE);
    assert_eq!(taken[..16], begin);
    assert_eq!(taken[16..32], begin.map(|t| t + 40));
    assert_eq!(taken[32..], [81, 82, 241, 242, 401, 402]);
    assert!(!cell.usable(561) && cell.usable(573));
    // What a copy from before t = 0 lacks it takes after it: subframe 1 of
    // every fourth frame alone is free, the copy at frame -8 takes frames
    // -8, -4, 0 and 4, and stops at frame 8.
    schedules[3] = schedule(64, 16, 8);
    let sparse = Cell {
        bits: 40,
        anchor: vec![0x40, 0, 0, 0, 0],
        ..p7(messages(160, 8, &schedules))
    };
    let cell = accepted(&sparse);
    assert_eq!(
        subframes(&cell, 640, MESSAGE),
        [1, 41, 81, 121, 241, 281, 401, 441, 561, 601]
    );
}

/// Subframe 1 of every frame alone is free: what a copy takes and when the
/// window stops it.
#[test]
fn copies_that_wait() {
    let taken = |every, size| {
        let cell = accepted(&Cell {
            bits: 10,
            anchor: vec![0x40, 0],
            ..p7(messages(160, 0, &[schedule(64, every, size)]))
        });
        let list = subframes(&cell, 640, MESSAGE);
        list.iter().map(|t| t / 10).collect::<Vec<u64>>()
    };
    let all: Vec<u64> = (0..16).collect();
    assert_eq!(taken(2, 2), all, "two frames each");
    assert_eq!(taken(4, 2), [0, 1, 4, 5, 8, 9, 12, 13]);
    assert_eq!(taken(8, 2), [0, 1, 8, 9]);
    assert_eq!(taken(16, 2), [0, 1]);
    assert_eq!(taken(16, 8), all[..8]);
    assert_eq!(taken(8, 8), all, "the second begins where the first ends");
    assert_eq!(
        taken(4, 8),
        all,
        "the second takes frames 8 to 15, then all is taken"
    );
    assert_eq!(taken(2, 8), all, "nothing is kept for after the window");
}

/// Subframe 1 of every fourth frame alone is free. The first schedule, in
/// frames 0 to 47, takes frames 0 4, 16 20, 32 36. The second, in frames -16
/// to 31, takes -16 -12 -8 -4 8 12 24 28. In the other order the large one, in
/// frames 0 to 47, takes all there, and the small one takes -16 -12.
#[test]
fn earlier_entries_first() {
    let cell = |schedules: &[Schedule]| Cell {
        bits: 40,
        anchor: vec![0x40, 0, 0, 0, 0],
        ..p7(messages(480, 0, schedules))
    };
    let first = schedule(64, 16, 2);
    let second = schedule(64, 16, 8);
    let usable = subframes(&accepted(&cell(&[first, second])), 1280, None);
    assert_eq!(usable, [401, 441, 1041, 1081]);
    let usable = subframes(&accepted(&cell(&[second, first])), 1280, None);
    assert_eq!(usable, [561, 601, 1201, 1241]);
}

/// The window opens in frame 3: a copy begins there and in every fourth frame
/// from there, not in frames that four divides.
#[test]
fn copies_are_counted_from_the_window() {
    let cell = accepted(&p7(messages(160, 3, &[schedule(64, 4, 2)])));
    let taken = subframes(&cell, 640, MESSAGE);
    assert_eq!(taken, [31, 32, 71, 72, 111, 112, 151, 152]);
}

/// Four windows in a row take the first 6,400 subframes: that isn't 18, which
/// is read over 40,960.
#[test]
fn the_first_usable_after_four_windows() {
    let sparse = Cell {
        bits: 40,
        anchor: vec![0x40, 0, 0, 0, 0],
        ..p7(messages(1600, 0, &[schedule(4096, 2, 8); 4]))
    };
    let usable = subframes(&accepted(&sparse), MESSAGE_PERIOD, None);
    assert_eq!(usable[0], 6401);
    assert_eq!(usable.len(), 1024 - 160);
    let set = "mode=3 nports=1 bits=40 anchor=4000000000 siwindow=1600 messages=4 \
m1=4096,2,8 m2=4096,2,8 m3=4096,2,8 m4=4096,2,8";
    let answer = &ask(&format!("plan control {set} n=0 r=2"))[0];
    assert_eq!(answer, "no=0 first=6401 last=6441 copies=2 places=160");
}

/// Periods count unreduced frames: 2,048 and 4,096 pass the frame number's turn.
#[test]
fn long_periods() {
    for (period, first) in [(1024, 0), (2048, 15), (4096, 3)] {
        let cell = accepted(&p7(messages(160, first, &[schedule(period, 16, 2)])));
        let taken = subframes(&cell, 3 * MESSAGE_PERIOD, MESSAGE);
        let expected = (0..3 * 4096).filter(|frame| frame % period == first);
        assert_eq!(taken.len() as u64, 2 * 3 * 4096 / period);
        let frames: Vec<u64> = taken.iter().step_by(2).map(|t| t / 10).collect();
        assert_eq!(frames, expected.collect::<Vec<u64>>());
    }
}

#[test]
fn any_subframe() {
    let cell = accepted(&p7(messages(
        1600,
        7,
        &[schedule(256, 4, 8), schedule(512, 2, 8)],
    )));
    let turns = u64::MAX / MESSAGE_PERIOD;
    for t in 0..MESSAGE_PERIOD {
        assert_eq!(cell.cause(t), cell.cause(t + MESSAGE_PERIOD));
        assert_eq!(cell.cause(t), cell.cause(t + MESSAGE_PERIOD * (turns - 1)));
    }
    assert_eq!(cell.cause(u64::MAX), cell.cause(u64::MAX % MESSAGE_PERIOD));
}

/// With no schedule, and off the anchor, all is as before.
#[test]
fn messages_that_are_not_sent() {
    let full = [schedule(64, 2, 8); 4];
    let before = accepted(&p7(Messages::default()));
    let none = accepted(&p7(Messages {
        count: 0,
        ..messages(640, 3, &full)
    }));
    let off_anchor = Cell {
        carrier: 1,
        bits: 10,
        other: vec![0x94, 0x40],
        ..p7(messages(640, 3, &full))
    };
    let off_anchor = accepted(&off_anchor);
    for t in 0..MESSAGE_PERIOD {
        assert_eq!(none.cause(t), before.cause(t));
        let withheld = (![0, 3, 5, 9].contains(&(t % 10))).then_some(Cause::Bitmap);
        assert_eq!(off_anchor.cause(t), withheld);
    }
}

/// One entry's queue on a line: what its copies still want grows at each
/// copy's begin, falls with each free subframe, and ends with the window.
fn take_as_a_queue(messages: &Messages, entry: usize, from: i64, free: &mut [bool]) {
    let Schedule {
        period,
        every,
        size,
    } = messages.entries[entry];
    let (frames, period) = (messages.window as i64 / 10, period as i64);
    let opens = (entry as i64 * frames + messages.offset as i64) % period;
    let mut wanted = 0;
    for (at, free) in free.iter_mut().enumerate() {
        let t = from + at as i64;
        let since = (t.div_euclid(10) - opens).rem_euclid(period);
        if since >= frames {
            wanted = 0;
            continue;
        }
        if t.rem_euclid(10) == 0 && since == 0 {
            wanted = 0;
        }
        if t.rem_euclid(10) == 0 && since % every as i64 == 0 {
            wanted += size;
        }
        if wanted > 0 && *free {
            *free = false;
            wanted -= 1;
        }
    }
}

/// READING C5.4, from two periods below 0 on.
#[test]
fn taken_as_by_a_queue_on_a_line() {
    let random = &mut Random::new(5);
    let whole = MESSAGE_PERIOD as i64;
    let (mut compared, mut refused) = (0, 0);
    while compared < 60 || refused < 6 {
        let cell = random_cell(random);
        if cell.carrier == 1 || cell.messages.count == 0 {
            continue;
        }
        let without_messages = Cell {
            messages: Messages::default(),
            ..cell.clone()
        };
        let Ok(without_messages) = without_messages.accept() else {
            continue;
        };
        let on_line = -2 * whole..2 * whole;
        let free: Vec<bool> = on_line
            .map(|t| without_messages.usable(t.rem_euclid(whole) as u64))
            .collect();
        let mut left = free.clone();
        for entry in 0..cell.messages.count as usize {
            take_as_a_queue(&cell.messages, entry, -2 * whole, &mut left);
        }
        let zero = 2 * MESSAGE_PERIOD as usize;
        match cell.accept() {
            Ok(accepted) => {
                for t in 0..2 * MESSAGE_PERIOD as usize {
                    let taken = free[zero + t] && !left[zero + t];
                    let cause = accepted.cause(t as u64);
                    assert_eq!(cause == MESSAGE, taken, "t = {t} of {cell:?}");
                    assert_eq!(cause.is_none(), left[zero + t]);
                }
                compared += 1;
            }
            Err(no) => {
                assert_eq!(no, 18);
                assert!(!left[zero..].contains(&true));
                refused += 1;
            }
        }
    }
}

/// The number of a question in P7's cell.
fn no(question: &str) -> u64 {
    let set = "set mode=3 nports=1 rmax=1 r=1\n";
    value(&ask(&format!("{set}{question}"))[0], "no")
}

#[test]
fn number_21() {
    for window in WINDOW_LENGTHS {
        assert_eq!(no(&format!("cell siwindow={window}")), 0);
    }
    for window in [
        0,
        1,
        16,
        80,
        159,
        161,
        800,
        1120,
        1440,
        1601,
        1920,
        u64::MAX,
    ] {
        for beside in ["", "carrier=1", "messages=1 m1=4096,16,2"] {
            let question = format!("cell siwindow={window} {beside}");
            assert_eq!(no(question.trim_end()), 21);
        }
    }
    assert_eq!(no("cell sioffset=15"), 0);
    for offset in [16, 17, 1 << 32, u64::MAX] {
        assert_eq!(no(&format!("cell sioffset={offset}")), 21);
        assert_eq!(no(&format!("cell sioffset={offset} carrier=1")), 21);
    }
    let full = "m1=64,2,8 m2=64,2,8 m3=64,2,8 m4=64,2,8";
    assert_eq!(no(&format!("cell messages=4 {full}")), 0);
    for count in [5, 6, 1 << 32, u64::MAX] {
        assert_eq!(no(&format!("cell messages={count} {full}")), 21);
        assert_eq!(no(&format!("cell messages={count} {full} carrier=1")), 21);
    }
    assert_eq!(no("cell m1=1,2,3"), 0, "past the count");
    assert_eq!(no("cell messages=2 m1=64,2,8 m2=64,2,8 m3=0,0,0"), 0);
    assert_eq!(no("cell messages=3 m1=64,2,8 m2=64,2,8 m3=0,0,0"), 21);
    assert_eq!(
        no("cell messages=4 m1=64,2,8 carrier=1"),
        21,
        "entries of zeros"
    );
}

#[test]
fn number_21_of_an_entry() {
    for period in PERIODS {
        for every in REPETITION_PATTERNS {
            for size in COPY_SIZES {
                let entry = format!("cell messages=1 m1={period},{every},{size}");
                assert_eq!(no(&entry), 0, "{entry}");
            }
        }
    }
    for entry in [
        "0,2,8",
        "32,2,8",
        "63,2,8",
        "96,2,8",
        "8192,2,8",
        "18446744073709551615,2,8",
        "64,0,8",
        "64,1,8",
        "64,3,8",
        "64,6,8",
        "64,32,8",
        "64,2,0",
        "64,2,1",
        "64,2,4",
        "64,2,16",
    ] {
        assert_eq!(no(&format!("cell messages=1 m1={entry}")), 21, "{entry}");
        assert_eq!(no(&format!("cell messages=1 m1={entry} carrier=1")), 21);
    }
    for window in WINDOW_LENGTHS {
        for period in PERIODS {
            let refused = if window / 10 > period { 21 } else { 0 };
            let set = format!("siwindow={window} messages=2 m1=4096,2,2 m2={period},2,2");
            assert_eq!(no(&format!("cell {set}")), refused, "{set}");
        }
    }
}

/// 1 to 7, 21, 8, 18, 9 and on.
#[test]
fn order_of_refusals() {
    for question in [
        "cell",
        "bitmap",
        "cause",
        "count",
        "plan down",
        "forward control",
        "backward control",
        "step down",
        "fill room=0",
        "element",
        "picture down",
    ] {
        let no = |words: &str| no(&format!("{question} n=1073741824 siwindow=0 {words}"));
        assert_eq!(no("bits=11"), 7);
        assert_eq!(no("bits=40 anchor=ff"), 7);
        assert_eq!(no("sib1=12"), 6);
        assert_eq!(no("bits=10 anchor=0000"), 21, "before 8");
        assert_eq!(no("bits=10 anchor=8400"), 21, "before 18");
        assert_eq!(no("carrier=1 bits=10 other=0000"), 21);
    }
    let full = "siwindow=640 messages=2 m1=64,2,8 m2=64,2,8";
    assert_eq!(no(&format!("cell {full}")), 18);
    assert_eq!(no(&format!("cell {full} bits=10 anchor=0000")), 8);
    assert_eq!(no(&format!("cell {full} bits=10 anchor=8400")), 18);
    assert_eq!(no(&format!("cell {full} carrier=1")), 0);
    assert_eq!(no(&format!("plan down {full} n=1073741824 rmax=3")), 18);
    assert_eq!(no("plan down siwindow=0 n=1073741824"), 21);
    let answer = &ask(&format!(
        "bitmap mode=3 nports=1 {full} bits=10 anchor=ffc0"
    ))[0];
    assert_eq!(answer, "no=18 part=-");
    assert_eq!(
        no("plan up siwindow=0 messages=9"),
        0,
        "an uplink grant has no cell"
    );
}

/// P7's grant between the messages of C5.7: 13, 14, 16 to 19, 33, 34.
#[test]
fn grants_go_around_messages() {
    let set = "set mode=3 nports=1 messages=1 m1=64,2,8 n=1 rmax=1 subframes=6\n";
    let mut questions = set.to_string() + "plan down\n";
    for i in 0..8 {
        questions.push_str(&format!("forward down p={}\n", i * 160));
    }
    let answers = ask(&questions);
    assert_eq!(answers[0], "no=0 first=13 last=34 copies=1 places=1280");
    let sent: Vec<u64> = answers[1..].iter().map(|a| value(a, "t")).collect();
    assert_eq!(sent, [13, 14, 16, 17, 18, 19, 33, 34]);
    for (t, word) in [
        (12, "none"),
        (15, "npss"),
        (20, "npbch"),
        (21, "message"),
        (24, "sib1"),
        (29, "nsss"),
        (32, "message"),
        (35, "none"),
        (41, "none"),
        (40_960 + 21, "none"),
    ] {
        let answer = &ask(&format!("{set}backward down t={t} slot=1 l=2 k=3"))[0];
        let expected = format!("no=0 ours=0 symbol=0 p=0 kind=0 cause={word}");
        assert_eq!(*answer, expected, "t = {t}");
    }
    let answer = &ask(&format!("{set}backward control n=17 r=4 t=21"))[0];
    assert_eq!(answer, "no=0 ours=0 symbol=0 p=0 kind=0 cause=message");
    let picture = ask(&format!("{set}picture down i=5"));
    let skipped = "20 npbch, 21 message, 22 message, 23 message, 24 sib1, 25 npss, \
26 message, 27 message, 28 message, 29 nsss, 30 npbch, 31 message, 32 message";
    assert_eq!(picture[17], format!("skipped: {skipped}"));
}

/// The text of a picture that skips so many subframes.
fn skipped_line(count: u64) -> String {
    let from = 1_954_545_000;
    let picture = Picture {
        skipped: Some((from..from + count).map(|t| (t, Cause::Message)).collect()),
        ..Picture::default()
    };
    let mut out = Vec::new();
    let answer = Answer::Picture(Kind::Down, Ok(picture));
    answer.write(&mut out).expect("memory takes all");
    let text = String::from_utf8(out).expect("plain text");
    text.lines().last().expect("a line").to_string()
}

#[test]
fn pictures_list_at_most_200() {
    for (count, listed, end) in [
        (199, 199, "1954545198 message"),
        (200, 200, "1954545199 message"),
        (201, 200, "1954545199 message and 1 more"),
        (40_000, 200, "1954545199 message and 39800 more"),
    ] {
        let line = skipped_line(count);
        assert_eq!(line.split(", ").count(), listed);
        assert!(line.ends_with(end), "{count}");
        assert!(line.len() < 4096);
    }
    // Subframe 1 of every frame alone is free, and all of the window is taken.
    let set = "set mode=3 nports=1 bits=10 anchor=4000 siwindow=320 messages=1 m1=64,2,8\n";
    let answers = ask(&format!(
        "{set}picture control n=640 r=2 i=0\npicture control n=631"
    ));
    assert!(answers[17].starts_with("skipped: 962 bitmap, "));
    assert!(answers[17].ends_with(", 970 npbch"));
    assert!(answers[35].starts_with("skipped: 632 bitmap, "));
    assert!(
        answers[35].ends_with(", 831 message and 129 more"),
        "up to 960"
    );
}

/// CellCache in which exactly 200 and 201 subframes are skipped.
#[test]
fn pictures_of_200_and_201() {
    let set = "set mode=3 nports=1 bits=40 messages=2 r=2\n";
    let cell = "anchor=1800200000 sioffset=13 m1=64,8,8 m2=64,16,2";
    let line = &ask(&format!("{set}picture control n=123 {cell}"))[17];
    assert!(line.starts_with("skipped: 124 sib1, "));
    assert!(line.ends_with(", 323 message"));
    let cell = "anchor=4000000001 m1=64,2,8 m2=64,16,2";
    let line = &ask(&format!("{set}picture control n=639 {cell}"))[17];
    assert!(line.starts_with("skipped: 640 npbch, 641 message, "));
    assert!(line.ends_with(", 839 message and 1 more"));
}
