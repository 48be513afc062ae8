//! Help, the meaning of refusal numbers, pictures of slots and timelines.

use crate::common::{ask, ask_bytes, value};
use reference::generator::faulty_lines::random_faulty_line;
use reference::generator::question_file::{write_question_file, QuestionFile};
use reference::generator::random::Random;
use reference::generator::table::explained::SIGNS;
use reference::generator::table::table_of_questions;
use reference::text::question::{Kind, Question};
use reference::text::read_question::read_line;
use reference::text::values::Values;
use reference::text::{help, meaning};
use std::collections::BTreeSet;

const HELP: &str = include_str!("../../../docs/help.txt");
const REFUSALS: &str = include_str!("../../../docs/refusals.txt");

const QUESTIONS: [&str; 16] = [
    "set", "cell", "bitmap", "cause", "count", "search", "plan", "forward", "backward", "step",
    "fill", "element", "picture", "timeline", "meaning", "help",
];
const KINDS: [&str; 6] = ["up", "ack", "down", "control", "npbch", "sib1"];
const NAMES: [&str; 48] = [
    "mode",
    "carrier",
    "identity",
    "nports",
    "cports",
    "control",
    "sib1",
    "bits",
    "anchor",
    "other",
    "siwindow",
    "sioffset",
    "messages",
    "m1",
    "m2",
    "m3",
    "m4",
    "n",
    "delay",
    "rmax",
    "subframes",
    "copies",
    "r",
    "format",
    "ncce",
    "spacing",
    "subcarrier",
    "units",
    "mcs",
    "field",
    "windows",
    "w1",
    "w2",
    "w3",
    "w4",
    "g",
    "alpha",
    "p",
    "t",
    "slot",
    "l",
    "k",
    "i",
    "engine",
    "level",
    "data",
    "room",
    "no",
];

/// The word of a line that is no question.
fn error_of(line: &str) -> Option<String> {
    let answer = ask(line).into_iter().next()?;
    let error = answer.strip_prefix("error=")?;
    Some(error.split(' ').next().unwrap_or("").to_string())
}

/// Every question word, kind and name has a line, and nothing else has.
#[test]
fn words_of_help() {
    let told: BTreeSet<&str> = help::words().into_iter().collect();
    let listed = [&QUESTIONS[..], &KINDS, &NAMES].concat();
    assert_eq!(told, listed.into_iter().collect());
    for word in QUESTIONS {
        assert_ne!(
            error_of(&format!("{word} k=1")).as_deref(),
            Some("question")
        );
    }
    for kind in KINDS {
        assert_eq!(error_of(&format!("forward {kind}")), None);
    }
    for name in NAMES {
        let error = error_of(&format!("set {name}=x"));
        assert!(error == Some("number".into()) || error == Some("hex".into()));
    }
}

#[test]
fn all_of_help() {
    let answers = ask("help");
    assert_eq!(answers[0], "no=0");
    assert_eq!(answers[1..], HELP.lines().collect::<Vec<_>>());
    assert!(HELP.len() + "no=0\n".len() <= 16_384);
    assert!(HELP.ends_with('\n') && HELP.is_ascii());
}

#[test]
fn help_of_each_word() {
    for word in help::words() {
        let answers = ask(&format!("help {word}"));
        let start = format!("{word} ");
        let lines = HELP.lines().filter(|line| line.starts_with(&start));
        let expected: Vec<&str> = ["no=0"].into_iter().chain(lines).collect();
        assert_eq!(answers, expected);
        assert!(answers.len() >= 2);
    }
    assert_eq!(ask("help control").len(), 3, "a kind and a value");
    assert_eq!(ask("help sib1").len(), 3, "a kind and a value");
}

/// Where a value starts is what `help` says.
#[test]
fn help_says_where_values_start() {
    for name in NAMES {
        let text = ask(&format!("help {name}")).join("\n");
        let start = match name {
            "siwindow" => "starts at 160",
            "room" => "starts at 336",
            "anchor" | "other" | "data" => "starts empty",
            "level" => "starts at 00000000",
            "m1" | "m2" | "m3" | "m4" => "starts at 0,0,0",
            "w1" | "w2" | "w3" | "w4" => "starts at 0,0,0,0",
            _ => "starts at 0",
        };
        assert!(text.lines().any(|line| line.ends_with(start)), "{name}");
    }
    let starts = ask("fill\ncell mode=3 nports=1\nmeaning");
    assert_eq!(starts[0].split(' ').count(), 1 + 336);
    assert_eq!(starts[1..], ["no=0", "no=0 meaning=accepted"]);
}

/// Help changes no value.
#[test]
fn help_keeps_nothing() {
    let answers = ask("set mode=3 nports=1\nhelp mode\nhelp mode=9\nhelp n mode=9\ncell");
    assert_eq!(
        answers[2..],
        [
            "error=name line=3 word=2",
            "error=value line=4 word=3",
            "no=0"
        ]
    );
}

#[test]
fn meaning_of_each_number() {
    let listed = meaning::numbers();
    let mut sorted = listed.clone();
    sorted.sort();
    assert_eq!(sorted, (0..=25).chain([255]).collect::<Vec<u64>>());
    for line in REFUSALS.lines() {
        let (no, words) = line.split_once(' ').expect("a number and its words");
        let answers = ask(&format!("meaning no={no}"));
        assert_eq!(answers, [format!("no={no} meaning={words}")]);
    }
    for no in [26, 27, 30, 254, 256, 1 << 32, u64::MAX] {
        let answers = ask(&format!("meaning no={no}"));
        assert_eq!(answers, [format!("no={no} meaning=none")]);
    }
}

/// The number is kept as all values are, leading zeros aside.
#[test]
fn meaning_of_a_kept_number() {
    let answers = ask("meaning\nset no=0017\nmeaning\nplan up no=1\nmeaning\nmeaning no=3 no=2\n");
    assert_eq!(answers[0], "no=0 meaning=accepted");
    assert!(answers[1].starts_with("no=17 meaning=two ports"));
    assert!(answers[3].starts_with("no=1 meaning=mode above"));
    assert_eq!(answers[4], "no=2 meaning=identity above 503");
}

/// Where the signs of a slot's picture stand: row by row from k = 0.
fn slot_rows(words: &str, rows: usize) -> Vec<String> {
    let answers = ask(&format!("picture {words}"));
    assert_eq!(answers.len(), 5 + rows, "{words}");
    assert_eq!(answers[0], "no=0");
    assert_eq!(answers[2], "o data, R reference, . tone not granted");
    assert_eq!(answers[4], "   l 0123456");
    let mut signs = Vec::new();
    for (k, line) in answers[5..].iter().rev().enumerate() {
        let start = format!("k {k:>2} ");
        signs.push(line.strip_prefix(&start).expect("its label").to_string());
    }
    signs
}

#[test]
fn pictures_of_npusch() {
    for (field, tones) in [
        (0, 0..1),
        (11, 11..12),
        (12, 0..3),
        (15, 9..12),
        (16, 0..6),
        (17, 6..12),
        (18, 0..12),
    ] {
        let signs = slot_rows(&format!("up spacing=1 subcarrier={field}"), 12);
        for (k, signs) in signs.iter().enumerate() {
            let granted = tones.contains(&k);
            assert_eq!(signs, if granted { "oooRooo" } else { "......." });
        }
    }
    let signs = slot_rows("up subcarrier=47", 48);
    assert_eq!(signs[47], "ooooRoo");
    assert!(signs[..47].iter().all(|row| row == "......."));
}

#[test]
fn pictures_of_acknowledgements() {
    let signs = slot_rows("ack field=15", 48);
    assert_eq!(signs[45], "RRRoooo");
    assert_eq!(signs.iter().filter(|row| *row != ".......").count(), 1);
    let signs = slot_rows("ack spacing=1 field=14", 12);
    assert_eq!(signs[2], "ooRRRoo");
    assert_eq!(signs.iter().filter(|row| *row != ".......").count(), 1);
}

/// P5: four copies, three tones: slots 0,1,0,1,2,3,2,3,4,5,4,5,6,7,6,7, then
/// all again; two units of eight slots.
#[test]
fn titles_of_slots() {
    let set = "set spacing=1 subcarrier=12 units=1 copies=2 n=10300\n";
    let title = |i| ask(&format!("{set}picture up i={i}"))[1].clone();
    assert_eq!(
        title(6),
        "slot 20624: from subframe 10312, frame 7, subframe 2 of it, \
i=6 of 64 transmitted, codeword slot 2, resource unit 0, tones 0 to 2"
    );
    assert!(title(63).ends_with("codeword slot 15, resource unit 1, tones 0 to 2"));
    let none = ask(&format!("{set}picture up i=64\npicture up i=0 mcs=5"));
    assert_eq!(none, ["no=14", "no=13"]);
    let ack = &ask("picture ack n=100 field=3 i=3 copies=1")[1];
    assert_eq!(
        ack,
        "slot 60: from subframe 120, frame 12, subframe 0 of it, \
i=3 of 8 transmitted, codeword slot 3, tones 41 to 41"
    );
    let columns = &ask("picture ack n=100 field=3 i=3")[3];
    assert_eq!(columns, "     slot 60");
}

/// The rows of a timeline: the first number, the frame, the signs.
fn timeline(words: &str) -> Vec<(u64, u64, String)> {
    let answers = ask(&format!("timeline {words}"));
    assert_eq!(answers[0], "no=0", "{words}");
    let rows = answers[2..answers.len() - 2].iter();
    let rows = rows.filter(|line| !line.starts_with("more frames: "));
    rows.map(|line| {
        assert_eq!((&line[10..11], &line[16..17]), (" ", " "));
        let number = |text: &str| text.trim_start().parse().expect("a number");
        let (first, frame) = (number(&line[..10]), number(&line[11..16]));
        (first, frame, line[17..].to_string())
    })
    .collect()
}

/// Every sign against what the other questions answer of its subframe.
fn held_to_backward(kind: &str, words: &str) {
    let set = format!("set {words}\n");
    let plan = &ask(&format!("{set}plan {kind}"))[0];
    let (first, last) = (value(plan, "first"), value(plan, "last"));
    let count = ask(&format!("{set}count"));
    let elements = value(&count[0], "e");
    for (begin, frame, signs) in timeline(&format!("{kind} {words}")) {
        assert_eq!((begin % 10, begin / 10 % 1024), (0, frame));
        assert_eq!(signs.len(), 10);
        for (t, sign) in (begin..).zip(signs.chars()) {
            let words = format!("{set}backward {kind} t={t} slot=1 l=2 k=11\ncause t={t}");
            let answers = ask(&words);
            let cause = answers[1].strip_prefix("no=0 cause=").expect("a cause");
            let expected = match cause {
                _ if t < first || t > last => '.',
                "none" => {
                    assert_eq!(value(&answers[0], "ours"), 1, "{t}");
                    let codeword = value(&answers[0], "symbol") / elements;
                    char::from_digit(codeword as u32, 10).expect("a digit")
                }
                "npbch" => 'B',
                "npss" => 'P',
                "nsss" => 'S',
                "sib1" => 'I',
                "message" => 'M',
                _ => 'x',
            };
            assert_eq!(sign, expected, "{kind} {words} {t}");
        }
    }
}

#[test]
fn signs_of_subframes() {
    let cell = "mode=3 nports=1 identity=2 sib1=1 bits=40 anchor=f7ff3effeb \
messages=1 m1=64,2,8 sioffset=3 rmax=64 r=16 format=1";
    held_to_backward("down", &format!("{cell} n=15 subframes=6 copies=2"));
    held_to_backward("down", &format!("{cell} n=10230 subframes=7 copies=1"));
    held_to_backward("control", &format!("{cell} n=25"));
    held_to_backward("down", &format!("{cell} n=77 carrier=1 other=aaaaaaaaaa"));
}

/// Every sign against backward and against the same grant without windows.
fn held_to_slots(kind: &str, words: &str, per_frame: u64, per_sign: u64) {
    let set = format!("set {words}\n");
    let plan = &ask(&format!("{set}plan {kind}\nplan {kind} windows=0"));
    let (first, last) = (value(&plan[0], "first"), value(&plan[0], "last"));
    let named = value(&plan[1], "first");
    let rows = timeline(&format!("{kind} {words}"));
    for (row, (begin, frame, signs)) in rows.iter().enumerate() {
        assert_eq!(
            *begin,
            first / per_frame * per_frame + per_frame * row as u64
        );
        assert_eq!(*frame, begin / per_frame % 1024);
        assert_eq!(signs.len() as u64, per_frame);
        for (slot, sign) in (*begin..).zip(signs.chars()) {
            let found = ask(&format!("{set}backward {kind} slot={slot}"));
            let carried = value(&found[0], "symbol") / per_sign;
            let milliseconds = (slot.max(named) - named) * 10 / per_frame;
            let expected = match value(&found[0], "ours") {
                1 => char::from_digit(carried as u32, 10).expect("a digit"),
                _ if slot < first || slot > last => '.',
                _ if milliseconds % 296 >= 256 => 'G',
                _ => 'W',
            };
            assert_eq!(sign, expected, "{kind} {words} {slot}");
        }
    }
}

/// l = 0 and k = 0 are data of the grant's own tone, so backward finds it.
#[test]
fn signs_of_slots() {
    let busy = "windows=2 w1=80,16,172032,0 w2=2560,256,1376256,4";
    held_to_slots("up", "n=100 units=4 copies=1", 5, 6 * 16);
    held_to_slots("up", &format!("n=100 units=4 copies=1 {busy}"), 5, 6 * 16);
    let fifteen = "n=100 spacing=1 units=7 copies=2";
    held_to_slots("up", fifteen, 20, 6 * 16);
    held_to_slots("up", &format!("{fifteen} {busy}"), 20, 6 * 16);
    let twelve = "n=7 spacing=1 subcarrier=18 units=7 copies=5";
    held_to_slots("up", &format!("{twelve} {busy}"), 20, 12 * 6 * 2);
    let ack = "n=200 spacing=1 copies=7";
    held_to_slots("ack", &format!("{ack} {busy}"), 20, 4);
}

/// A slot that is in a gap and in a window is the gap's; the 256 ms run from
/// the slot first named, not from the first one sent.
#[test]
fn gaps_before_windows() {
    let window = "windows=1 w1=2560,256,11010048,0"; // 358.4 ms from 256 ms on
    let signs = |words: &str| -> String {
        let rows = timeline(&format!("up n=0 units=7 {words}"));
        rows.into_iter().map(|(_, _, signs)| signs).collect()
    };
    assert!(!signs("windows=0").contains('W'));
    let signs = signs(window);
    // From 10 ms on: 246 ms sent, 10 in the window, 40 in the gap.
    let slots = signs.trim_start_matches('.');
    let (sent, rest) = slots.split_at(123);
    assert!(sent.bytes().all(|sign| sign.is_ascii_digit()));
    let (window, rest) = rest.split_at(5);
    let (gap, rest) = rest.split_at(20);
    assert_eq!(window, "WWWWW");
    assert_eq!(gap, "G".repeat(20));
    // Up to 614.4 ms: 256 ms, the next gap, and 7 slots more.
    let expected = ["W".repeat(128), "G".repeat(20), "W".repeat(7)].concat();
    assert!(rest.starts_with(&expected));
    assert!(rest[155..156].bytes().all(|sign| sign.is_ascii_digit()));
}

#[test]
fn rows_past_the_sixty_fourth() {
    let lines = |words: &str| ask(&format!("timeline {words}"));
    // 16 slots of 2 ms a copy from subframe 10 on, with gaps.
    let long = lines("up copies=7 n=0");
    assert_eq!(long.len(), 2 + 64 + 1 + 2);
    let last = value(&ask("plan up copies=7 n=0")[0], "last");
    let more = last / 5 - 64; // from frame 1 on
    assert_eq!(long[66], format!("more frames: {more}"));
    // A non-anchor with no bitmap, then with one subframe of ten.
    let off = "control mode=3 nports=1 carrier=1 n=";
    assert_eq!(lines(&format!("{off}9 r=512")).len(), 2 + 53 + 2);
    let usable = "bits=10 other=8000";
    assert_eq!(lines(&format!("{off}0 r=64 {usable}")).len(), 2 + 64 + 2);
    let more = lines(&format!("{off}0 r=128 {usable}"));
    assert_eq!(more[66], "more frames: 64");
    let more =
        lines("down mode=3 nports=1 rmax=1 carrier=1 bits=10 other=8000 subframes=4 copies=8 n=0");
    assert_eq!(more[66], format!("more frames: {}", 5 * 192 - 64));
}

#[test]
fn refused_timelines() {
    let answers = ask(
        "timeline down\ntimeline control mode=3 nports=1\ntimeline down rmax=3
timeline up mcs=5\ntimeline ack field=16\ntimeline up mcs=0 windows=5\ntimeline ack n=2147483648",
    );
    let expected = ["no=3", "no=12", "no=12", "no=13", "no=10", "no=19", "no=9"];
    assert_eq!(answers, expected);
}

/// The largest numbers keep to their columns.
#[test]
fn late_timelines() {
    let rows = timeline("ack n=2147483647 spacing=1 field=15 copies=0");
    assert_eq!(rows[0].0, 4_294_967_320);
    assert_eq!(rows[0].1, 4_294_967_320 / 20 % 1024);
    let rows = timeline("down mode=3 nports=1 rmax=1 n=1073741823");
    assert_eq!(rows[0].0, 1_073_741_820);
    assert_eq!(rows[0].1, 1_073_741_820 / 10 % 1024);
}

#[test]
fn generated_explanations() {
    let mut file = Vec::new();
    write_question_file(QuestionFile::new(15, 20_000), &mut file).expect("memory takes all");
    let table = table_of_questions(&mut &file[..]).expect("memory gives all");
    let counts = &table.explained;
    assert!(counts.timelines >= 150 && counts.past_rows >= 20);
    for (count, sign) in counts.with_sign.iter().zip(SIGNS) {
        assert!(*count >= 5, "{sign}");
    }
    assert!(counts.listed_numbers() >= 20 && counts.words.len() >= 30);
    assert!(counts.whole_help > 0 && counts.returns >= 300);
    assert!(counts.error_words[..6].iter().all(|&count| count > 0));
    for kind in Kind::ALL {
        for make in [Question::Timeline, Question::Picture] {
            let row = table.row(make(kind));
            let refused: u64 = row.refused.iter().sum();
            assert!(row.accepted > 0 && refused > 0, "{}", make(kind).text());
        }
    }
}

/// The generator's faults stand where it says, and so after a comment.
#[test]
fn generated_faults_at_known_words() {
    let mut random = Random::new(16);
    for _ in 0..20_000 {
        let bad = random_faulty_line(&mut random);
        let shown = String::from_utf8_lossy(&bad.line).into_owned();
        let read = read_line(&mut Values::default(), &bad.line);
        let at = read.expect_err(&shown);
        assert_eq!((at.error, at.word), (bad.error, bad.word), "{shown}");
    }
    let bad = random_faulty_line(&mut random);
    let lines = [b"#\n", &bad.line[..], b"\r\n"].concat();
    let (error, word) = (bad.error.word(), bad.word);
    let expected = format!("error={error} line=2 word={word}");
    assert_eq!(ask_bytes(&lines), [expected]);
}
