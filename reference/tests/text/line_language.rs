//! The text: the worked example, kept values and every `error=` word.

use crate::common::{ask, ask_bytes};

#[test]
fn worked_example() {
    let answers = ask("set mode=3 nports=1 n=15 rmax=64 subframes=6
plan down
forward down p=60
backward down t=21 slot=0 l=5 k=1
");
    assert_eq!(
        answers,
        [
            "no=0 first=21 last=32 copies=1 places=1280",
            "no=0 t=21 slot=0 l=5 k=1 symbol=60",
            "no=0 ours=1 symbol=60 p=60 kind=0 cause=none",
        ]
    );
}

/// Asks one line and expects one error, at this word; so too in a later line,
/// with a carriage return at its end.
fn assert_error_at(line: &[u8], error: &str, word: u64) {
    let shown = String::from_utf8_lossy(line);
    let expected = |line| [format!("error={error} line={line} word={word}")];
    assert_eq!(ask_bytes(line), expected(1), "{shown}");
    let later = [b"# 1\n\n\r\nset k=1\r\n", line, b"\r\n"].concat();
    assert_eq!(ask_bytes(&later), expected(5), "{shown}");
}

/// As above, where the first word is the question and the second one is at
/// fault, if the fault isn't that of the question or the line.
fn assert_error(line: &[u8], error: &str) {
    let word = match error {
        "long" => 0,
        "question" => 1,
        _ => 2,
    };
    assert_error_at(line, error, word);
}

#[test]
fn error_long() {
    let mut line = b"cell t=".to_vec();
    line.resize(4096, b'0');
    assert_eq!(ask_bytes(&line), ["no=3"], "4,096 bytes are read");
    line.push(b'0');
    assert_error(&line, "long");
    line.resize(1_000_000, b'0');
    line.extend_from_slice(b"\ncell\n");
    let long = "error=long line=1 word=0";
    assert_eq!(ask_bytes(&line), [long, "no=3"]);
    assert_error(&[b' '; 4097], "long");
    assert_error(&[b' '; 4096], "question");
    assert!(ask_bytes(&[b'#'; 5000]).is_empty(), "a comment");
}

/// The carriage return at a line's end isn't counted, another one is.
#[test]
fn carriage_returns_of_long_lines() {
    let mut line = b"cell t=".to_vec();
    line.resize(4096, b'0');
    for end in [&b""[..], b"\r", b"\r\n", b"\n"] {
        assert_eq!(ask_bytes(&[&line, end].concat()), ["no=3"], "{end:?}");
    }
    let long = "error=long line=1 word=0";
    for end in [&b"\r\r"[..], b"\r\r\n", b"0", b"0\r", b"0\r\n", b"\r0\n"] {
        assert_eq!(ask_bytes(&[&line, end].concat()), [long], "{end:?}");
    }
    line[4000] = b'\r';
    let value = "error=value line=1 word=2";
    assert_eq!(ask_bytes(&[&line[..], b"\r\n"].concat()), [value]);
    line.extend_from_slice(b"\r0\r\n");
    assert_eq!(ask_bytes(&line), [long]);
}

#[test]
fn carriage_returns_at_line_ends() {
    let answers = ask("set mode=3 nports=1\r\ncell\r\n\r\n#\r\ncell\r\r\nx\r\ncell\r");
    let errors = [
        "error=question line=5 word=1",
        "error=question line=6 word=1",
    ];
    assert_eq!(answers, ["no=0", errors[0], errors[1], "no=0"]);
    assert!(ask("\r").is_empty() && ask("\r\n").is_empty());
    assert!(ask("\n\r").is_empty() && ask("").is_empty());
    assert_eq!(ask("\r\r"), ["error=question line=1 word=1"]);
    assert_eq!(ask("\rcell"), ["error=question line=1 word=1"]);
    assert_eq!(ask("help n\r\r"), ["error=name line=1 word=2"]);
    assert_eq!(ask("meaning no=0\r\r"), ["error=value line=1 word=2"]);
    assert_eq!(ask("plan up\r\r"), ["error=kind line=1 word=2"]);
}

#[test]
fn error_question() {
    for line in [
        &b"plam down"[..],
        b" cell",
        b"Cell",
        b"  ",
        b" ",
        b"cell\r ",
        b"cell\t",
        b"help\t",
        b"helps",
        b"\xff",
        b"p=1",
    ] {
        assert_error(line, "question");
    }
}

#[test]
fn error_kind() {
    for line in [
        "plan",
        "plan p=1",
        "plan  down",
        "plan Down",
        "picture",
        "picture ",
        "picture ups",
        "timeline",
        "timeline npbch",
        "timeline sib1",
        "timeline n=1",
        "timeline Up",
    ] {
        assert_error(line.as_bytes(), "kind");
    }
    for line in [
        "cell down",
        "set up",
        "fill down",
        "element up",
        "cell ack",
        "cause control",
        "count down",
        "search down",
        "search control n=1",
        "meaning up",
        "meaning sib1 no=1",
        "plan down\r ",
    ] {
        assert_error(line.as_bytes(), "kind");
    }
    for line in [
        "plan npbch",
        "plan sib1 p=1",
        "step npbch",
        "step sib1",
        "cell npbch",
        "set sib1",
        "fill npbch",
        "search sib1",
        "forward NPBCH",
        "picture mib",
    ] {
        assert_error(line.as_bytes(), "kind");
    }
}

#[test]
fn error_value() {
    for line in [
        "cell mode",
        "cell  mode=1",
        "cell ",
        "cell mode=1\r ",
        "cell t=1\tk=2",
        "meaning 7",
        "meaning up=no\t",
        "set help",
    ] {
        assert_error(line.as_bytes(), "value");
    }
    assert_error_at(b"plan down down", "value", 3);
    assert_error_at(b"plan down ", "value", 3);
    assert_error_at(b"plan down k=1  k=2", "value", 4);
    assert_error_at(b"cell k=1 k=2 k=3 k=4 k=5 k", "value", 7);
    assert_error_at(b"help n ", "value", 3);
    assert_error_at(b"help n p", "value", 3);
    assert_error_at(b"help n p q", "value", 3);
    assert_error_at(b"help control control", "value", 3);
}

#[test]
fn error_name() {
    for line in [
        "cell moed=1",
        "cell =1",
        "cell Mode=1",
        "cell q=x",
        "cell w0=1",
        "cell w5=1,2,3,4",
        "cell m0=64,2,8",
        "cell m5=64,2,8",
        "cell message=1",
        "search G=2",
        "search alfa=1",
        "meaning No=1",
        "set line=1",
        "help colour",
        "help ",
        "help  n",
        "help N",
        "help n=1",
        "help =",
        "help Questions:",
        "help Values",
        "help colour n",
    ] {
        assert_error(line.as_bytes(), "name");
    }
    assert_error_at(b"plan up n=1 m=2 k=3", "name", 4);
}

#[test]
fn error_number() {
    for word in [
        "p=",
        "p=-1",
        "p=+1",
        "p=0x1",
        "p=18446744073709551616",
        "p=1=1",
    ] {
        assert_error(format!("cell {word}").as_bytes(), "number");
    }
    for window in [
        "",
        "40",
        "40,8,172032",
        "40,8,172032,0,0",
        "40,8,172032,0,",
        ",40,8,172032,0",
        "40,8,,0",
        "40;8;172032;0",
        "40,8,172032,-1",
        "40,8,172032,18446744073709551616",
        "-",
    ] {
        assert_error(format!("cell w1={window}").as_bytes(), "number");
        assert_error(format!("cell w4={window}").as_bytes(), "number");
    }
    for schedule in [
        "",
        "64",
        "64,2",
        "64,2,8,0",
        "64,2,8,",
        ",64,2,8",
        "64,,8",
        "64;2;8",
        "64,2,-8",
        "64,2,18446744073709551616",
        "-",
    ] {
        assert_error(format!("cell m1={schedule}").as_bytes(), "number");
        assert_error(format!("cell m4={schedule}").as_bytes(), "number");
    }
    assert_error(b"search g=1.5", "number");
    assert_error(b"search alpha=1/8", "number");
    assert_error(b"cell siwindow=160ms", "number");
    assert_error(b"cell messages=-", "number");
    assert_error(b"set w1=40, 8,172032,0", "number");
    assert_error(b"meaning no=", "number");
    assert_error(b"meaning no=18446744073709551616", "number");
    assert_error_at(b"forward npbch k=1 p=x", "number", 4);
    let largest = "step up p=18446744073709551615";
    let answer = "no=14 finished=0 slot=0 l=0 k=0 symbol=0 p=18446744073709551615";
    assert_eq!(ask(largest), [answer]);
}

#[test]
fn error_hex() {
    for word in [
        "anchor=abc",
        "anchor=zz",
        "other=--",
        "data=0g",
        "level=3f80000g",
    ] {
        assert_error(format!("cell {word}").as_bytes(), "hex");
    }
}

#[test]
fn error_size() {
    for word in ["level=3f8000", "level=3f80000000", "room=1025"] {
        assert_error(format!("cell {word}").as_bytes(), "size");
    }
    for (name, limit) in [("anchor", 64), ("other", 64), ("data", 1024)] {
        let full = format!("cell {name}={}", "aB".repeat(limit));
        assert_eq!(ask(&full), ["no=3"]);
        assert_error(format!("{full}00").as_bytes(), "size");
    }
}

#[test]
fn first_fault_from_the_left() {
    assert_error(b"cell q=1 mode=x", "name");
    assert_error(b"cell mode=x q=1", "number");
    assert_error_at(b"cell k=1 level=0 q=1", "hex", 3);
    assert_error_at(b"cell k=1 k=2 level=00 q=1", "size", 4);
    assert_error_at(b"cell room=18446744073709551616", "number", 2);
    assert_error_at(b"timeline control level=zz0", "hex", 3);
    assert_error(b"plam sideways q", "question");
    assert_error(b"plan sideways q", "kind");
}

#[test]
fn values_are_kept_and_faults_change_nothing() {
    let answers = ask(
        "set mode=3 nports=1\ncell\ncell mode=4 identity=x\ncell\n\n# cell\n\
cell mode=4\ncell\ncell mode=3 mode=4 mode=3\nstep up p=95\nstep up\nstep up p=97\nforward up p=0",
    );
    let places = "finished=0 slot=20 l=6 k=0 symbol=95 p=96";
    assert_eq!(
        answers,
        [
            "no=0",
            "error=number line=3 word=3",
            "no=0",
            "no=1",
            "no=1",
            "no=0",
            &format!("no=0 {places}"),
            "no=0 finished=1 slot=0 l=0 k=0 symbol=0 p=96",
            "no=14 finished=0 slot=0 l=0 k=0 symbol=0 p=97",
            "no=0 slot=5 l=0 k=0 symbol=0",
        ]
    );
}

#[test]
fn windows_are_kept() {
    let answers = ask("set windows=1 w1=40,8,1376256,0
plan up
plan up windows=0
plan up windows=1
plan up w1=40,8,1376256,36 w2=1,1,1,1
plan up w1=40,8,1376256
plan up");
    let numbers: Vec<&str> = answers.iter().map(|a| &a[..a.len().min(5)]).collect();
    let expected = ["no=20", "no=0 ", "no=20", "no=0 ", "error", "no=0 "];
    assert_eq!(numbers, expected);
}

/// The engine is kept; past 1 it is `size` wherever it stands, and no answer changes with it.
#[test]
fn engines_answer_alike() {
    assert_error(b"set engine=2", "size");
    assert_error(b"cell engine=18446744073709551615", "size");
    assert_error_at(b"forward up engine=x", "number", 3);
    assert_error_at(b"forward up engine=18446744073709551616", "number", 3);
    let set = "set mode=3 nports=1 n=15 rmax=64 subframes=6 r=4 windows=1 w1=40,8,172032,0\n";
    let mut questions = String::new();
    for kind in ["down", "control", "up", "ack"] {
        for question in ["forward", "step"] {
            for p in [0, 15, 63, 64, 1279, 1280, 1281, u64::MAX] {
                questions.push_str(&format!("{question} {kind} p={p}\n"));
            }
            questions.push_str(&format!("{question} {kind} n=4294967296\nset n=15\n"));
        }
    }
    let quick = ask(&format!("{set}{questions}"));
    assert_eq!(quick.len(), 8 * 9);
    assert_eq!(ask(&format!("{set}set engine=1\n{questions}")), quick);
    assert_eq!(
        ask(&format!("{set}set engine=1 engine=0\n{questions}")),
        quick
    );
}

/// The window's length starts at 160, the rest at 0.
#[test]
fn messages_are_kept() {
    let answers = ask("set mode=3 nports=1
cell
set messages=1 m1=64,2,8
cause t=1
cause t=161
cause messages=0 t=1
cause messages=1
cause sioffset=1
cause m1=128,16,2 sioffset=0
cause t=3
cause m1=64,2
cause siwindow=320 m1=64,2,8 t=161
cause messages=2
cause m2=64,2,8 t=321");
    assert_eq!(
        answers,
        [
            "no=0",
            "no=0 cause=message",
            "no=0 cause=none",
            "no=0 cause=none",
            "no=0 cause=message",
            "no=0 cause=none",
            "no=0 cause=message",
            "no=0 cause=none",
            "error=number line=11 word=2",
            "no=0 cause=message",
            "no=21 cause=none",
            "no=0 cause=message",
        ]
    );
}

/// G and the offset start at 0; n and Rmax are those of the grants.
#[test]
fn searches_are_kept() {
    let answers = ask("set mode=3 nports=1
search n=21 rmax=4
search alpha=3
search rmax=1
search g=2
search g=3 alpha=x
search alpha=0 n=22 g=9 g=2
plan down n=22
search");
    assert_eq!(
        answers,
        [
            "no=0 start=24 count=7 26,1,26 26,2,27 26,4,31 27,1,27 28,1,28 28,2,31 31,1,31",
            "no=0 start=26 count=7 26,1,26 26,2,27 26,4,31 27,1,27 28,1,28 28,2,31 31,1,31",
            "no=22 start=0 count=0",
            "no=0 start=21 count=1 21,1,21",
            "error=number line=6 word=3",
            "no=0 start=24 count=1 26,1,26",
            "no=0 first=27 last=27 copies=1 places=160",
            "no=0 start=24 count=1 26,1,26",
        ]
    );
}

#[test]
fn pictures() {
    let answers = ask(
        "set mode=1 identity=1 nports=2 cports=4 control=2 rmax=1 r=1 ncce=1
picture control
picture control i=1
picture down i=0",
    );
    assert_eq!(answers[0], "no=0");
    assert_eq!(answers[5], "k 11 ##ooooo ooooooo", "no reference");
    assert_eq!(answers[6], "k 10 CCooCNN CCooCNN", "v + 3 = 4");
    assert_eq!(answers[16], "k  0 ##..... .......", "the other NCCE");
    assert_eq!(answers[17], "skipped: none", "the last one sent");
    assert_eq!(answers[18], "no=14");
    assert_eq!(answers[19], "no=0");
    assert_eq!(answers[35], "k  0 ##ooooo ooooooo");
    assert_eq!(answers[36], "skipped: none");
    assert_eq!(answers.len(), 37);
}
