//! docs/QUESTIONS.md: its examples are answered as they stand there, and what
//! it says of every answer holds.

use crate::common::ask;
use reference::generator::question_file::{write_question_file, QuestionFile};
use reference::text::answer::Answerer;
use reference::text::read_lines::next_line;

const DOCUMENT: &str = include_str!("../../../docs/QUESTIONS.md");

/// Lines as the document shows them: four spaces before each.
fn shown(lines: &[String]) -> String {
    let indent = |line: &String| match line.is_empty() {
        true => "\n".to_string(),
        false => format!("    {line}\n"),
    };
    lines.iter().map(indent).collect()
}

/// The document has the text.
fn has(text: &str) {
    assert!(DOCUMENT.contains(text), "not in the document:\n{text}");
}

/// After `set` the question has the answer that the document shows below it.
fn answered(set: &str, question: &str) {
    let answer = shown(&ask(&format!("{set}\n{question}\n")));
    has(&format!("`{question}` answers\n\n{answer}"));
    has(&format!("`{set}`"));
}

#[test]
fn lines_and_their_answers() {
    let lines = "# a comment is line 1
set mode=3 nports=1 n=15 rmax=64 subframes=6

plan down
plan
forward down p=60 q=1
forward down  p=60
help colour
plan down n=15 copies=x
";
    let questions: Vec<String> = lines.lines().map(str::to_string).collect();
    let answers = shown(&ask(lines));
    has(&format!("{}\nanswer\n\n{answers}", shown(&questions)));
}

#[test]
fn help_and_meaning() {
    let answer = shown(&ask("help control"));
    has(&format!("`help control` answers\n\n{answer}"));
    let lines = ["meaning no=7", "meaning no=0", "meaning no=26"].map(str::to_string);
    let answers = shown(&ask(&lines.join("\n")));
    has(&format!("{}\nanswer\n\n{answers}", shown(&lines)));
}

#[test]
fn pictures_and_timelines() {
    let p7 = "set mode=3 nports=1 n=15 rmax=64 subframes=6";
    answered(p7, "picture down i=2");
    answered(p7, "timeline down");
    let up = "set n=100 spacing=1 subcarrier=12 copies=2";
    answered(up, "picture up i=2");
    let windows = "set n=118 spacing=1 subcarrier=18 copies=3 windows=1 w1=40,8,172032,0";
    answered(windows, "timeline up");
    let ack = "set n=110 field=0 copies=1 windows=1 w1=40,8,172032,36";
    answered(ack, "timeline ack");
    let messages = "set mode=3 nports=1 n=150 rmax=64 subframes=1 copies=3 \
bits=10 anchor=77c0 messages=1 m1=64,2,2 sioffset=15";
    let answer = shown(&ask(&format!("{messages}\ntimeline down")));
    has(&format!("`{messages}` it answers\n\n{answer}"));
}

/// The text of each answer of a question file.
fn answers_of(file: &[u8]) -> Vec<String> {
    let mut answerer = Answerer::default();
    let mut input = file;
    let mut line = Vec::new();
    let mut answers = Vec::new();
    while next_line(&mut input, &mut line).expect("memory gives all") {
        let mut out = Vec::new();
        if let Some(answer) = answerer.answer_line(&line) {
            answer.write(&mut out).expect("memory takes all");
            answers.push(String::from_utf8(out).expect("plain text"));
        }
    }
    answers
}

/// At most 16,384 bytes, whole lines, no space at a line's end, and only the
/// first line begins as an answer does.
fn is_well_formed(answer: &str) -> bool {
    let begins = |line: &str| line.starts_with("no=") || line.starts_with("error=");
    let lines: Vec<&str> = answer.lines().collect();
    let plain = |b: u8| b == b'\n' || (b' '..=b'~').contains(&b);
    answer.len() <= 16_384
        && answer.ends_with('\n')
        && answer.bytes().all(plain)
        && begins(lines[0])
        && !lines[1..].iter().any(|line| begins(line))
        && !lines.iter().any(|l| l.is_empty() || l.ends_with(' '))
}

#[test]
fn every_answer() {
    let mut file = Vec::new();
    write_question_file(QuestionFile::new(21, 20_000), &mut file).expect("memory takes all");
    file.extend_from_slice(b"help\nfill room=1024\n");
    let answers = answers_of(&file);
    assert_eq!(answers.len(), 20_002);
    for answer in &answers {
        assert!(is_well_formed(answer), "{answer}");
    }
    assert!(answers.iter().any(|answer| answer.len() > 9000));
}
