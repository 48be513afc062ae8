//! `reference answer`, `reference generate SEED COUNT [--only "forward up"]`, `reference counts`,
//! `reference spaces`, `reference subframes SEED CELLS`, `reference periods SCHEDULE`, `reference table`.

use reference::generator::question_file::{write_question_file, QuestionFile};
use reference::generator::{
    every_broadcast_place, every_count, every_search_space, every_subframe, table,
};
use reference::text::answer;
use reference::text::question::Question;
use reference::text::read_question::read_line;
use reference::text::values::Values;
use std::io::{self, BufReader, BufWriter, Write};
use std::process::ExitCode;

const USAGE: &str = "usage: reference answer < questions
       reference generate SEED COUNT [--only \"QUESTION KIND\"]
       reference counts
       reference spaces
       reference subframes SEED CELLS
       reference periods SCHEDULE
       reference table < questions";

fn main() -> ExitCode {
    let arguments: Vec<String> = std::env::args().skip(1).collect();
    let words: Vec<&str> = arguments.iter().map(String::as_str).collect();
    match run(&words) {
        Ok(true) => ExitCode::SUCCESS,
        Ok(false) => {
            eprintln!("{USAGE}");
            ExitCode::from(2)
        }
        Err(error) => {
            eprintln!("reference: {error}");
            ExitCode::FAILURE
        }
    }
}

/// Does what the words ask; false if they are no command.
fn run(words: &[&str]) -> io::Result<bool> {
    let mut input = BufReader::with_capacity(1 << 16, io::stdin().lock());
    let mut out = BufWriter::with_capacity(1 << 16, io::stdout().lock());
    match words {
        ["answer"] => answer::answer_all(&mut input, &mut out)?,
        ["counts"] => every_count::write_every_count(&mut out)?,
        ["spaces"] => every_search_space::write_every_search_space(&mut out)?,
        ["table"] => {
            table::table_of_questions(&mut input)?.write(&mut out)?;
            out.flush()?;
        }
        ["generate", seed, count, options @ ..] => {
            let Some(file) = read_question_file(seed, count, options) else {
                return Ok(false);
            };
            write_question_file(file, &mut out)?;
        }
        ["subframes", seed, cells] => {
            let (Ok(seed), Ok(cells)) = (seed.parse(), cells.parse()) else {
                return Ok(false);
            };
            every_subframe::write_every_subframe(seed, cells, &mut out)?;
        }
        ["periods", schedule] => {
            let Some(schedule) = schedule.parse().ok().filter(|&s: &u64| s < 12) else {
                return Ok(false);
            };
            every_broadcast_place::write_every_broadcast_place(schedule, &mut out)?;
        }
        _ => return Ok(false),
    }
    Ok(true)
}

/// The question of `--only`, as a line would name it.
fn read_only(text: &str) -> Option<Question> {
    match read_line(&mut Values::default(), text.as_bytes()) {
        Ok(Some(Question::Set)) | Ok(None) | Err(_) => None,
        Ok(question) => question,
    }
}

/// The question file that the words ask for.
fn read_question_file(seed: &str, count: &str, options: &[&str]) -> Option<QuestionFile> {
    let only = match options {
        [] => None,
        ["--only", question] => Some(read_only(question)?),
        _ => return None,
    };
    Some(QuestionFile {
        seed: seed.parse().ok()?,
        count: count.parse().ok()?,
        only,
    })
}
