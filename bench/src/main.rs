//! The proved library beside hand-written Rust: times of each question, and how they grow. With the word `messages` cells with messages
//! alone are timed, with the word `plain` the plain engine. With the word `instructions` the library alone is called, for a count of its
//! instructions.

mod broadcast;
mod fast;
mod growth;
mod inputs;
mod instructions;
mod measure;
mod messages;
mod no_windows;
mod plain;
mod questions;

use broadcast::Broadcast;
use inputs::{Input, Random};
use messages::{InputWithMessages, Schedules};
// the proved library
use nbiot::numbers as ours;

const TIMED: usize = 512;
const COMPARED: usize = 1 << 18;

/// What the plain engine's inputs are drawn from.
const PLAIN: u64 = 0x5851_f42d_4c95_7f2d;

/// Accepted inputs, and the same with one port. Search spaces are drawn by a generator of their own.
fn accepted(r: &mut Random, spaces: &mut Random) -> (Vec<Input>, Vec<Input>) {
    let timed: Vec<Input> = (0..TIMED).map(|_| Input::accepted(r).with_space(inputs::space(spaces))).collect();
    let ported = timed.iter().map(|s| s.clone().with_one_port(r)).collect();
    (timed, ported)
}

/// The lines of NPBCH and SIB1.
fn broadcast_times(b: &mut Random) {
    let mut timed: Vec<Broadcast> = (0..TIMED).map(|_| Broadcast::accepted(b)).collect();
    let mut compared: Vec<Broadcast> = (0..COMPARED).map(|_| Broadcast::any(b)).collect();
    broadcast::lines(&mut timed, &mut compared, &str::to_string);
}

fn times(mut r: Random, mut w: Random, mut m: Random, mut spaces: Random, mut b: Random) {
    let (mut timed, mut ported) = accepted(&mut r, &mut spaces);
    let mut compared: Vec<Input> = (0..COMPARED).map(|_| Input::any(&mut r).with_space(inputs::any_space(&mut spaces))).collect();
    no_windows::compare(&compared);
    messages::compare(&compared);
    questions::table(&mut timed, &mut ported, &mut compared);
    broadcast_times(&mut b);
    let mut timed: Vec<Input> = timed.into_iter().map(|s| s.beside_windows(&mut w, 3)).collect();
    let mut compared: Vec<Input> = compared.into_iter().map(|s| s.beside_any_windows(&mut w)).collect();
    questions::beside_windows(&mut timed, &mut compared);
    growth::table(&mut r);
    growth::uplink_table(&mut w);
    growth::search_table(&mut spaces);
    plain::table(&mut Random::new(PLAIN));
    messages_times(&mut m, &mut spaces, &mut b);
}

/// The tables of cells with messages.
fn messages_times(m: &mut Random, spaces: &mut Random, b: &mut Random) {
    messages::table(m, spaces, b);
    messages::grown(m);
    messages::search_grown(spaces);
}

/// Inputs as the times take them, but that there may be four windows.
fn calls(mut r: Random, mut w: Random, mut spaces: Random, mut b: Random, part: &str) {
    let (plain, ported) = accepted(&mut r, &mut spaces);
    let beside: Vec<Input> = plain.iter().map(|s| s.clone().beside_windows(&mut w, 4)).collect();
    let broadcasts: Vec<Broadcast> = (0..TIMED).map(|_| Broadcast::accepted(&mut b)).collect();
    instructions::call(part, &plain, &ported, &beside, &broadcasts);
}

/// The same inputs with messages of a count of 0, or others with one schedule.
fn messages_calls(mut r: Random, mut m: Random, mut spaces: Random, mut b: Random, part: &str) {
    const NONE: fast::Messages = [160, 0, 0, 0, 0, 0, 0, 0, 0, 0, 0, 0, 0, 0, 0];
    let (plain, ported): (Vec<InputWithMessages>, Vec<InputWithMessages>);
    let broadcasts: Vec<Broadcast<23>>;
    if part == "zero" {
        let inputs = accepted(&mut r, &mut spaces);
        plain = inputs.0.iter().map(|s| InputWithMessages::of(s, &NONE)).collect();
        ported = inputs.1.iter().map(|s| InputWithMessages::of(s, &NONE)).collect();
        broadcasts = (0..TIMED).map(|_| Broadcast::accepted(&mut b).beside(&NONE)).collect();
    } else {
        assert_eq!(part, "one", "no part");
        let one = Schedules::One;
        plain = (0..TIMED).map(|_| InputWithMessages::accepted(&mut m, one).with_space(messages::space(&mut spaces, one))).collect();
        ported = plain.iter().map(|s| s.clone().with_one_port(&mut m)).collect();
        broadcasts = (0..TIMED).map(|_| Broadcast::accepted_with(&mut b, one)).collect();
    }
    instructions::call_with_messages(&plain, &ported, &broadcasts);
}

fn main() {
    let (r, w) = (Random::new(0x9e37_79b9_7f4a_7c15), Random::new(0x2545_f491_4f6c_dd1d));
    let (mut m, mut spaces) = (Random::new(0xd1b5_4a32_d192_ed03), Random::new(0x8cb9_2ba7_2f3d_8dd7));
    let mut b = Random::new(0x3c79_ac49_2ba7_b653);
    let words: Vec<String> = std::env::args().skip(1).collect();
    match words.iter().map(String::as_str).collect::<Vec<_>>()[..] {
        [] => times(r, w, m, spaces, b),
        ["messages"] => messages_times(&mut m, &mut spaces, &mut b),
        ["plain"] => plain::table(&mut Random::new(PLAIN)),
        ["instructions"] => calls(r, w, spaces, b, "each"),
        ["instructions", part] => calls(r, w, spaces, b, part),
        ["instructions", "messages", part] => messages_calls(r, m, spaces, b, part),
        _ => panic!("expected nothing, or: messages, or: plain, or: instructions [PART], or: instructions messages PART"),
    }
}
