//! Lines that are no questions, for the question file.

use super::random::Random;
use crate::text::line_error::LineError;
use crate::text::read_lines::LONGEST_LINE;

const QUESTION_ERRORS: &[&[u8]] = &[
    b"plam down",
    b"Plan down",
    b" plan down",
    b" ",
    b"cell\r\r",
    b"\r\r",
    b"\rcell",
    b"\tcell",
    b"helps",
    b"Help",
    b"help\r\r",
    b"timelines down",
    b"meaning=7",
    b"cell\tmode=1",
    b"ours",
    b"=",
    b"p=1",
    b"forwarddown p=1",
    b"Search n=15",
    b"npbch p=1",
    b"searches",
    b"\xff\xfe\x00",
    b"plan\0down",
];

const KIND_ERRORS: &[&[u8]] = &[
    b"plan",
    b"plan sideways",
    b"plan  down",
    b"forward p=3",
    b"backward t=3 down",
    b"cell down",
    b"set up mode=1",
    b"picture",
    b"picture acks",
    b"picture up\r\r",
    b"timeline",
    b"timeline ",
    b"timeline npbch",
    b"timeline sib1 n=1",
    b"timeline n=1",
    b"meaning up no=7",
    b"meaning npbch",
    b"plan acks",
    b"cell ack",
    b"cause down",
    b"count up",
    b"search control",
    b"search down n=15",
    b"plan npbch",
    b"plan sib1 n=1",
    b"step npbch p=0",
    b"step sib1",
    b"cell npbch",
    b"set sib1 mode=1",
    b"fill sib1",
    b"element npbch k=1",
    b"forward NPBCH p=1",
    b"backward sib t=4",
    b"picture pbch",
    b"forward sib1\r\r",
    b"fill down i=0",
    b"element up",
    b"bitmap control",
    b"step Down",
    b"backward down\r\r",
    b"plan down\tp=1",
    b"step \xc3\xbc",
];

/// Words that bring `value`, `name`, `number`, `hex` and `size` after a good beginning.
const VALUE_ERRORS: &[&[u8]] = &[
    b"mode",
    b"",
    b" p=1",
    b"p=1\r\r",
    b"p=1\rk=2",
    b"\rp=1",
    b"p=1\tk=2",
    b"7",
    b"-",
    b"\t",
    b"\xff",
];
const NAME_ERRORS: &[&[u8]] = &[
    b"moed=1",
    b"=1",
    b"Mode=1",
    b"q=7",
    b"nn=x",
    b"pp=",
    b"anchor2=zz",
    b"w0=40,8,172032,0",
    b"w5=40,8,172032,0",
    b"w=x",
    b"m0=64,2,8",
    b"m5=64,2,8",
    b"m=64,2,8",
    b"M1=64,2,8",
    b"message=1",
    b"window=160",
    b"siWindow=160",
    b"offset=x",
    b"G=2",
    b"Engine=1",
    b"engines=2",
    b"alfa=1",
    b"Rmax=4",
    b"No=7",
    b"meaning=7",
    b"line=1",
    b"\xff=1",
];
const NUMBER_ERRORS: &[&[u8]] = &[
    b"p=",
    b"p=-1",
    b"p=+1",
    b"p=0x10",
    b"p=18446744073709551616",
    b"n=99999999999999999999999999",
    b"k=1.0",
    b"l=1=2",
    b"mode=a",
    b"field=f",
    b"windows=1,",
    b"w1=",
    b"w1=40",
    b"w1=40,8,172032",
    b"w2=40,8,172032,0,0",
    b"w2=40,8,172032,0,",
    b"w3=40;8;172032;0",
    b"w3=40,8,,0",
    b"w4=40,8,172032,-1",
    b"w4=18446744073709551616,8,172032,0",
    b"engine=",
    b"engine=plain",
    b"engine=18446744073709551616",
    b"g=1.5",
    b"g=",
    b"alpha=1/8",
    b"alpha=-1",
    b"siwindow=",
    b"siwindow=160ms",
    b"sioffset=-1",
    b"sioffset=18446744073709551616",
    b"messages=1,",
    b"m1=",
    b"m1=64",
    b"m1=64,2",
    b"m2=64,2,8,0",
    b"m2=64,2,8,",
    b"m2=,64,2,8",
    b"m3=64;2;8",
    b"m3=64,,8",
    b"m4=64,2,-8",
    b"m4=64,2,0x8",
    b"m4=18446744073709551616,2,8",
    b"room=-",
    b"i=1_0",
    b"no=",
    b"no=-1",
    b"no=18446744073709551616",
];
const HEX_ERRORS: &[&[u8]] = &[
    b"anchor=abc",
    b"anchor=zz",
    b"other=--",
    b"other=0",
    b"data=0g",
    b"data=0x",
    b"level=3f80000g",
    b"level=+3f80000",
];
const SIZE_ERRORS: &[&[u8]] = &[
    b"level=3f8000",
    b"level=3f80000000",
    b"level=00",
    b"engine=2",
    b"engine=18446744073709551615",
    b"room=1025",
    b"room=18446744073709551615",
];

/// Beginnings whose values must not be kept.
const BEGINNINGS: &[&[u8]] = &[
    b"set n=4294967296",
    b"cell mode=9",
    b"cause t=18446744073709551615 carrier=2",
    b"count nports=3",
    b"search g=8 alpha=4 rmax=3",
    b"plan down n=4294967296 copies=99",
    b"forward npbch p=6400 carrier=1",
    b"backward sib1 t=18446744073709551615 slot=2",
    b"picture sib1 i=128 sib1=12",
    b"forward up units=8",
    b"forward down engine=1 p=77",
    b"backward ack field=16",
    b"plan up windows=4 w1=1,2,3,4",
    b"backward control r=3",
    b"step down p=18446744073709551615",
    b"fill level=00000000 room=3",
    b"element i=99999999 data=-",
    b"picture control identity=504",
    b"set siwindow=7 messages=4",
    b"cell messages=9",
    b"cause sioffset=16 m1=1,2,3",
    b"plan down messages=2 m1=64,2,8 m2=64,2,8 siwindow=640",
    b"meaning no=7",
    b"timeline up copies=9",
    b"timeline control r=3 n=4294967296",
    b"picture ack i=4096",
];

/// Lines of help with a second word that is not known.
const UNKNOWN_HELP_WORDS: &[&[u8]] = &[
    b"help ",
    b"help  n",
    b"help colour",
    b"help N",
    b"help n=1",
    b"help Questions:",
    b"help A",
    b"help w5",
    b"help up\t",
    b"help n\r\r",
    b"help mod",
    b"help modes x",
    b"help \xff",
];

/// Lines of help with a word more.
const HELP_OF_TWO_WORDS: &[&[u8]] = &[
    b"help n ",
    b"help n p",
    b"help control n=1",
    b"help up down",
    b"help help help help",
    b"help no \r\r",
];

/// A line of exactly 4,096 bytes: the zeros count for nothing.
pub fn longest_line() -> Vec<u8> {
    let mut line = b"cell t=".to_vec();
    line.resize(LONGEST_LINE - 1, b'0');
    line.push(b'7');
    line
}

/// A line over 4,096 bytes, also by a carriage return that isn't its end.
fn too_long_line(random: &mut Random) -> Vec<u8> {
    let beginnings: [&[u8]; 4] = [b"cell t=", b"set data=", b"plan ", b"x"];
    let mut line = random.pick(&beginnings).to_vec();
    if random.chance(20) {
        line.resize(LONGEST_LINE, b'0');
        line.extend_from_slice(b"\r\r");
        return line;
    }
    let length = random.pick(&[LONGEST_LINE + 1, LONGEST_LINE + 1, 5000, 9000]);
    line.resize(length, b'0');
    line
}

/// A word of a buffer one byte or more past its limit.
fn too_long_buffer(random: &mut Random) -> Vec<u8> {
    let buffers: [(&[u8], usize); 3] = [(b"anchor=", 64), (b"other=", 64), (b"data=", 1024)];
    let (name, limit) = random.pick(&buffers);
    let mut word = name.to_vec();
    word.resize(name.len() + 2 * (limit + 1), b'5');
    word
}

/// A line that is no question, with its error and where it stands.
#[derive(Clone, Debug)]
pub struct FaultyLine {
    pub line: Vec<u8>,
    pub error: LineError,
    /// 0 for the whole line.
    pub word: usize,
}

/// A line that is no question.
pub fn random_faulty_line(random: &mut Random) -> FaultyLine {
    let error = random.pick(&LineError::ALL);
    let (line, word) = match error {
        LineError::Long => (too_long_line(random), 0),
        LineError::Question => (random.pick(QUESTION_ERRORS).to_vec(), 1),
        LineError::Kind => (random.pick(KIND_ERRORS).to_vec(), 2),
        LineError::Name if random.chance(25) => (random.pick(UNKNOWN_HELP_WORDS).to_vec(), 2),
        LineError::Value if random.chance(25) => (random.pick(HELP_OF_TWO_WORDS).to_vec(), 3),
        _ => {
            let word = random_faulty_word(random, error);
            after_good_words(random, &word)
        }
    };
    FaultyLine { line, error, word }
}

/// A word that brings an error after a good beginning.
fn random_faulty_word(random: &mut Random, error: LineError) -> Vec<u8> {
    let list = match error {
        LineError::Value => VALUE_ERRORS,
        LineError::Name => NAME_ERRORS,
        LineError::Number => NUMBER_ERRORS,
        LineError::Hex => HEX_ERRORS,
        _ if random.chance(40) => return too_long_buffer(random),
        _ => SIZE_ERRORS,
    };
    random.pick(list).to_vec()
}

/// A good beginning and some good words, then the bad word; and its number.
fn after_good_words(random: &mut Random, bad: &[u8]) -> (Vec<u8>, usize) {
    let mut line = random.pick(BEGINNINGS).to_vec();
    for _ in 0..random.below(4) {
        line.extend_from_slice(random.pick(&[b" k=77", b" no=7"]));
    }
    let word = line.split(|&b| b == b' ').count() + 1;
    line.push(b' ');
    line.extend_from_slice(bad);
    if random.chance(20) {
        // The first error from the left is the one answered.
        line.extend_from_slice(random.pick(&[b" q=1", b" k=x", b" k=3"]));
    }
    (line, word)
}
