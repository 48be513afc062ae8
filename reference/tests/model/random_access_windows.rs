//! Random access windows (02, "L4"): where the pushed slots go, the 256 ms from
//! the first named slot, and numbers 19 and 20.

use crate::common::{ask, value};
use reference::generator::random::Random;
use reference::model::random_access_windows::{
    Window, Windows, FORMATS, PERIODS, REPETITIONS, STARTS,
};
use reference::model::uplink::Npusch;

/// One value of an answer.
fn asked(question: &str, name: &str) -> u64 {
    value(&ask(question)[0], name)
}

/// The slots that a grant sends.
fn sent(grant: &Npusch) -> Vec<u64> {
    grant.list().expect("an accepted grant").sent
}

fn windows(entries: &[Window]) -> Windows {
    let mut windows = Windows {
        count: entries.len() as u64,
        ..Windows::default()
    };
    windows.entries[..entries.len()].copy_from_slice(entries);
    windows
}

/// Format 0 once, 5.6 ms from every t = 8 mod 40, tones 0 to 11.
const SHORT: Window = Window {
    period: 40,
    start: 8,
    length: 172_032,
    tone: 0,
};

#[test]
fn slots_closed_at_3_75_khz() {
    for (tone, closed) in [(0, true), (11, true), (12, false), (47, false)] {
        let grant = Npusch {
            n: 100,
            subcarrier: tone,
            copies: 3,
            windows: windows(&[SHORT]),
            ..Npusch::default()
        };
        let slots = sent(&grant);
        let meets = slots.iter().any(|s| (4..=6).contains(&(s % 20)));
        assert_eq!(meets, !closed, "tone {tone}");
        let beside = slots.iter().filter(|&s| [3, 7].contains(&(s % 20)));
        assert!(beside.count() > 4, "meeting end to start isn't overlap");
    }
}

/// A 15 kHz tone k covers 4k to 4k + 3.
#[test]
fn tones_at_15_khz() {
    for (tone, first, last) in [(0, 0, 2), (1, 0, 3), (36, 9, 11), (33, 8, 11)] {
        for k in 0..12 {
            let set = format!("windows=1 w1=40,8,172032,{tone} spacing=1 subcarrier={k} n=38");
            let question = format!("plan up {set}"); // from t = 47
            let moved = asked(&question, "last") != 94 + 15;
            assert_eq!(moved, (first..=last).contains(&k), "k = {k}, from {tone}");
        }
    }
}

/// Pairs of 15 kHz move together, to an even slot: 48 to 53.6 closes t = 48 to 53.
#[test]
fn pairs_at_15_khz() {
    let set = "set windows=1 w1=40,8,172032,0 spacing=1 subcarrier=18 n=38 copies=1\n";
    let answers = ask(&format!(
        "{set}plan up\nforward up p=143\nforward up p=144\nbackward up slot=96 l=3"
    ));
    assert_eq!(value(&answers[0], "first"), 94);
    assert_eq!(value(&answers[0], "last"), 109);
    assert_eq!(value(&answers[1], "slot"), 95);
    assert_eq!(value(&answers[2], "slot"), 108);
    assert_eq!(
        answers[3], "no=0 ours=0 symbol=0 p=0 kind=0",
        "pushed aside"
    );
}

/// One window from t = -128 closes t = 0 to 281.
#[test]
fn a_window_over_t_0() {
    let window = "windows=1 w1=640,512,12582912,0";
    let plan = format!("plan up {window} spacing=1 subcarrier=0");
    assert_eq!(asked(&format!("{plan} n=100"), "first"), 2 * 282);
    assert_eq!(asked(&format!("{plan} n=272"), "first"), 2 * 282);
    assert_eq!(asked(&format!("{plan} n=274"), "first"), 2 * 283);
    assert_eq!(
        asked(&format!("{plan} n=0"), "first"),
        2 * 305,
        "from t = 9 on the 40 ms empty are 265 to 305"
    );
    let plan = format!("plan ack {window} spacing=1 field=0");
    assert_eq!(asked(&format!("{plan} n=100"), "first"), 2 * 282);
}

/// The 256 ms include postponements: 395, not 375.
#[test]
fn postponements_count() {
    let plan = "plan up windows=1 w1=40,8,172032,0 n=100 subcarrier=0 copies=4";
    let answer = &ask(plan)[0];
    assert_eq!(value(answer, "first"), 55);
    assert_eq!(value(answer, "last"), 395);
}

/// The named slot lies in a long window, which hides the first 40 ms.
#[test]
fn a_gap_inside_a_window() {
    let grant = Npusch {
        n: 511,
        spacing: 1,
        subcarrier: 18,
        units: 7,
        copies: 7,
        windows: windows(&[Window {
            period: 2560,
            start: 512,
            length: 12_582_912,
            tone: 5,
        }]),
        ..Npusch::default()
    };
    let slots = sent(&grant);
    let expected = (922..1072).chain(1112..1368).chain(1408..);
    let expected = expected.flat_map(|t| [2 * t, 2 * t + 1]);
    let expected: Vec<u64> = expected.take(2 * (150 + 256 + 100)).collect();
    assert_eq!(slots[..expected.len()], expected);
}

#[test]
fn pushed_and_gap_slots_are_not_ours() {
    let set = "set windows=1 w1=40,8,172032,0 n=100 subcarrier=0 copies=4\n";
    let kind = |slot: u64| {
        let answer = &ask(&format!("{set}backward up slot={slot} l=4 k=0"))[0];
        (value(answer, "ours"), value(answer, "kind"))
    };
    assert_eq!(kind(57), (0, 1), "sent");
    for slot in [64, 65, 66, 183, 190, 202, 394 + 4] {
        assert_eq!(kind(slot), (0, 0), "slot {slot}");
    }
}

#[test]
fn number_19() {
    let no = |words: &str| {
        asked(
            &format!("plan up windows=1 w1=40,8,172032,36 {words}"),
            "no",
        )
    };
    assert_eq!(no("windows=1"), 0);
    assert_eq!(no("w2=0,0,0,99 w4=1,2,3,4"), 0, "past the count");
    assert_eq!(no("windows=0 w1=1,2,3,4"), 0, "past the count");
    assert_eq!(no("windows=2 w2=0,0,0,99"), 19);
    assert_eq!(no("windows=5"), 19);
    assert_eq!(no("windows=18446744073709551615"), 19);
    assert_eq!(no("windows=4"), 19, "entries of zeros");
    for window in [
        "20,8,172032,0",
        "240,8,172032,0",
        "5120,8,172032,0",
        "40,4,172032,0",
        "40,24,172032,0",
        "40,2048,172032,0",
        "40,8,0,0",
        "40,8,172031,0",
        "40,8,86016,0",
        "40,8,516096,0",
        "40,8,22020096,0",
        "40,8,25165824,0",
        "40,8,172032,37",
        "40,8,172032,18446744073709551615",
        "18446744073709551615,8,172032,0",
    ] {
        assert_eq!(no(&format!("w1={window}")), 19, "{window}");
    }
    for period in PERIODS {
        for start in STARTS {
            for format in FORMATS {
                for repetitions in REPETITIONS {
                    let length = format * repetitions;
                    let window = format!("w1={period},{start},{length},36");
                    assert_eq!(no(&window), 0, "{window} on other tones");
                }
            }
        }
    }
}

#[test]
fn number_20() {
    let no = |words: &str| asked(&format!("plan up {words}"), "no");
    let endless = "windows=1 w1=40,1024,1376256,12"; // 44.8 ms of 40
    for tone in 0..48 {
        let refused = if (12..24).contains(&tone) { 20 } else { 0 };
        assert_eq!(no(&format!("{endless} subcarrier={tone}")), refused);
    }
    assert_eq!(no(&format!("{endless} spacing=1 subcarrier=18")), 20);
    assert_eq!(no(&format!("{endless} spacing=1 subcarrier=13")), 20);
    assert_eq!(no(&format!("{endless} spacing=1 subcarrier=12")), 0);
    // Of 80 ms, 8 to 52.8 and 48 to 92.8: together all.
    let two = "w1=80,8,1376256,0 w2=80,128,1376256,0";
    assert_eq!(no(&format!("windows=1 {two}")), 0);
    assert_eq!(no(&format!("windows=2 {two}")), 20);
    // The same on other tones each: only a grant with both is never free.
    let apart = "windows=2 w1=80,8,1376256,0 w2=80,128,1376256,36 spacing=1";
    assert_eq!(no(&format!("{apart} subcarrier=0")), 0);
    assert_eq!(no(&format!("{apart} subcarrier=11")), 0);
    assert_eq!(no(&format!("{apart} subcarrier=18")), 20);
    assert_eq!(asked(&format!("plan ack {endless} field=0"), "no"), 0);
    let high = "windows=1 w1=40,8,1376256,36";
    assert_eq!(asked(&format!("plan ack {high} field=0"), "no"), 20);
}

#[test]
fn order_of_refusals() {
    let no = |words: &str| asked(words, "no");
    let bad = "windows=5 p=99999999 l=7";
    let endless = "windows=1 w1=40,8,1376256,0 p=99999999 l=7";
    for question in ["forward up", "backward up", "step up"] {
        assert_eq!(no(&format!("{question} {bad} mcs=5")), 13);
        assert_eq!(no(&format!("{question} {bad}")), 19);
        assert_eq!(no(&format!("{question} {endless} subcarrier=0")), 20);
        assert_eq!(no(&format!("{question} {endless} subcarrier=12")), 14);
    }
    for question in ["forward ack", "backward ack", "step ack"] {
        assert_eq!(no(&format!("{question} {bad} field=16")), 10);
        assert_eq!(no(&format!("{question} {bad}")), 19);
        assert_eq!(no(&format!("{question} {endless} spacing=1")), 20);
        assert_eq!(no(&format!("{question} {endless} spacing=0")), 14);
    }
    let down = "mode=3 nports=1 rmax=1";
    assert_eq!(no(&format!("plan down {bad} {down}")), 0, "uplink only");
}

/// Does a window overlap the group's time? All begins are tried, from far below 0.
fn overlaps(window: &Window, begin: i64, end: i64) -> bool {
    let (period, start) = (window.period as i64, window.start as i64);
    (-100..=end / period).any(|j| {
        let from = (start + j * period) * 30_720;
        let to = from + window.length as i64;
        from < end * 30_720 && begin * 30_720 < to
    })
}

/// The clause's words: groups are sent or postponed, and after 256 ms of both
/// 40 ms are left empty; what is postponed there counts as part of them.
fn by_counting(grant: &Npusch, count: usize) -> Vec<u64> {
    let (slots, long, tone) = match grant.spacing {
        0 => (1, 2, 1),
        _ => (2, 1, 4),
    };
    let delay = [8, 16, 32, 64][grant.delay as usize];
    let end = (grant.n + delay + 1) as i64;
    let mut begin = (end + long - 1) / long * long;
    let mut counted = 0;
    let mut list = Vec::new();
    while list.len() < count {
        if counted == 256 {
            begin += 40;
            counted = 0;
            continue;
        }
        let low = grant.subcarrier * tone;
        let met = grant.windows.entries_in_use().iter().any(|w| {
            let in_tone = w.tone < low + tone && low < w.tone + 12;
            in_tone && overlaps(w, begin, begin + long)
        });
        if !met {
            let first = (begin / long) as u64 * slots;
            list.extend(first..first + slots);
        }
        begin += long;
        counted += long;
    }
    list
}

#[test]
fn as_the_clause_counts() {
    let random = &mut Random::new(4);
    let mut pushed = 0;
    for _ in 0..400 {
        let spacing = random.below(2);
        let entries: Vec<Window> = (0..random.below(5))
            .map(|_| Window {
                period: random.pick(&PERIODS),
                start: random.pick(&STARTS),
                length: random.pick(&FORMATS) * random.pick(&REPETITIONS[..6]),
                tone: random.below(37),
            })
            .collect();
        let grant = Npusch {
            n: random.below(3000),
            spacing,
            subcarrier: random.below(if spacing == 0 { 48 } else { 12 }),
            units: random.below(4),
            copies: random.below(6),
            delay: random.below(4),
            mcs: 0,
            windows: windows(&entries),
        };
        match grant.list() {
            Err(no) => assert_eq!(no, 20),
            Ok(listing) => {
                let counted = by_counting(&grant, listing.sent.len());
                assert_eq!(listing.sent, counted, "{grant:?}");
                pushed += u64::from(!entries.is_empty());
            }
        }
    }
    assert!(pushed > 200);
}
