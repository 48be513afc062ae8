//! Acknowledgements (02, "L1"): start, tone, data symbols, places, refusals.

use crate::common::{ask, value};

/// One value of a plan.
fn plan_value(words: &str, name: &str) -> u64 {
    value(&ask(&format!("plan ack {words}"))[0], name)
}

#[test]
fn start_after_the_delay() {
    for (n, at_3_75, at_15) in [(100, 57, 226), (101, 57, 228)] {
        assert_eq!(plan_value(&format!("n={n} spacing=0"), "first"), at_3_75);
        assert_eq!(plan_value(&format!("n={n} spacing=1"), "first"), at_15);
    }
    let plan = &ask("plan ack n=100 spacing=1 copies=3")[0];
    assert_eq!(
        plan,
        "no=0 first=226 last=257 copies=8 places=128 size=1 order=1"
    );
}

/// Delay and tone of each field, n = 0.
#[test]
fn delay_and_tone_of_each_field() {
    for field in 0..16 {
        let delay = [13, 15, 17, 18][field / 4];
        let answer = &ask(&format!("forward ack spacing=1 field={field}"))[0];
        assert_eq!(value(answer, "slot"), 2 * delay);
        assert_eq!(value(answer, "k"), field as u64 % 4);
        let first = if field < 8 { 7 } else { 11 }; // 14 ms, 22 ms
        let answer = &ask(&format!("forward ack spacing=0 field={field}"))[0];
        assert_eq!(value(answer, "slot"), first);
        assert_eq!(value(answer, "k"), 38 + field as u64 % 8);
    }
}

#[test]
fn four_data_symbols_a_slot() {
    for (spacing, data) in [(0, [3, 4, 5, 6]), (1, [0, 1, 5, 6])] {
        let mut questions = format!("set n=100 spacing={spacing} field=5 copies=1\n");
        for p in 0..33 {
            questions.push_str(&format!("forward ack p={p}\n"));
        }
        let answers = ask(&questions);
        let first = value(&answers[0], "slot");
        for p in 0..32 {
            let at = |name| value(&answers[p as usize], name);
            assert_eq!(at("slot"), first + p / 4);
            assert_eq!(at("l"), data[p as usize % 4]);
            assert_eq!(at("symbol"), p % 16, "16 symbols, sent twice");
        }
        assert_eq!(value(&answers[32], "no"), 14);
    }
}

#[test]
fn sixteen_places_a_copy() {
    for copies in 0..8 {
        for spacing in 0..2 {
            let words = format!("spacing={spacing} copies={copies}");
            assert_eq!(plan_value(&words, "copies"), 1 << copies);
            assert_eq!(plan_value(&words, "places"), 16 << copies);
        }
    }
}

/// 128 copies are 512 slots: 1,024 ms with three gaps, or 256 ms with none.
#[test]
fn forty_ms_are_left_empty_after_256() {
    for (spacing, slots) in [(0, 512 + 3 * 20), (1, 512)] {
        let words = format!("n=100 spacing={spacing} copies=7");
        let first = plan_value(&words, "first");
        assert_eq!(plan_value(&words, "last"), first + slots - 1);
    }
}

#[test]
fn reference_symbols() {
    for (spacing, first, references) in [(0, 57, [0, 1, 2]), (1, 226, [2, 3, 4])] {
        let tone = if spacing == 0 { 38 } else { 0 };
        let kind = |slot: u64, l: u64, k: u64| {
            let place = format!("n=100 spacing={spacing} slot={slot} l={l} k={k}");
            let answer = &ask(&format!("backward ack {place}"))[0];
            (value(answer, "ours"), value(answer, "kind"))
        };
        for l in 0..7 {
            let reference = references.contains(&l);
            let expected = if reference { (0, 1) } else { (1, 0) };
            assert_eq!(kind(first, l, tone), expected);
            assert_eq!(kind(first, l, tone + 1), (0, 0), "a tone not granted");
            assert_eq!(kind(first - 1, l, tone), (0, 0), "before the first slot");
            assert_eq!(kind(first + 4, l, tone), (0, 0), "after the last slot");
        }
    }
}

#[test]
fn slots_past_32_bits() {
    let words = "n=2147483647 spacing=1 field=12";
    assert_eq!(plan_value(words, "first"), 4_294_967_330);
    let answers = ask(&format!(
        "backward ack {words} slot=4294967331 l=5\nbackward ack slot=35\n"
    ));
    assert_eq!(answers[0], "no=0 ours=1 symbol=6 p=6 kind=0");
    assert_eq!(answers[1], "no=0 ours=0 symbol=0 p=0 kind=0");
}

#[test]
fn numbers_9_10_and_14() {
    let refused = |no: u64| format!("no={no} first=0 last=0 copies=0 places=0 size=0 order=0");
    assert_eq!(plan_value("n=1073741824", "no"), 0, "another grant's limit");
    assert_eq!(plan_value("n=2147483647", "no"), 0);
    assert_eq!(ask("plan ack n=2147483648 field=16")[0], refused(9));
    for word in ["field=16", "spacing=2", "copies=8"] {
        assert_eq!(ask(&format!("plan ack {word}"))[0], refused(10));
        let far = "p=18446744073709551615";
        let answer = &ask(&format!("forward ack {word} {far}"))[0];
        assert_eq!(answer, "no=10 slot=0 l=0 k=0 symbol=0");
    }
    for place in ["l=7", "k=48", "spacing=1 k=12"] {
        let answer = &ask(&format!("backward ack {place}"))[0];
        assert_eq!(answer, "no=14 ours=0 symbol=0 p=0 kind=0");
    }
    let idle = "mode=9 subcarrier=99 units=99 delay=99 mcs=99";
    assert_eq!(plan_value(idle, "no"), 0, "another grant's values");
}

#[test]
fn steps_to_the_end_and_past_it() {
    let answers = ask("step ack n=100 spacing=1 p=15\nstep ack\nstep ack p=17\nstep ack field=16");
    assert_eq!(
        answers,
        [
            "no=0 finished=0 slot=229 l=6 k=0 symbol=15 p=16",
            "no=0 finished=1 slot=0 l=0 k=0 symbol=0 p=16",
            "no=14 finished=0 slot=0 l=0 k=0 symbol=0 p=17",
            "no=10 finished=0 slot=0 l=0 k=0 symbol=0 p=17",
        ]
    );
}
