//! The cases P1 to P11 of 01, each from its printed fields; P10 and P11 with L2's number 18, P1's four cell ports in
//! mode 1 since L7.

use crate::common::{ask, value};

/// E of a cell: the places of one subframe sent once.
fn eligible(cell: &str, identity: u64) -> u64 {
    let line = format!("plan down rmax=1 identity={identity} {cell}");
    value(&ask(&line)[0], "places")
}

#[test]
fn p1_eligible_elements() {
    for v in 0..12 {
        assert_eq!(eligible("mode=3 nports=1", v), 160);
        assert_eq!(eligible("mode=3 nports=2", v), 152);
        assert_eq!(eligible("mode=1 control=3 nports=2 cports=4", v), 100);
        for mode in 0..2 {
            let in_band = format!("mode={mode} control=3");
            assert_eq!(eligible(&format!("{in_band} nports=2 cports=2"), v), 104);
            assert_eq!(eligible(&format!("{in_band} nports=1 cports=1"), v), 118);
        }
    }
}

#[test]
fn p2_twelve_tones() {
    let set = "set n=100 spacing=1 subcarrier=18 units=0 copies=3 delay=0 mcs=0\n";
    let plan = &ask(&format!("{set}plan up"))[0];
    assert_eq!(
        plan,
        "no=0 first=218 last=233 copies=8 places=1152 size=16 order=2"
    );
    let mut questions = set.to_string();
    for p in 0..1152 {
        questions.push_str(&format!("forward up p={p}\n"));
    }
    let symbols = ask(&questions).iter().map(|a| value(a, "symbol")).max();
    assert_eq!(symbols, Some(143), "144 symbols, numbered from 0");
}

#[test]
fn p3_start_at_3_75_khz() {
    for n in [100, 101] {
        let set = format!("set n={n} spacing=0 subcarrier=47 units=0 copies=0 delay=0\n");
        let answers = ask(&format!("{set}plan up\nforward up p=0"));
        assert_eq!(
            answers[0],
            "no=0 first=55 last=70 copies=1 places=96 size=16 order=1"
        );
        assert_eq!(answers[1], "no=0 slot=55 l=0 k=47 symbol=0");
    }
}

#[test]
fn p4_reserved_subcarrier_fields() {
    let refused = "no=11 first=0 last=0 copies=0 places=0 size=0 order=0";
    assert_eq!(ask("plan up spacing=0 subcarrier=48")[0], refused);
    assert_eq!(ask("plan up spacing=1 subcarrier=19")[0], refused);
    assert_eq!(value(&ask("plan up spacing=0 subcarrier=47")[0], "no"), 0);
    assert_eq!(value(&ask("plan up spacing=1 subcarrier=18")[0], "no"), 0);
}

#[test]
fn p5_copy_order_of_three_tones() {
    let width = 18; // three tones, six data symbols
    let mut questions = "set spacing=1 subcarrier=12 units=0 copies=2\n".to_string();
    for i in 0..32 {
        questions.push_str(&format!("forward up p={}\n", i * width));
    }
    questions.push_str("forward up p=576\n");
    let answers = ask(&questions);
    let once = [0, 1, 0, 1, 2, 3, 2, 3, 4, 5, 4, 5, 6, 7, 6, 7];
    let slots: Vec<u64> = answers[..32]
        .iter()
        .map(|a| value(a, "symbol") / width)
        .collect();
    assert_eq!(slots, [once, once].concat());
    assert_eq!(value(&answers[32], "no"), 14);
}

#[test]
fn p6_gaps_of_the_uplink() {
    for (copies, after) in [(3, 127), (4, 275)] {
        let plan = &ask(&format!("plan up spacing=0 units=0 copies={copies} n=77"))[0];
        assert_eq!(value(plan, "last"), value(plan, "first") + after);
    }
}

/// Standalone anchor, identity 0, schedule 0, no bitmap, n = 15, 8 subframes, 1 copy.
const P7: &str =
    "set mode=3 carrier=0 identity=0 nports=1 sib1=0 bits=0 n=15 subframes=6 copies=0\n";

#[test]
fn p7_usable_subframes() {
    let mut questions = format!("{P7}set delay=0 rmax=1\n");
    for i in 0..8 {
        questions.push_str(&format!("forward down p={}\n", i * 160));
    }
    let sent: Vec<u64> = ask(&questions).iter().map(|a| value(a, "t")).collect();
    assert_eq!(sent, [21, 22, 23, 26, 27, 28, 31, 32]);
}

#[test]
fn p8_delay_in_usable_subframes() {
    let answers = ask(&format!(
        "{P7}set delay=1\nplan down rmax=64\nplan down rmax=128"
    ));
    assert_eq!(value(&answers[0], "first"), 27);
    assert_eq!(value(&answers[1], "first"), 43);
}

#[test]
fn p9_positions_beside_references() {
    let answers = ask(&format!(
        "{P7}set rmax=1 nports=1\nforward down p=60\nforward down p=73"
    ));
    assert_eq!(answers[0], "no=0 t=21 slot=0 l=5 k=1 symbol=60");
    assert_eq!(answers[1], "no=0 t=21 slot=0 l=6 k=4 symbol=73");
}

#[test]
fn p10_nothing_usable() {
    let answers = ask("set mode=3 nports=1 bits=10 anchor=8400 other=8400
cell carrier=0
bitmap carrier=0
cell carrier=1
bitmap carrier=1");
    assert_eq!(answers, ["no=18", "no=18 part=-", "no=0", "no=0 part=8400"]);
}

#[test]
fn p11_bitmap_against_sib1() {
    let answers = ask(
        "set mode=3 carrier=0 identity=0 nports=1 bits=40 anchor=0800000000
cell sib1=2
cell sib1=1",
    );
    assert_eq!(answers, ["no=18", "no=0"]);
}
