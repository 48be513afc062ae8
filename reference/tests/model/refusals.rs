//! Numbers 1 to 21 and 24 (22 and 23 are in search_space.rs, 25 in broadcast.rs),
//! and the bounds of the fields.

use crate::common::{ask, value};

const CELL: &str = "set mode=3 nports=1 rmax=1 r=1\n";

/// The number of a question in a standalone cell.
fn no(question: &str) -> u64 {
    value(&ask(&format!("{CELL}{question}"))[0], "no")
}

#[test]
fn cell_numbers() {
    assert_eq!(no("cell"), 0);
    assert_eq!(no("cell mode=4"), 1);
    assert_eq!(no("cell carrier=2"), 1);
    assert_eq!(no("cell identity=503"), 0);
    assert_eq!(no("cell identity=504"), 2);
    assert_eq!(no("cell nports=0"), 3);
    assert_eq!(no("cell nports=3"), 3);
    assert_eq!(no("cell cports=1"), 4);
    assert_eq!(no("cell mode=0 cports=3 control=1"), 4);
    assert_eq!(no("cell mode=0 cports=1 control=1"), 0);
    assert_eq!(no("cell mode=0 cports=4 control=0"), 5);
    assert_eq!(no("cell control=1"), 5);
    assert_eq!(no("cell sib1=11"), 0);
    assert_eq!(no("cell sib1=12 carrier=1"), 6);
    assert_eq!(no("cell bits=11"), 7);
    assert_eq!(no("cell bits=10 anchor=ff other=ffc0"), 7);
    assert_eq!(no("cell bits=10 anchor=ffc1"), 7);
    assert_eq!(no("cell bits=10 anchor=ffc0ff"), 0);
    assert_eq!(no("cell bits=40 anchor=ffffffff"), 7);
    assert_eq!(no("cell bits=40 anchor=0000000000ff"), 8);
    assert_eq!(no("cell bits=40 anchor=8000000000"), 18);
    assert_eq!(no("cell siwindow=161"), 21);
}

/// 24 stands after 5 and before 6 (02, "L7"): in mode 0 the ports are equal.
#[test]
fn ports_of_the_same_identity() {
    let port = |mode: u64, nports: u64, cports: u64, more: &str| {
        no(&format!(
            "cell mode={mode} nports={nports} cports={cports} control=3 {more}"
        ))
    };
    for carrier in ["carrier=0", "carrier=1"] {
        for (nports, cports) in [(1, 1), (2, 2), (1, 2), (1, 4), (2, 1), (2, 4)] {
            let expected = if nports == cports { 0 } else { 24 };
            assert_eq!(port(0, nports, cports, carrier), expected);
            assert_eq!(port(1, nports, cports, carrier), 0);
        }
    }
    assert_eq!(port(0, 2, 4, "control=4"), 5);
    assert_eq!(port(0, 2, 3, "sib1=12"), 4);
    assert_eq!(port(0, 3, 4, "identity=503"), 3);
    assert_eq!(port(0, 2, 1, "sib1=12"), 24);
    assert_eq!(port(0, 2, 2, "sib1=12"), 6);
    assert_eq!(port(0, 1, 2, "bits=11"), 24);
    assert_eq!(port(0, 1, 2, "siwindow=161 bits=10 anchor=0000"), 24);
}

/// 24 refuses all that is asked of the cell, before any number of the grant.
#[test]
fn unequal_ports_refuse_every_question() {
    let cell = "set mode=0 nports=1 cports=2 control=1 n=18446744073709551615\n";
    for question in [
        "cell",
        "bitmap",
        "cause",
        "count",
        "search",
        "fill room=0",
        "element",
    ] {
        assert_eq!(no(&format!("{cell}{question}")), 24);
    }
    for question in ["plan", "forward", "backward", "step", "picture"] {
        for kind in ["down", "control"] {
            assert_eq!(no(&format!("{cell}{question} {kind}")), 24);
        }
    }
    assert_eq!(no(&format!("{cell}plan up n=0")), 0, "no cell");
    assert_eq!(no(&format!("{cell}plan ack n=0")), 0, "no cell");
}

#[test]
fn grant_numbers() {
    for kind in ["down", "control", "up"] {
        assert_eq!(no(&format!("plan {kind} n=1073741823")), 0);
        assert_eq!(no(&format!("plan {kind} n=1073741824")), 9);
    }
    for word in ["delay=8", "subframes=8", "copies=16"] {
        assert_eq!(no(&format!("plan down {word}")), 10);
    }
    for words in ["format=2", "ncce=2", "format=1 ncce=1"] {
        assert_eq!(no(&format!("plan control {words}")), 10);
    }
    for word in [
        "spacing=2",
        "subcarrier=64",
        "units=8",
        "copies=8",
        "delay=4",
        "mcs=16",
    ] {
        assert_eq!(no(&format!("plan up {word}")), 10);
    }
    assert_eq!(no("plan up subcarrier=50 mcs=16"), 10);
    assert_eq!(no("plan up subcarrier=50 mcs=7"), 11);
    assert_eq!(no("plan up mcs=5"), 13);
    assert_eq!(no("forward up mcs=15 p=99999"), 13);
    for power in ["0", "3", "4096", "1099511627776"] {
        assert_eq!(no(&format!("plan down rmax={power}")), 12);
        assert_eq!(no(&format!("plan control r={power}")), 12);
    }
    assert_eq!(no("plan down rmax=2048 delay=7"), 0);
    assert_eq!(no("plan up mode=9 nports=9"), 0);
    assert_eq!(no("plan down n=1073741824 delay=8 bits=11"), 7);
}

/// Kinds in a sent subframe of an in-band cell, v = 0.
#[test]
fn kinds_of_places() {
    let cell_and_grant =
        "set mode=1 identity=6 nports=1 cports=2 control=2 n=11 r=1 format=0 ncce=1\n";
    let kind = |place: &str| {
        let answer = &ask(&format!("{cell_and_grant}backward control {place}"))[0];
        (value(answer, "ours"), value(answer, "kind"))
    };
    assert_eq!(kind("t=11 slot=0 l=2 k=6"), (1, 0));
    assert_eq!(kind("t=11 slot=0 l=2 k=5"), (0, 0), "the other NCCE's data");
    assert_eq!(kind("t=11 slot=0 l=0 k=0"), (0, 2), "in the control region");
    assert_eq!(kind("t=11 slot=0 l=0 k=1"), (0, 0), "control region");
    assert_eq!(kind("t=11 slot=1 l=4 k=3"), (0, 2));
    assert_eq!(kind("t=11 slot=1 l=5 k=0"), (0, 1));
    assert_eq!(kind("t=11 slot=1 l=6 k=9"), (0, 1));
    assert_eq!(kind("t=11 slot=1 l=6 k=6"), (1, 0), "port 2001 is silent");
    assert_eq!(kind("t=12 slot=1 l=5 k=0"), (0, 0), "not sent");
    let up = "set n=0 spacing=1 subcarrier=12\n";
    let kind = |place: &str| value(&ask(&format!("{up}backward up {place}"))[0], "kind");
    assert_eq!(kind("slot=18 l=3 k=2"), 1);
    assert_eq!(kind("slot=18 l=3 k=3"), 0, "a tone not granted");
    assert_eq!(kind("slot=17 l=3 k=2"), 0, "before the first slot");
}
