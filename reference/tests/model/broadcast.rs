//! NPBCH and SIB1 (02, "L9").

use crate::common::{ask, value};
use reference::generator::every_broadcast_place::cells_of_schedule;
use reference::model::broadcast::{Broadcast, Channel};
use reference::model::cell::{Cause, Cell};
use reference::model::elements::{all_elements, eligible_count, Element};
use std::collections::HashMap;

/// P7's cell: a standalone anchor, identity 0, schedule 0, no bitmap, one port.
const P7: &str = "set mode=3 nports=1\n";

fn answer(cell: &str, question: &str) -> String {
    ask(&format!("{cell}{question}")).remove(0)
}

fn broadcast(channel: Channel, cell: &Cell) -> Broadcast {
    let accepted = cell.accept().expect("accepted");
    Broadcast::of(channel, &accepted).expect("on the anchor")
}

/// One schedule for each number of copies, two ports and v in each mode.
fn some_cells() -> Vec<Cell> {
    let mut list: Vec<Cell> = [0, 4, 11].into_iter().flat_map(cells_of_schedule).collect();
    list.retain(|cell| matches!(cell.identity, 0 | 1 | 5 | 7 | 10));
    list
}

#[test]
fn npbch_of_a_standalone_cell() {
    let forward = |p: u64| answer(P7, &format!("forward npbch p={p}"));
    assert_eq!(forward(0), "no=0 t=0 slot=0 l=3 k=0 symbol=0");
    assert_eq!(forward(99), "no=0 t=0 slot=1 l=6 k=11 symbol=99");
    assert_eq!(forward(100), "no=0 t=10 slot=0 l=3 k=0 symbol=0");
    assert_eq!(forward(799), "no=0 t=70 slot=1 l=6 k=11 symbol=99");
    assert_eq!(forward(800), "no=0 t=80 slot=0 l=3 k=0 symbol=100");
    assert_eq!(forward(6399), "no=0 t=630 slot=1 l=6 k=11 symbol=799");
    assert_eq!(forward(6400), "no=14 t=0 slot=0 l=0 k=0 symbol=0");
    assert_eq!(forward(u64::MAX), "no=14 t=0 slot=0 l=0 k=0 symbol=0");
}

/// Kinds as if in-band, and only in subframe 0; any t, modulo 640.
#[test]
fn npbch_backward() {
    let backward = |place: &str| answer(P7, &format!("backward npbch {place}"));
    let first = "no=0 ours=1 symbol=0 p=0 kind=0";
    let not_ours = |kind: u64| format!("no=0 ours=0 symbol=0 p=0 kind={kind}");
    assert_eq!(backward("t=0 slot=0 l=3 k=0"), first);
    assert_eq!(backward("t=640 slot=0 l=3 k=0"), first);
    assert_eq!(
        backward("t=18446744073709551600 slot=0 l=3 k=1"),
        "no=0 ours=1 symbol=301 p=2401 kind=0"
    );
    assert_eq!(backward("t=0 slot=0 l=0 k=0"), not_ours(2), "standalone");
    assert_eq!(backward("t=0 slot=0 l=0 k=1"), not_ours(0));
    assert_eq!(backward("t=0 slot=1 l=5 k=3"), not_ours(1), "port 2001");
    assert_eq!(backward("t=5 slot=0 l=0 k=0"), not_ours(0), "NPSS");
    assert_eq!(
        backward("t=18446744073709551615 slot=0 l=3 k=0"),
        not_ours(0)
    );
}

#[test]
fn sib1_of_a_standalone_cell() {
    let forward = |p: u64| answer(P7, &format!("forward sib1 p={p}"));
    assert_eq!(forward(0), "no=0 t=4 slot=0 l=0 k=0 symbol=0");
    assert_eq!(forward(160), "no=0 t=24 slot=0 l=0 k=0 symbol=160");
    assert_eq!(forward(1279), "no=0 t=144 slot=1 l=6 k=11 symbol=1279");
    assert_eq!(forward(1280), "no=0 t=644 slot=0 l=0 k=0 symbol=0");
    assert_eq!(forward(5119), "no=0 t=2064 slot=1 l=6 k=11 symbol=1279");
    assert_eq!(forward(5120), "no=14 t=0 slot=0 l=0 k=0 symbol=0");
    let backward = |place: &str| answer(P7, &format!("backward sib1 {place}"));
    let ours = "no=0 ours=1 symbol=161 p=161 kind=0";
    assert_eq!(backward("t=24 slot=0 l=0 k=1"), ours);
    assert_eq!(backward("t=2584 slot=0 l=0 k=1"), ours);
    assert_eq!(
        backward("t=14 slot=0 l=0 k=1"),
        "no=0 ours=0 symbol=0 p=0 kind=0"
    );
    assert_eq!(
        backward("t=24 slot=0 l=5 k=6"),
        "no=0 ours=0 symbol=0 p=0 kind=1"
    );
    assert_eq!(
        backward("t=34 slot=0 l=5 k=6"),
        "no=0 ours=0 symbol=0 p=0 kind=0"
    );
}

/// Table 16.4.1.3-4: the starting frame by copies and identity; the copies are
/// 64, 32 or 16 frames apart.
#[test]
fn sib1_frames() {
    let starts = |schedule: u64, identity: u64| -> Vec<u64> {
        let cell = format!("{P7}set sib1={schedule} identity={identity}\n");
        let copies = [4, 8, 16][schedule as usize % 3];
        let first_of = |copy: u64| answer(&cell, &format!("forward sib1 p={}", copy * 1280));
        assert_eq!(value(&first_of(copies), "no"), 14);
        (0..copies)
            .map(|copy| value(&first_of(copy), "t"))
            .collect()
    };
    let apart = |first: u64, by: u64, copies: u64| -> Vec<u64> {
        (0..copies).map(|c| 10 * (first + by * c) + 4).collect()
    };
    for (identity, first) in [(0, 0), (1, 16), (2, 32), (3, 48), (503, 48)] {
        assert_eq!(starts(0, identity), apart(first, 64, 4));
        assert_eq!(starts(9, identity), apart(first, 64, 4));
    }
    for (identity, first) in [(0, 0), (1, 16), (2, 0), (3, 16), (503, 16)] {
        assert_eq!(starts(7, identity), apart(first, 32, 8));
    }
    for (identity, first) in [(0, 0), (1, 1), (2, 0), (3, 1), (503, 1)] {
        assert_eq!(starts(5, identity), apart(first, 16, 16));
    }
}

/// The channels stand in the subframes that have their causes, and in no other.
#[test]
fn subframes_by_their_causes() {
    for schedule in 0..12 {
        for cell in cells_of_schedule(schedule) {
            for (channel, cause) in [(Channel::Npbch, Cause::Npbch), (Channel::Sib1, Cause::Sib1)] {
                let whole = 0..channel.period();
                let caused = whole.filter(|&t| cell.anchor_cause(t) == Some(cause));
                let sent = broadcast(channel, &cell).listing.sent;
                assert_eq!(sent, caused.collect::<Vec<u64>>(), "{cell:?}");
            }
        }
    }
}

/// Each symbol at exactly 8, or C, places; each subframe carries its part: in
/// blocks of eight frames, or in sequence.
#[test]
fn each_symbol_in_each_copy() {
    for cell in some_cells() {
        let copies = [4, 8, 16][(cell.sib1 % 3) as usize];
        for (channel, times) in [(Channel::Npbch, 8), (Channel::Sib1, copies)] {
            let broadcast = broadcast(channel, &cell);
            let listing = &broadcast.listing;
            assert_eq!(listing.copies, times);
            let mut found = vec![0; listing.codeword_symbols() as usize];
            for p in 0..listing.place_count() {
                let place = broadcast.forward(p).expect("inside");
                let i = p / listing.elements_per_unit();
                let part = match channel {
                    Channel::Npbch => i / 8,
                    Channel::Sib1 => i % 8,
                };
                assert_eq!(
                    place.symbol,
                    part * listing.elements_per_unit() + p % listing.elements_per_unit()
                );
                found[place.symbol as usize] += 1;
            }
            assert!(found.iter().all(|&count| count == times));
            assert_eq!(broadcast.forward(listing.place_count()), Err(14));
        }
    }
}

/// Ours exactly at forward's places, with its symbol and p, in any period.
#[test]
fn backward_undoes_forward() {
    let far = |period: u64| (u64::MAX / period - 1) * period;
    for cell in some_cells().iter().step_by(7) {
        for channel in Channel::ALL {
            let broadcast = broadcast(channel, cell);
            let mut places = HashMap::new();
            for p in 0..broadcast.listing.place_count() {
                let place = broadcast.forward(p).expect("inside");
                let before = places.insert((place.unit, place.element), (place.symbol, p));
                assert_eq!(before, None, "two positions at one place");
            }
            for t in 0..channel.period() {
                let sent = broadcast.listing.sent.contains(&t);
                for e in all_elements() {
                    let found = broadcast.backward(t, e).expect("in the grid");
                    let place = places.get(&(t, e)).copied();
                    assert_eq!(found.ours, place.is_some());
                    assert_eq!((found.symbol, found.p), place.unwrap_or((0, 0)));
                    assert!(found.kind == 0 || (sent && !found.ours));
                    assert_eq!(found.cause, None);
                    let later = broadcast.backward(far(channel.period()) + t, e);
                    assert_eq!(later, Ok(found));
                }
            }
        }
    }
}

/// NPBCH asks the cell for its identity mod 6 alone.
#[test]
fn npbch_whatever_the_cell() {
    let mut lines = String::new();
    for Element { slot, l, k } in all_elements() {
        lines.push_str(&format!("backward npbch t=90 slot={slot} l={l} k={k}\n"));
    }
    let of = |cell: &str| ask(&format!("set {cell}\n{lines}"));
    let expected = of("mode=1 identity=10 nports=2 cports=4 control=3");
    let ours = expected.iter().filter(|a| value(a, "ours") == 1).count();
    assert_eq!(ours, 100);
    for cell in [
        "mode=0 identity=4 nports=1 cports=1 control=1",
        "mode=1 identity=16 nports=1 cports=2 control=2",
        "mode=2 identity=502 nports=2",
        "mode=3 identity=4 nports=1 sib1=11",
        "mode=3 identity=4 nports=1 bits=10 anchor=4000 messages=1 m1=4096,16,2",
    ] {
        assert_eq!(of(cell), expected, "{cell}");
    }
    assert_ne!(of("mode=3 identity=5 nports=1"), expected);
}

/// The cell's ports; control region 3 in-band, whatever the cell's own.
#[test]
fn sib1_layouts() {
    for (cell, own, symbols) in [
        ("mode=1 nports=2 cports=2 control=1", 128, 832),
        ("mode=1 nports=2 cports=4 control=2", 112, 800),
        ("mode=0 nports=1 cports=1 control=3", 118, 944),
        ("mode=2 nports=2", 152, 1216),
        ("mode=3 nports=1", 160, 1280),
    ] {
        let cell = format!("set {cell}\n");
        assert_eq!(value(&answer(&cell, "count"), "e"), own);
        let forward = |p: u64| answer(&cell, &format!("forward sib1 p={p}"));
        assert_eq!(value(&forward(symbols - 1), "symbol"), symbols - 1);
        assert_eq!(value(&forward(symbols), "symbol"), 0);
        assert_eq!(value(&forward(4 * symbols), "no"), 14);
    }
    for schedule in 0..12 {
        for cell in cells_of_schedule(schedule) {
            let npbch = Channel::Npbch.layout(&cell);
            assert_eq!(eligible_count(&npbch), 100);
        }
    }
}

/// The cell's numbers, 8 and 18 too, then 25, then 14.
#[test]
fn refusals_in_order() {
    let questions = [
        "forward npbch p=9999999",
        "forward sib1 p=9999999",
        "backward npbch slot=2",
        "backward sib1 k=12",
        "picture npbch i=64",
        "picture sib1 i=128",
    ];
    let all =
        "carrier=1 mode=0 identity=504 nports=3 cports=3 control=0 sib1=12 bits=11 siwindow=161";
    let cured = [
        ("", 2),
        ("identity=5", 3),
        ("nports=1", 4),
        ("cports=2", 5),
        ("control=1", 24),
        ("cports=1", 6),
        ("sib1=11", 7),
        ("bits=10 other=0000 anchor=8400", 21),
        ("siwindow=160", 8),
        ("carrier=0", 18),
        ("carrier=1 other=8400", 25),
        ("carrier=0 bits=0", 14),
    ];
    for question in questions {
        let mut lines = format!("set {all}\n");
        for (words, expected) in cured {
            lines.push_str(&format!("{question} {words}\n").replace(" \n", "\n"));
            let last = ask(&lines).pop().expect("answered");
            assert_eq!(value(&last, "no"), expected, "{question} {words}");
        }
    }
    assert_eq!(value(&answer(P7, "forward npbch mode=4 p=0"), "no"), 1);
    let refused = answer(P7, "backward sib1 carrier=1 t=4");
    assert_eq!(refused, "no=25 ours=0 symbol=0 p=0 kind=0");
    for question in ["cell", "count", "cause", "plan down rmax=1"] {
        assert_eq!(
            value(&answer(P7, &format!("{question} carrier=1")), "no"),
            0
        );
    }
}

/// Slot, l and k are judged whatever the subframe.
#[test]
fn outside_the_grid() {
    for channel in ["npbch", "sib1"] {
        for t in ["0", "1", "18446744073709551615"] {
            for place in ["slot=2", "l=7", "k=12", "slot=18446744073709551615"] {
                let line = format!("backward {channel} t={t} {place}");
                assert_eq!(value(&answer(P7, &line), "no"), 14);
            }
            let line = format!("backward {channel} t={t} slot=1 l=6 k=11");
            assert_eq!(value(&answer(P7, &line), "no"), 0);
        }
    }
}

#[test]
fn pictures() {
    let lines = ask(&format!("{P7}set identity=1\npicture npbch i=63"));
    assert_eq!(lines.len(), 17, "no line on what is skipped");
    assert_eq!(lines[0], "no=0");
    let title =
        "subframe 630: frame 63, subframe 0 of it, i=63 of 64 transmitted, codeword subframe 7";
    assert_eq!(lines[1], title);
    assert_eq!(lines[5], "k 11 ###oooo ooooooo", "no reference");
    assert_eq!(lines[6], "k 10 CC#oCNN CCooCNN", "v + 3 = 4");
    assert_eq!(ask(&format!("{P7}picture npbch i=64")), ["no=14"]);
    let in_band = "set mode=1 identity=1 nports=1 cports=2 control=1\n";
    let lines = ask(&format!("{in_band}picture sib1 i=31\npicture sib1 i=32"));
    let title =
        "subframe 2224: frame 222, subframe 4 of it, i=31 of 32 transmitted, codeword subframe 7";
    assert_eq!(lines[1], title);
    assert_eq!(lines[6], "k 10 C##oCoN CoooCoN");
    assert_eq!(lines[16], "k  0 ###oooo ooooooo", "control region 3");
    assert_eq!(lines[17], "no=14");
}
