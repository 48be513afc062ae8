//! What holds of plan, forward, backward and the walk together, and the copy
//! order as 01 writes it.

use reference::model::accepted_cell::CellCache;
use reference::model::acknowledgement::Ack;
use reference::model::cell::Cell;
use reference::model::downlink::{self, Npdcch, Npdsch};
use reference::model::elements::Element;
use reference::model::grant::{step, Grant, Step};
use reference::model::listing::{copy_order, Listing, Place};
use reference::model::random_access_windows::{Window, Windows};
use reference::model::system_information::{Messages, Schedule};
use reference::model::uplink::{self, Npusch};
use std::collections::HashMap;

fn standalone() -> Cell {
    Cell {
        mode: 3,
        nports: 1,
        ..Cell::default()
    }
}

fn in_band() -> Cell {
    Cell {
        mode: 1,
        identity: 3,
        nports: 2,
        cports: 4,
        control: 3,
        sib1: 5,
        bits: 40,
        anchor: vec![0xF7, 0x3E, 0x9A, 0x55, 0xE1],
        ..Cell::default()
    }
}

fn non_anchor() -> Cell {
    Cell {
        mode: 0,
        carrier: 1,
        identity: 100,
        nports: 1,
        cports: 1,
        control: 1,
        bits: 10,
        other: vec![0x91, 0x40, 0xFF],
        ..Cell::default()
    }
}

/// The in-band cell with windows that meet, the first from before t = 0.
fn with_messages() -> Cell {
    let schedule = |period, every, size| Schedule {
        period,
        every,
        size,
    };
    let mut messages = Messages {
        window: 480,
        offset: 15,
        count: 3,
        ..Messages::default()
    };
    messages.entries[0] = schedule(64, 4, 8);
    messages.entries[1] = schedule(64, 2, 2);
    messages.entries[2] = schedule(128, 2, 8);
    Cell {
        messages,
        ..in_band()
    }
}

fn npdsch(delay: u64, rmax: u64, subframes: u64, copies: u64) -> Grant {
    Grant::Down(Npdsch {
        n: 333,
        delay,
        rmax,
        subframes,
        copies,
    })
}

fn npdcch(r: u64, format: u64, ncce: u64) -> Grant {
    Grant::Control(Npdcch {
        n: 40,
        r,
        format,
        ncce,
    })
}

fn npusch(spacing: u64, subcarrier: u64, units: u64, copies: u64) -> Grant {
    Grant::Up(Npusch {
        n: 7,
        spacing,
        subcarrier,
        units,
        copies,
        delay: 1,
        mcs: 4,
        windows: Windows::default(),
    })
}

/// Two windows that overlap each other and the 40 ms, one from below t = 0.
fn two_windows() -> Windows {
    let window = |period, start, length, tone| Window {
        period,
        start,
        length,
        tone,
    };
    let mut windows = Windows {
        count: 3,
        ..Windows::default()
    };
    windows.entries[0] = window(640, 512, 172_032 * 32, 0);
    windows.entries[1] = window(80, 16, 196_608 * 2, 8);
    windows.entries[2] = window(80, 32, 172_032, 36);
    windows
}

fn ack(spacing: u64, field: u64, copies: u64) -> Grant {
    Grant::Ack(Ack {
        n: 11,
        spacing,
        field,
        copies,
        windows: Windows::default(),
    })
}

/// The same grant with windows.
fn beside_windows(grant: Grant) -> Grant {
    let windows = two_windows();
    match grant {
        Grant::Up(g) => Grant::Up(Npusch { windows, ..g }),
        Grant::Ack(g) => Grant::Ack(Ack { windows, ..g }),
        _ => grant,
    }
}

fn grants() -> Vec<(Cell, Grant)> {
    let mut list = Vec::new();
    for cell in [standalone(), in_band(), non_anchor(), with_messages()] {
        list.push((cell.clone(), npdsch(0, 1, 0, 0)));
        list.push((cell.clone(), npdsch(3, 64, 2, 3)));
        list.push((cell.clone(), npdsch(1, 128, 6, 1)));
        list.push((cell.clone(), npdcch(1, 0, 0)));
        list.push((cell.clone(), npdcch(16, 0, 1)));
        list.push((cell.clone(), npdcch(8, 1, 0)));
    }
    for (spacing, subcarrier, units, copies) in [
        (0, 47, 0, 4),
        (0, 0, 2, 0),
        (1, 5, 1, 5),
        (1, 13, 0, 2),
        (1, 17, 3, 3),
        (1, 18, 2, 6),
    ] {
        let grant = npusch(spacing, subcarrier, units, copies);
        list.push((Cell::default(), grant));
        list.push((Cell::default(), beside_windows(grant)));
    }
    for (spacing, field, copies) in [(0, 0, 0), (0, 15, 7), (1, 3, 7), (1, 12, 2)] {
        let grant = ack(spacing, field, copies);
        list.push((Cell::default(), grant));
        list.push((Cell::default(), beside_windows(grant)));
    }
    list
}

fn listing(cell: &Cell, grant: &Grant) -> Listing {
    let listed = grant.list(cell, &mut CellCache::default());
    listed.expect("an accepted grant")
}

#[test]
fn places_are_copies_times_symbols() {
    for (cell, grant) in grants() {
        let listing = listing(&cell, &grant);
        let plan = grant.plan(&listing);
        assert_eq!(plan.places, plan.copies * listing.codeword_symbols());
        assert!(listing.forward(plan.places - 1).is_ok());
        assert_eq!(listing.forward(plan.places), Err(14));
        assert_eq!(listing.forward(u64::MAX), Err(14));
    }
}

#[test]
fn each_symbol_in_each_copy() {
    for (cell, grant) in grants() {
        let listing = listing(&cell, &grant);
        let mut times = vec![0; listing.codeword_symbols() as usize];
        for p in 0..listing.place_count() {
            times[listing.forward(p).expect("inside").symbol as usize] += 1;
        }
        assert!(times.iter().all(|&count| count == listing.copies));
    }
}

/// Forward's places, without two alike.
fn all_places(listing: &Listing) -> HashMap<(u64, Element), (u64, u64)> {
    let mut places = HashMap::new();
    for p in 0..listing.place_count() {
        let Place {
            unit,
            element,
            symbol,
        } = listing.forward(p).expect("inside");
        let before = places.insert((unit, element), (symbol, p));
        assert_eq!(before, None, "two positions at one place");
    }
    places
}

fn grid_of(grant: &Grant) -> Vec<Element> {
    let slots = if grant.is_uplink() { 1 } else { 2 };
    let subcarriers = grant.subcarriers();
    let mut list = Vec::new();
    for slot in 0..slots {
        for l in 0..7 {
            list.extend((0..subcarriers).map(|k| Element { slot, l, k }));
        }
    }
    list
}

#[test]
fn backward_undoes_forward() {
    for (cell, grant) in grants() {
        let listing = listing(&cell, &grant);
        let places = all_places(&listing);
        for unit in listing.first() - 3..=listing.last() + 3 {
            let sent = listing.sent.contains(&unit);
            for e in grid_of(&grant) {
                let found = grant.backward(&cell, &listing, unit, e).expect("in grid");
                let place = places.get(&(unit, e)).copied();
                assert_eq!(found.ours, place.is_some());
                assert_eq!((found.symbol, found.p), place.unwrap_or((0, 0)));
                assert!(found.kind == 0 || (sent && !found.ours));
                let between = listing.first() < unit && unit < listing.last();
                let skipped = between && !sent && !grant.is_uplink();
                let why = listing.cell.as_ref().and_then(|cell| cell.cause(unit));
                assert_eq!(found.cause, why.filter(|_| skipped));
                assert_eq!(found.cause.is_some(), skipped);
            }
        }
    }
}

#[test]
fn backward_outside_the_grid() {
    for (cell, grant) in grants() {
        let listing = listing(&cell, &grant);
        let subcarriers = grant.subcarriers();
        let slot = if grant.is_uplink() { 0 } else { 2 };
        let outside = [
            (0, 7, 0),
            (0, 0, subcarriers),
            (0, u64::MAX, 0),
            (slot, 0, 12),
        ];
        for (slot, l, k) in outside {
            let e = Element { slot, l, k };
            let at = |unit| grant.backward(&cell, &listing, unit, e);
            if !grid_of(&grant).contains(&e) {
                assert_eq!(at(listing.first()), Err(14));
                assert_eq!(at(u64::MAX), Err(14));
            }
        }
        let far = grant.backward(&cell, &listing, u64::MAX, Element::default());
        assert_eq!(far, Ok(Default::default()));
    }
}

#[test]
fn every_usable_subframe_within_the_span_is_sent() {
    for (cell, grant) in grants() {
        if grant.is_uplink() {
            continue;
        }
        let listing = listing(&cell, &grant);
        let cell = cell.accept().expect("accepted");
        for t in listing.first()..=listing.last() {
            assert_eq!(listing.sent.contains(&t), cell.usable(t));
        }
    }
}

#[test]
fn walk_goes_as_forward() {
    for (cell, grant) in grants() {
        let listing = listing(&cell, &grant);
        for p in 0..listing.place_count() {
            let place = listing.forward(p).expect("inside");
            assert_eq!(step(&listing, p), Ok(Step::At(place)));
        }
        assert_eq!(step(&listing, listing.place_count()), Ok(Step::Finished));
        assert_eq!(step(&listing, listing.place_count() + 1), Err(14));
        assert_eq!(step(&listing, u64::MAX), Err(14));
    }
}

/// Transmitted i carries g (r div gm) + (r mod g), r = i mod mN.
#[test]
fn copy_order_as_written() {
    let written = |i: u64, n: u64, m: u64, g: u64| {
        let r = i % (m * n);
        g * (r / (g * m)) + r % g
    };
    let check = |copies: u64, n: u64, m: u64, g: u64| {
        let order = copy_order(copies, n, m, g);
        assert_eq!(order.len() as u64, copies * n);
        for (i, &unit) in order.iter().enumerate() {
            assert_eq!(unit, written(i as u64, n, m, g));
        }
    };
    for units in downlink::SUBFRAMES {
        for copies in downlink::COPIES {
            check(copies, units, copies.min(4), 1);
        }
        for copies in uplink::COPIES {
            check(copies, units * 16, 1, 1);
            check(copies, units * 16, 1, 2);
            for slots in [8, 4, 2] {
                check(copies, units * slots, copies.div_ceil(2).min(4), 2);
            }
        }
    }
}

/// Uplink slots, counted: 256 ms are 128 or 512 slots, 40 ms are 20 or 80.
#[test]
fn uplink_slots_with_gaps() {
    for (spacing, block, gap) in [(0, 128, 20), (1, 512, 80)] {
        let listing = listing(&Cell::default(), &npusch(spacing, 0, 7, 7));
        assert_eq!(listing.sent.len(), 20480);
        for (i, &slot) in listing.sent.iter().enumerate() {
            let i = i as u64;
            assert_eq!(slot, listing.first() + i + gap * (i / block));
        }
    }
}
