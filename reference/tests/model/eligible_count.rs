//! E (02, "L3") over every combination of mode, ports, control region and
//! identity mod 6 with listed numbers; mode 0 has equal ports (02, "L7").

use crate::common::{ask, ask_bytes, value};
use reference::generator::every_count::{cells_to_count, write_every_count};
use reference::model::cell::Cell;
use reference::model::elements::{eligible_count, eligible_elements};
use std::collections::BTreeSet;

/// What ports and control region leave of 168, worked out by hand: whole
/// symbols of the control region, then the references outside it. The first
/// slot's l = 1 keeps those of ports 2 and 3 when the control region is 1.
fn by_hand(cell: &Cell) -> u64 {
    let narrowband = 8 * cell.nports;
    let ports_0_and_1 = 6 * cell.cports.min(2);
    let ports_2_and_3 = match (cell.cports, cell.control) {
        (4, 1) => 8,
        (4, _) => 4,
        _ => 0,
    };
    168 - 12 * cell.control - narrowband - ports_0_and_1 - ports_2_and_3
}

/// (mode, narrowband ports, cell ports, control region, identity mod 6)
fn combination(cell: &Cell) -> [u64; 5] {
    let v = cell.identity % 6;
    [cell.mode, cell.nports, cell.cports, cell.control, v]
}

/// Mode 0 with other cell ports than narrowband ports.
fn unequal(cell: &Cell) -> bool {
    cell.mode == 0 && cell.nports != cell.cports
}

/// Nothing else is accepted: not unequal ports, not a number beside the list.
#[test]
fn every_accepted_combination_is_listed() {
    let all: BTreeSet<_> = cells_to_count().iter().map(combination).collect();
    assert_eq!(all.len(), 240);
    let mut listed = cells_to_count();
    listed.retain(|cell| !unequal(cell));
    let listed: BTreeSet<_> = listed.iter().map(combination).collect();
    let mut accepted = BTreeSet::new();
    for mode in 0..5 {
        for nports in 0..4 {
            for cports in 0..6 {
                for control in 0..5 {
                    for identity in 0..6 {
                        let cell = Cell {
                            mode,
                            identity,
                            nports,
                            cports,
                            control,
                            ..Cell::default()
                        };
                        if cell.accept().is_ok() {
                            accepted.insert(combination(&cell));
                        }
                    }
                }
            }
        }
    }
    assert_eq!(listed.len(), 168);
    assert_eq!(listed, accepted);
}

#[test]
fn counted_as_by_hand() {
    let mut file = Vec::new();
    write_every_count(&mut file).expect("memory takes all");
    let answers = ask_bytes(&file);
    assert_eq!(answers.len(), 480);
    for (cell, answer) in cells_to_count().iter().zip(&answers) {
        let expected = match unequal(cell) {
            true => "no=24 e=0".to_string(),
            false => format!("no=0 e={}", by_hand(cell)),
        };
        assert_eq!(*answer, expected, "{cell:?}");
    }
    let accepted = answers.iter().filter(|a| value(a, "no") == 0);
    let values: BTreeSet<u64> = accepted.map(|a| value(a, "e")).collect();
    let expected = [
        100, 104, 108, 110, 112, 116, 118, 120, 122, 124, 128, 130, 134, 136, 142, 152, 160,
    ];
    assert_eq!(values, BTreeSet::from(expected));
}

#[test]
fn half_of_it_in_each_ncce() {
    for cell in cells_to_count() {
        let low = eligible_elements(&cell.layout())
            .iter()
            .filter(|e| e.k < 6)
            .count() as u64;
        assert_eq!(2 * low, eligible_count(&cell.layout()));
    }
}

#[test]
fn refused_as_the_cell() {
    let cell = "set mode=3 nports=1\n";
    let no = |words: &str| ask(&format!("{cell}count {words}")).remove(0);
    assert_eq!(
        no("t=18446744073709551615 n=18446744073709551615"),
        "no=0 e=160"
    );
    assert_eq!(no("nports=3"), "no=3 e=0");
    assert_eq!(no("bits=10 anchor=0000"), "no=8 e=0");
    assert_eq!(no("bits=10 anchor=8400"), "no=18 e=0");
}
