//! No element is both a narrowband and a cell reference (02, "L8"): kinds are
//! 0, 1 and 2, and one element answers 0, 1, 2 or 4.

use crate::common::{ask, value};
use reference::generator::every_count::cells_to_count;
use reference::model::elements::{all_elements, Element};
use reference::model::elements::{cell_reference, narrowband_reference, reference_kind};
use std::collections::BTreeSet;

/// Over every layout with listed numbers, accepted or not.
#[test]
fn no_element_is_both_references() {
    let (mut narrowband, mut cell_wide) = (BTreeSet::new(), BTreeSet::new());
    for cell in cells_to_count() {
        let layout = cell.layout();
        for e in all_elements() {
            let of_ours = narrowband_reference(&layout, e);
            let of_cell = cell_reference(&layout, e);
            assert!(!(of_ours && of_cell), "{e:?} of {cell:?}");
            let kind = u64::from(of_ours) + 2 * u64::from(of_cell);
            assert_eq!(reference_kind(&layout, e), kind);
            narrowband.extend(of_ours.then_some(e.l));
            cell_wide.extend(of_cell.then_some(e.l));
        }
    }
    assert_eq!(narrowband, BTreeSet::from([5, 6]));
    assert_eq!(cell_wide, BTreeSet::from([0, 1, 4]));
}

/// The values that a name has when every element of a sent subframe is asked for.
fn values_of_all_elements(question: &str, name: &str) -> BTreeSet<u64> {
    let data = "a5".repeat(30);
    let cell = "mode=1 identity=4 nports=1 cports=4 control=2";
    let mut lines = format!("set {cell} rmax=1 r=1 level=3f800000 data={data}\n");
    for Element { slot, l, k } in all_elements() {
        lines.push_str(&format!("{question} t=6 slot={slot} l={l} k={k}\n"));
    }
    let answers = ask(&lines);
    assert!(answers.iter().all(|a| value(a, "no") == 0), "{answers:?}");
    answers.iter().map(|a| value(a, name)).collect()
}

#[test]
fn kinds_and_cases_answered() {
    assert_eq!(
        values_of_all_elements("backward down", "kind"),
        BTreeSet::from([0, 1, 2])
    );
    let control = values_of_all_elements("backward control n=6", "kind");
    assert_eq!(control, BTreeSet::from([0, 1, 2]));
    assert_eq!(
        values_of_all_elements("element", "case"),
        BTreeSet::from([0, 1, 2, 4])
    );
}
