//! Resource elements of a downlink subframe (01, "Downlink elements").

/// Subcarriers of the downlink grid.
pub const SUBCARRIERS: u64 = 12;
/// Symbols in a slot, in the downlink and in the uplink.
pub const SYMBOLS: u64 = 7;
/// Slots in a downlink subframe.
pub const SLOTS: u64 = 2;

/// A resource element. In the uplink the slot is 0: there the transmitted
/// unit is the slot itself.
#[derive(Clone, Copy, Debug, Default, PartialEq, Eq, Hash)]
pub struct Element {
    pub slot: u64,
    pub l: u64,
    pub k: u64,
}

impl Element {
    /// Inside the downlink grid.
    pub fn in_downlink_grid(&self) -> bool {
        self.slot < SLOTS && self.l < SYMBOLS && self.k < SUBCARRIERS
    }
}

/// Where references and the control region stand in a subframe: a cell's own
/// numbers, or those that a broadcast channel takes in their place.
#[derive(Clone, Copy, Debug, Default, PartialEq, Eq)]
pub struct Layout {
    /// Identity mod 6.
    pub v: u64,
    pub nports: u64,
    /// 0 out of band.
    pub cports: u64,
    /// 0 out of band.
    pub control: u64,
}

/// The two classes of k mod 6 that references take: v and (v + 3) mod 6.
fn reference_classes(layout: &Layout) -> (u64, u64) {
    (layout.v, (layout.v + 3) % 6)
}

/// Narrowband reference (NRS) of ports 2000 and 2001, each slot.
pub fn narrowband_reference(layout: &Layout, e: Element) -> bool {
    let (v, w) = reference_classes(layout);
    let class = e.k % 6;
    let port_2000 = (e.l == 5 && class == v) || (e.l == 6 && class == w);
    let port_2001 = (e.l == 5 && class == w) || (e.l == 6 && class == v);
    port_2000 || (layout.nports == 2 && port_2001)
}

/// Cell reference (CRS) of ports 0 to 3, in-band, each slot.
pub fn cell_reference(layout: &Layout, e: Element) -> bool {
    let (v, w) = reference_classes(layout);
    let class = e.k % 6;
    let port_0 = (e.l == 0 && class == v) || (e.l == 4 && class == w);
    let port_1 = (e.l == 0 && class == w) || (e.l == 4 && class == v);
    let ports_2_and_3 = e.l == 1 && (class == v || class == w);
    match layout.cports {
        0 => false,
        1 => port_0,
        2 => port_0 || port_1,
        _ => port_0 || port_1 || ports_2_and_3,
    }
}

/// First slot, l below the control region.
pub fn in_control_region(layout: &Layout, e: Element) -> bool {
    e.slot == 0 && e.l < layout.control
}

/// The kind of a place not ours in a sent subframe: 0 plain, 1 NRS, 2 CRS. No
/// element is both: they stand in other symbols (02, "L8").
pub fn reference_kind(layout: &Layout, e: Element) -> u64 {
    if narrowband_reference(layout, e) {
        1
    } else if cell_reference(layout, e) {
        2
    } else {
        0
    }
}

/// May this element carry data?
pub fn is_eligible(layout: &Layout, e: Element) -> bool {
    let reference = narrowband_reference(layout, e) || cell_reference(layout, e);
    !reference && !in_control_region(layout, e)
}

/// All eligible elements of a subframe, by slot, then l, then k.
pub fn eligible_elements(layout: &Layout) -> Vec<Element> {
    let mut list = all_elements();
    list.retain(|&e| is_eligible(layout, e));
    list
}

/// All elements of a subframe, by slot, then l, then k.
pub fn all_elements() -> Vec<Element> {
    let mut list = Vec::new();
    for slot in 0..SLOTS {
        for l in 0..SYMBOLS {
            list.extend((0..SUBCARRIERS).map(|k| Element { slot, l, k }));
        }
    }
    list
}

/// E: the eligible elements, counted one by one.
pub fn eligible_count(layout: &Layout) -> u64 {
    eligible_elements(layout).len() as u64
}
