//! The values that lines set, kept from line to line.

use super::question::Kind;
use crate::model::acknowledgement::Ack;
use crate::model::cell::Cell;
use crate::model::downlink::{Npdcch, Npdsch};
use crate::model::elements::Element;
use crate::model::grant::Grant;
use crate::model::random_access_windows::{Window, Windows};
use crate::model::search_space::SearchSpace;
use crate::model::system_information::Schedule;
use crate::model::uplink::Npusch;

/// All values, kept from line to line.
#[derive(Clone, Debug)]
pub struct Values {
    pub cell: Cell,
    pub n: u64,
    pub delay: u64,
    pub rmax: u64,
    pub g: u64,
    pub alpha: u64,
    pub subframes: u64,
    pub copies: u64,
    pub r: u64,
    pub format: u64,
    pub ncce: u64,
    pub spacing: u64,
    pub subcarrier: u64,
    pub units: u64,
    pub mcs: u64,
    pub field: u64,
    pub windows: Windows,
    pub p: u64,
    pub t: u64,
    pub slot: u64,
    pub l: u64,
    pub k: u64,
    pub i: u64,
    /// Which engine forward and step of a grant ask: 0 the quick one, 1 the
    /// plain one. Their answers are the same, and here there is one way only.
    pub engine: u64,
    pub room: u64,
    pub level: u32,
    pub data: Vec<u8>,
    /// A refusal number, asked for its meaning.
    pub no: u64,
}

impl Default for Values {
    fn default() -> Values {
        Values {
            cell: Cell::default(),
            n: 0,
            delay: 0,
            rmax: 0,
            g: 0,
            alpha: 0,
            subframes: 0,
            copies: 0,
            r: 0,
            format: 0,
            ncce: 0,
            spacing: 0,
            subcarrier: 0,
            units: 0,
            mcs: 0,
            field: 0,
            windows: Windows::default(),
            p: 0,
            t: 0,
            slot: 0,
            l: 0,
            k: 0,
            i: 0,
            engine: 0,
            room: 336,
            level: 0,
            data: Vec::new(),
            no: 0,
        }
    }
}

/// The value of a name, to be changed.
pub enum ValueMut<'a> {
    Number(&'a mut u64),
    /// With its longest length.
    Buffer(&'a mut Vec<u8>, usize),
    Level(&'a mut u32),
    Window(&'a mut Window),
    Schedule(&'a mut Schedule),
}

impl Values {
    /// The value of a name; none if no value has that name.
    pub fn value_mut(&mut self, name: &[u8]) -> Option<ValueMut<'_>> {
        Some(match name {
            b"anchor" => ValueMut::Buffer(&mut self.cell.anchor, 64),
            b"other" => ValueMut::Buffer(&mut self.cell.other, 64),
            b"data" => ValueMut::Buffer(&mut self.data, 1024),
            b"level" => ValueMut::Level(&mut self.level),
            b"w1" => ValueMut::Window(&mut self.windows.entries[0]),
            b"w2" => ValueMut::Window(&mut self.windows.entries[1]),
            b"w3" => ValueMut::Window(&mut self.windows.entries[2]),
            b"w4" => ValueMut::Window(&mut self.windows.entries[3]),
            b"m1" => ValueMut::Schedule(&mut self.cell.messages.entries[0]),
            b"m2" => ValueMut::Schedule(&mut self.cell.messages.entries[1]),
            b"m3" => ValueMut::Schedule(&mut self.cell.messages.entries[2]),
            b"m4" => ValueMut::Schedule(&mut self.cell.messages.entries[3]),
            _ => ValueMut::Number(self.number_mut(name)?),
        })
    }

    fn number_mut(&mut self, name: &[u8]) -> Option<&mut u64> {
        Some(match name {
            b"mode" => &mut self.cell.mode,
            b"carrier" => &mut self.cell.carrier,
            b"identity" => &mut self.cell.identity,
            b"nports" => &mut self.cell.nports,
            b"cports" => &mut self.cell.cports,
            b"control" => &mut self.cell.control,
            b"sib1" => &mut self.cell.sib1,
            b"bits" => &mut self.cell.bits,
            b"siwindow" => &mut self.cell.messages.window,
            b"sioffset" => &mut self.cell.messages.offset,
            b"messages" => &mut self.cell.messages.count,
            b"n" => &mut self.n,
            b"delay" => &mut self.delay,
            b"rmax" => &mut self.rmax,
            b"g" => &mut self.g,
            b"alpha" => &mut self.alpha,
            b"subframes" => &mut self.subframes,
            b"copies" => &mut self.copies,
            b"r" => &mut self.r,
            b"format" => &mut self.format,
            b"ncce" => &mut self.ncce,
            b"spacing" => &mut self.spacing,
            b"subcarrier" => &mut self.subcarrier,
            b"units" => &mut self.units,
            b"mcs" => &mut self.mcs,
            b"field" => &mut self.field,
            b"windows" => &mut self.windows.count,
            b"p" => &mut self.p,
            b"t" => &mut self.t,
            b"slot" => &mut self.slot,
            b"l" => &mut self.l,
            b"k" => &mut self.k,
            b"i" => &mut self.i,
            b"engine" => &mut self.engine,
            b"room" => &mut self.room,
            b"no" => &mut self.no,
            _ => return None,
        })
    }

    /// The grant of a kind, made of the values in force.
    pub fn grant(&self, kind: Kind) -> Grant {
        match kind {
            Kind::Down => Grant::Down(Npdsch {
                n: self.n,
                delay: self.delay,
                rmax: self.rmax,
                subframes: self.subframes,
                copies: self.copies,
            }),
            Kind::Control => Grant::Control(Npdcch {
                n: self.n,
                r: self.r,
                format: self.format,
                ncce: self.ncce,
            }),
            Kind::Up => Grant::Up(Npusch {
                n: self.n,
                spacing: self.spacing,
                subcarrier: self.subcarrier,
                units: self.units,
                copies: self.copies,
                delay: self.delay,
                mcs: self.mcs,
                windows: self.windows,
            }),
            Kind::Ack => Grant::Ack(Ack {
                n: self.n,
                spacing: self.spacing,
                field: self.field,
                copies: self.copies,
                windows: self.windows,
            }),
        }
    }

    /// The search space, made of the values in force.
    pub fn search(&self) -> SearchSpace {
        SearchSpace {
            n: self.n,
            rmax: self.rmax,
            g: self.g,
            alpha: self.alpha,
        }
    }

    /// The unit and element asked of a kind: the uplink's unit is the slot.
    pub fn place(&self, kind: Kind) -> (u64, Element) {
        let (unit, slot) = if kind.is_uplink() {
            (self.slot, 0)
        } else {
            (self.t, self.slot)
        };
        let (l, k) = (self.l, self.k);
        (unit, Element { slot, l, k })
    }
}
