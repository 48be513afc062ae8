//! What examples/c/walk.c does, in Rust, with the same output: plans an NPDSCH grant, says why subframes are skipped, walks it to its end,
//! fills its first subframe, and plans its acknowledgement, without random access windows and with one.

use nbiot::{AckGrant, Carrier, Cell, DownlinkPlan, Element, Found, Mode, NpdschGrant, NpdschWalk, Refusal, Spacing, Window};

/// Each subframe between the first and the last that is not sent: backward hands on the cell's cause.
fn skipped(cell: &Cell, grant: NpdschGrant, plan: DownlinkPlan) -> Result<(), Refusal> {
    for t in plan.first..=plan.last {
        let cause = cell.cause(t)?;
        assert_eq!(grant.backward(cell, t, 0, 0, 0)?.skipped, cause);
        if let Some(cause) = cause {
            println!("skipped: subframe {t}, cause {cause}");
        }
    }
    Ok(())
}

/// Every place is asked back: it is ours, with the walk's position and symbol.
fn walk(cell: &Cell, grant: NpdschGrant, places: u64) -> Result<(), Refusal> {
    let mut walk = NpdschWalk { position: 0, cell: *cell, grant };
    let (mut position, mut subframe) = (0, 0);
    while let Some(at) = walk.step()? {
        let ours = Found::Ours { symbol: at.symbol, position };
        assert_eq!(grant.backward(cell, at.t, at.slot, at.l, at.k)?.found, ours);
        if at.t != subframe {
            subframe = at.t;
            print!("walk: position {position} is subframe {subframe}, slot {}, l {}, k {}", at.slot, at.l, at.k);
            println!(", symbol {}", at.symbol);
        }
        position = walk.position;
    }
    println!("walk: finished at {position} of {places}");
    Ok(())
}

/// 8 subframes of 160 symbols need 320 bytes.
fn fill(cell: &Cell, grant: NpdschGrant) -> Result<(), Refusal> {
    let mut bits = [0; 320];
    bits[0] = 0x1b;
    let mut out = [[[[0.0; 2]; 12]; 7]; 2];
    grant.fill(cell, 0, &bits, 1.0, &mut out)?;
    for (k, [re, im]) in out[0][0].iter().take(4).enumerate() {
        println!("fill: slot 0, l 0, k {k} is {re:+.7} {im:+.7}i");
    }
    assert_eq!(grant.element(cell, [0, 0, 5, 0], &bits, 1.0)?, Element::Reference);
    println!("element: slot 0, l 5, k 0 has state 1");
    Ok(())
}

fn acknowledge(name: &str, n: u64, windows: &[Window]) -> Result<(), Refusal> {
    let plan = AckGrant { n, spacing: Spacing::Khz15, field: 0, copies: 0 }.plan(windows)?;
    println!("{name}: slots {} to {}, places {}", plan.first, plan.last, plan.places);
    Ok(())
}

fn main() -> Result<(), Refusal> {
    let cell = Cell { mode: Mode::Standalone, carrier: Carrier::Anchor, narrowband_ports: 1, ..Cell::default() };
    let grant = NpdschGrant { n: 15, rmax: 64, subframes: 6, ..NpdschGrant::default() };
    let plan = grant.plan(&cell)?;
    println!("plan: subframes {} to {}, copies {}, places {}", plan.first, plan.last, plan.copies, plan.places);
    skipped(&cell, grant, plan)?;
    walk(&cell, grant, plan.places)?;
    fill(&cell, grant)?;
    acknowledge("acknowledgement", plan.last, &[])?;
    let window = Window { period: 80, start: 32, length: 688128, tone: 0 };
    acknowledge("acknowledgement beside a window", plan.last, &[window])
}
