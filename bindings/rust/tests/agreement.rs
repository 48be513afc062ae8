//! Holds each question on structs to the function on numbers that it is made of, on drawn inputs: accepted ones, and ones with any numbers.

use nbiot::{
    numbers, AckGrant, AckWalk, Candidate, Carrier, Cause, Cell, DownlinkPlace, Element, Found, Messages, Mode, NpdcchGrant, NpdcchWalk,
    NpdschGrant, NpdschWalk, NpuschGrant, NpuschWalk, Refusal, Schedule, SearchSpace, Spacing, UplinkPlace, Window,
};

struct Random(u64);

impl Random {
    fn below(&mut self, bound: u64) -> u64 {
        self.0 = self.0.wrapping_mul(6364136223846793005).wrapping_add(1442695040888963407);
        (self.0 >> 33) % bound
    }

    /// One of a list, or now and then any number.
    fn of(&mut self, list: &[u64]) -> u64 {
        if self.below(60) == 0 { self.below(1 << 12) } else { list[self.below(list.len() as u64) as usize] }
    }
}

const MODES: [Mode; 4] = [Mode::InBandSameIdentity, Mode::InBandOtherIdentity, Mode::GuardBand, Mode::Standalone];
const CARRIERS: [Carrier; 2] = [Carrier::Anchor, Carrier::NonAnchor];
const SPACINGS: [Spacing; 2] = [Spacing::Khz3_75, Spacing::Khz15];

/// A cell's numbers, and the bitmaps.
fn cell(r: &mut Random) -> ([u64; 23], [u8; 5], [u8; 5]) {
    let (mode, ports) = (r.below(4), r.of(&[1, 2]));
    let cell_ports = match mode { 0 => ports, 1 => r.of(&[1, 2, 4]), _ => 0 };
    let control = if mode < 2 { r.of(&[1, 2, 3]) } else { 0 };
    let mut to = [0; 23];
    to[..8].copy_from_slice(&[mode, r.below(2), r.below(504), ports, cell_ports, control, r.of(&[0, 5, 11]), r.of(&[0, 10, 40])]);
    to[8..11].copy_from_slice(&[r.of(&[160, 320, 480]), r.below(16), r.below(6)]);
    for s in to[11..].chunks_exact_mut(3) {
        s.copy_from_slice(&[r.of(&[64, 128, 4096]), r.of(&[2, 4, 8, 16]), r.of(&[2, 8])]);
    }
    let mut bytes = [[0; 5]; 2].map(|b: [u8; 5]| b.map(|_| r.below(256) as u8));
    if to[7] == 10 {
        bytes.iter_mut().for_each(|b| b[1] &= 0xc0);
    }
    (to, bytes[0], bytes[1])
}

fn windows(r: &mut Random) -> [u64; 17] {
    let mut to = [0; 17];
    to[0] = r.below(6);
    for w in to[1..].chunks_exact_mut(4) {
        w.copy_from_slice(&[r.of(&[80, 160, 640]), r.of(&[8, 32, 64]), r.of(&[172032, 196608, 344064]), r.below(37)]);
    }
    to
}

/// As many as the count says; of a fifth only that it is there is read.
fn window_list(n: &[u64; 17]) -> [Window; 5] {
    let mut to = [Window::default(); 5];
    for (w, at) in to.iter_mut().zip(n[1..].chunks_exact(4)) {
        *w = Window { period: at[0], start: at[1], length: at[2], tone: at[3] };
    }
    to
}

fn schedule_list(n: &[u64; 23]) -> [Schedule; 5] {
    let mut to = [Schedule::default(); 5];
    for (s, at) in to.iter_mut().zip(n[11..].chunks_exact(3)) {
        *s = Schedule { period: at[0], every: at[1], size: at[2] };
    }
    to
}

fn cause(number: u64) -> Option<Cause> {
    [None, Some(Cause::Npbch), Some(Cause::Npss), Some(Cause::Nsss), Some(Cause::Sib1), Some(Cause::Message), Some(Cause::Bitmap)]
        [number as usize]
}

fn found(a: &[u64]) -> Found {
    if a[1] == 1 {
        return Found::Ours { symbol: a[2], position: a[3] };
    }
    [Found::Plain, Found::Reference, Found::CellReference][a[4] as usize]
}

/// What a call on numbers answers, as a result.
fn asked<T>(no: u64, accepted: impl FnOnce() -> T) -> Result<T, Refusal> {
    match Refusal::of(no) {
        Some(refusal) => Err(refusal),
        None => Ok(accepted()),
    }
}

fn down_place(a: &[u64]) -> DownlinkPlace {
    DownlinkPlace { t: a[0], slot: a[1], l: a[2], k: a[3], symbol: a[4] }
}

#[derive(Default)]
struct Count {
    compared: u32,
    accepted: u32,
}

impl Count {
    fn same<T: PartialEq + core::fmt::Debug>(&mut self, typed: Result<T, Refusal>, no: u64, on_numbers: impl FnOnce() -> T) {
        self.compared += 1;
        self.accepted += u32::from(typed.is_ok());
        assert_eq!(typed, asked(no, on_numbers));
    }
}

fn ask_cell(count: &mut Count, r: &mut Random, c: &Cell, n: &[u64], space: [u64; 4]) {
    let [a, o] = [c.anchor_bitmap, c.non_anchor_bitmap];
    let (t, slot, l, k, p) = (r.below(1 << 14), r.below(2), r.below(8), r.below(13), r.below(7000));
    count.same(c.judge(), numbers::judge(n, a, o), || ());
    let mut b = [0; 3];
    let no = numbers::bitmap(n, a, o, &mut b);
    count.same(c.bitmap(), no, || &[a, o][b[1] as usize][..b[2] as usize]);
    let mut e = [0; 2];
    let no = numbers::count(n, a, o, &mut e);
    count.same(c.count(), no, || e[1]);
    let no = numbers::cause(n, a, o, t, &mut e);
    count.same(c.cause(t), no, || cause(e[1]));
    let mut s = [0; 48];
    let no = numbers::search(n, a, o, &space, &mut s);
    let typed = SearchSpace { n: space[0], rmax: space[1], g: space[2], alpha: space[3] }.candidates(c);
    let list = |s: &[u64]| s.chunks_exact(3).map(|c| Candidate { first: c[0], r: c[1], last: c[2] }).collect::<Vec<_>>();
    count.same(typed.map(|c| (c.start, c.list().to_vec())), no, || (s[1], list(&s[3..3 + 3 * s[2] as usize])));
    let mut at = [0; 6];
    let no = numbers::forward_npbch(n, a, o, p, &mut at);
    count.same(c.forward_npbch(p), no, || down_place(&at[1..]));
    let no = numbers::forward_sib1(n, a, o, p, &mut at);
    count.same(c.forward_sib1(p), no, || down_place(&at[1..]));
    let mut back = [0; 5];
    let no = numbers::backward_npbch(n, a, o, t * 10, slot, l, k, &mut back);
    count.same(c.backward_npbch(t * 10, slot, l, k), no, || found(&back));
    let no = numbers::backward_sib1(n, a, o, t, slot, l, k, &mut back);
    count.same(c.backward_sib1(t, slot, l, k), no, || found(&back));
}

/// Plan, forward, backward and a step of a grant of the downlink.
macro_rules! ask_down {
    ($count:ident $r:ident $c:ident $n:ident $grant:ident $walk:ident $g:ident
        $plan:ident $forward:ident $backward:ident $step:ident $forward_plain:ident $step_plain:ident) => {
        let [a, o] = [$c.anchor_bitmap, $c.non_anchor_bitmap];
        let at = $grant.forward($c, $r.below(2000)).map_or(0, |at| at.t) + $r.below(4);
        let (slot, l, k, p) = ($r.below(2), $r.below(8), $r.below(13), $r.below(400));
        let (mut plan, mut place, mut back, mut step) = ([0; 5], [0; 6], [0; 6], [0; 7]);
        let no = numbers::$plan($n, a, o, &$g, &mut plan);
        $count.same($grant.plan($c).map(|p| [p.first, p.last, p.copies, p.places]), no, || [plan[1], plan[2], plan[3], plan[4]]);
        let no = numbers::$forward($n, a, o, &$g, p, &mut place);
        $count.same($grant.forward($c, p), no, || down_place(&place[1..]));
        $count.same($grant.forward_plain($c, p), numbers::$forward_plain($n, a, o, &$g, p, &mut place), || down_place(&place[1..]));
        let no = numbers::$backward($n, a, o, &$g, at, slot, l, k, &mut back);
        $count.same($grant.backward($c, at, slot, l, k).map(|b| (b.found, b.skipped)), no, || (found(&back), cause(back[5])));
        let mut walk = $walk { position: p, cell: *$c, grant: $grant };
        let mut record = [&[p], &$n[..8], &$g[..], &$n[8..]].concat();
        let typed = walk.step();
        let no = numbers::$step(&mut record, a, o, &mut step);
        $count.same(typed, no, || (step[1] == 0).then(|| down_place(&step[2..])));
        assert_eq!(walk.position, record[0]);
        let typed = walk.step_plain();
        let no = numbers::$step_plain(&mut record, a, o, &mut step);
        $count.same(typed, no, || (step[1] == 0).then(|| down_place(&step[2..])));
        assert_eq!(walk.position, record[0]);
    };
}

/// The same of a grant of the uplink, without windows and beside them.
macro_rules! ask_up {
    ($count:ident $r:ident $w:ident $beside:ident $grant:ident $walk:ident $record:literal $g:ident
        $plan:ident $forward:ident $backward:ident $step:ident
        $plan_w:ident $forward_w:ident $backward_w:ident $step_w:ident $forward_plain:ident $step_plain:ident) => {
        let at = $grant.forward($beside, $r.below(300)).map_or(0, |at| at.slot) + $r.below(2);
        let (l, k, p) = ($r.below(8), $r.below(12), $r.below(300));
        for windowed in [false, true] {
            let list = if windowed { $beside } else { &[] };
            let (mut plan, mut place, mut back, mut step) = ([0; 7], [0; 5], [0; 5], [0; 7]);
            let mut record = [0; $record];
            record[0] = p;
            record[1..].copy_from_slice(&$g);
            let [planned, placed, backed, stepped] = if windowed {
                [
                    numbers::$plan_w(&$g, $w, &mut plan),
                    numbers::$forward_w(&$g, $w, p, &mut place),
                    numbers::$backward_w(&$g, $w, at, l, k, &mut back),
                    numbers::$step_w(&mut record, $w, &mut step),
                ]
            } else {
                [
                    numbers::$plan(&$g, &mut plan),
                    numbers::$forward(&$g, p, &mut place),
                    numbers::$backward(&$g, at, l, k, &mut back),
                    numbers::$step(&mut record, &mut step),
                ]
            };
            let mut walk = $walk { position: p, grant: $grant, windows: list };
            let typed = $grant.plan(list).map(|p| [p.first, p.last, p.copies, p.places, p.size, p.order]);
            $count.same(typed, planned, || plan[1..].try_into().expect("six"));
            let of = |a: &[u64]| UplinkPlace { slot: a[0], l: a[1], k: a[2], symbol: a[3] };
            $count.same($grant.forward(list, p), placed, || of(&place[1..]));
            $count.same($grant.backward(list, at, l, k), backed, || found(&back));
            $count.same(walk.step(), stepped, || (step[1] == 0).then(|| of(&step[3..])));
            assert_eq!(walk.position, record[0]);
            let lent = if windowed { &$w[..] } else { &[] };
            $count.same($grant.forward_plain(list, p), numbers::$forward_plain(&$g, lent, p, &mut place), || of(&place[1..]));
            $count.same(walk.step_plain(), numbers::$step_plain(&mut record, lent, &mut step), || (step[1] == 0).then(|| of(&step[3..])));
            assert_eq!(walk.position, record[0]);
        }
    };
}

fn ask_fill(count: &mut Count, r: &mut Random, c: &Cell, n: &[u64], grant: NpdschGrant, g: [u64; 5]) {
    let lengths = [1, 2, 3, 4, 5, 6, 8, 10];
    let bits: Vec<u8> = (0..lengths[g[3] as usize % 8] * c.count().unwrap_or(0) / 4).map(|_| r.below(256) as u8).collect();
    let (i, slot, l, k) = (r.below(5), r.below(2), r.below(8), r.below(13));
    let lent = [c.anchor_bitmap, c.non_anchor_bitmap];
    let (mut typed, mut output) = ([[[[0.5; 2]; 12]; 7]; 2], [0.5; 336]);
    let no = numbers::fill(n, lent, &g, i, &bits, 1.5, &mut output);
    count.same(grant.fill(c, i, &bits, 1.5, &mut typed), no, || ());
    assert_eq!(typed.concat().concat().concat(), output);
    let (mut a, mut pair) = ([0; 2], [0.0; 2]);
    let no = numbers::element(n, lent, &g, [i, slot, l, k], &bits, 1.5, &mut a, &mut pair);
    let symbol = Element::Symbol { re: pair[0], im: pair[1] };
    let states = [Element::Silent, Element::Reference, Element::CellReference, Element::Silent, symbol];
    count.same(grant.element(c, [i, slot, l, k], &bits, 1.5), no, || states[a[1] as usize]);
}

#[test]
fn structs_and_numbers_agree() {
    let (r, count) = (&mut Random(1), &mut Count::default());
    for _ in 0..5000 {
        let (n, anchor_bitmap, non_anchor_bitmap) = cell(r);
        let schedules = schedule_list(&n);
        let messages = Messages { window: n[8], offset: n[9], schedules: &schedules[..n[10] as usize] };
        let with = r.below(3) == 0;
        let c = &Cell {
            mode: MODES[n[0] as usize], carrier: CARRIERS[n[1] as usize], identity: n[2], narrowband_ports: n[3], cell_ports: n[4],
            control_region: n[5], sib1_schedule: n[6], bitmap_length: n[7], anchor_bitmap: &anchor_bitmap,
            non_anchor_bitmap: &non_anchor_bitmap, messages: with.then_some(&messages),
        };
        let n = if with { &n[..] } else { &n[..8] };
        let space = [r.below(1 << 30), r.of(&[4, 64, 2048]), r.below(8), r.below(4)];
        ask_cell(count, r, c, n, space);

        let g = [r.below(1 << 30), r.below(8), r.of(&[1, 64, 2048]), r.of(&[0, 3, 7]), r.of(&[0, 3, 9])];
        let grant = NpdschGrant { n: g[0], delay: g[1], rmax: g[2], subframes: g[3], copies: g[4] };
        ask_down! { count r c n grant NpdschWalk g plan_down forward_down backward_down step_down forward_down_plain step_down_plain }
        ask_fill(count, r, c, n, grant, g);
        let g = [r.below(1 << 30), r.of(&[1, 64, 2048]), r.below(2), r.below(2)];
        let grant = NpdcchGrant { n: g[0], r: g[1], format: g[2], ncce: g[3] };
        ask_down! {
            count r c n grant NpdcchWalk g plan_control forward_control backward_control step_control
            forward_control_plain step_control_plain
        }

        let w = &windows(r);
        let list = window_list(w);
        let beside = &list[..w[0] as usize];
        let spacing = r.below(2);
        let tone = r.below(if spacing == 0 { 48 } else { 19 });
        let g = [r.below(1 << 30), spacing, tone, r.of(&[0, 3, 7]), r.of(&[0, 3, 7]), r.below(4), r.below(5)];
        let grant = NpuschGrant {
            n: g[0], spacing: SPACINGS[g[1] as usize], subcarrier: g[2], units: g[3], copies: g[4], delay: g[5], mcs: g[6],
        };
        ask_up! {
            count r w beside grant NpuschWalk 8 g plan_up forward_up backward_up step_up
            plan_up_windows forward_up_windows backward_up_windows step_up_windows forward_up_plain step_up_plain
        }
        let g = [r.below(1 << 30), spacing, r.below(16), r.of(&[0, 3, 7])];
        let grant = AckGrant { n: g[0], spacing: SPACINGS[g[1] as usize], field: g[2], copies: g[3] };
        ask_up! {
            count r w beside grant AckWalk 5 g plan_ack forward_ack backward_ack step_ack
            plan_ack_windows forward_ack_windows backward_ack_windows step_ack_windows forward_ack_plain step_ack_plain
        }
    }
    assert!(count.accepted * 2 > count.compared, "{} of {} were accepted", count.accepted, count.compared);
}

#[test]
fn refusals_have_their_number_and_words() {
    assert_eq!(Refusal::of(0), None);
    for number in 1..=300 {
        let refusal = Refusal::of(number).expect("only 0 is none");
        assert_eq!(refusal.number(), number);
        assert_eq!(matches!(refusal, Refusal::Other(_)), (26..255).contains(&number) || number > 255, "{refusal}");
    }
}
