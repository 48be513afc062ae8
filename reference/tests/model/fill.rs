//! Fill and one element: level bounds, lengths, ports and numbers.

use crate::common::{ask, value};

/// Standalone, one port, one subframe sent once: 160 symbols, 40 bytes.
fn cell_and_grant() -> String {
    let data = "1b".repeat(40);
    format!("set mode=3 nports=1 n=15 rmax=1 level=3f800000 data={data}\n")
}

/// The numbers of one fill and of one element with these words.
fn numbers(words: &str) -> (u64, u64) {
    let answers = ask(&format!(
        "{}fill {words}\nelement {words}",
        cell_and_grant()
    ));
    (value(&answers[0], "no"), value(&answers[1], "no"))
}

#[test]
fn level_bounds() {
    for level in ["35800000", "35800001", "49800000", "497fffff", "3f800000"] {
        assert_eq!(numbers(&format!("level={level}")), (0, 0), "{level}");
    }
    let outside = [
        "357fffff", "49800001", "00000000", "80000000", "bf800000", "7f800000", "ff800000",
        "7fc00000", "ffc00000", "7f800001", "00000001",
    ];
    for level in outside {
        assert_eq!(numbers(&format!("level={level}")), (16, 16), "{level}");
    }
}

#[test]
fn refusals_in_order() {
    assert_eq!(numbers("i=1 room=335 level=00000000"), (14, 14));
    assert_eq!(numbers("room=335 level=00000000"), (15, 16));
    assert_eq!(numbers("room=335"), (15, 0));
    assert_eq!(numbers("room=337"), (15, 0));
    for bytes in [0, 39, 41] {
        let data = if bytes == 0 {
            "-".to_string()
        } else {
            "00".repeat(bytes)
        };
        assert_eq!(numbers(&format!("data={data}")), (15, 15));
    }
    let two_ports = format!("nports=2 data={}", "00".repeat(38));
    assert_eq!(numbers(&two_ports), (17, 17));
    assert_eq!(numbers(&format!("{two_ports} level=00000000")), (16, 16));
    assert_eq!(numbers("nports=2"), (15, 15));
}

#[test]
fn element_outside_the_grid() {
    for words in ["slot=2", "l=7", "k=12", "k=18446744073709551615"] {
        assert_eq!(numbers(words), (0, 14));
    }
}

#[test]
fn refused_fill_changes_nothing() {
    let answer = &ask(&format!("{}fill i=1 room=3", cell_and_grant()))[0];
    assert_eq!(answer, "no=14 42280000 42280000 42280000");
    let answer = &ask(&format!("{}fill i=1 room=0", cell_and_grant()))[0];
    assert_eq!(answer, "no=14");
}

/// Fill and element agree everywhere; symbols by hand from the bits 00 01 10 11.
#[test]
fn fill_numbers() {
    let mut questions = format!("{}fill i=0\n", cell_and_grant());
    for number in 0..168 {
        let (slot, l, k) = (number / 84, number / 12 % 7, number % 12);
        questions.push_str(&format!("element slot={slot} l={l} k={k}\n"));
    }
    let answers = ask(&questions);
    let filled: Vec<&str> = answers[0].split(' ').skip(1).collect();
    assert_eq!(filled.len(), 336);
    let (plus, minus) = ("3f3504f3", "bf3504f3");
    let four = [plus, plus, plus, minus, minus, plus, minus, minus];
    assert_eq!(filled[..8], four);
    assert_eq!(filled[168..176], four, "80 symbols before, a multiple of 4");
    let reference = 2 * (5 * 12); // l = 5, k = 0
    assert_eq!(filled[reference..reference + 2], ["00000000", "00000000"]);
    for (number, answer) in answers[1..].iter().enumerate() {
        let (re, im) = (filled[2 * number], filled[2 * number + 1]);
        let case = if re == "00000000" { 1 } else { 4 };
        assert_eq!(*answer, format!("no=0 case={case} re={re} im={im}"));
    }
}

/// The product is one f32 multiplication by the fixed f32.
#[test]
fn level_product() {
    for level in ["35800000", "3f800001", "40490fdb", "4979ffff", "49800000"] {
        let answer = &ask(&format!("{}element level={level}", cell_and_grant()))[0];
        let pattern = u32::from_str_radix(level, 16).expect("hex");
        let product = f32::from_bits(pattern) * f32::from_bits(0x3F35_04F3);
        let wide = f64::from(f32::from_bits(pattern)) * f64::from(f32::from_bits(0x3F35_04F3));
        assert_eq!(product.to_bits(), (wide as f32).to_bits());
        let bits = product.to_bits();
        assert_eq!(*answer, format!("no=0 case=4 re={bits:08x} im={bits:08x}"));
    }
}

/// All copies and passes take the bits of the codeword subframe they carry.
#[test]
fn bits_by_codeword_subframe() {
    let data = "00".repeat(40) + &"ff".repeat(40);
    let mut questions = format!("{}set subframes=1 copies=3 data={data}\n", cell_and_grant());
    for i in 0..16 {
        questions.push_str(&format!("element i={i}\n"));
    }
    let answers = ask(&questions);
    let second: Vec<u64> = answers
        .iter()
        .map(|a| u64::from(a.contains("re=bf")))
        .collect();
    assert_eq!(second, [0, 0, 0, 0, 1, 1, 1, 1, 0, 0, 0, 0, 1, 1, 1, 1]);
}
