//! Nanoseconds of writing a type 9 value, the proved library beside plain
//! Rust. The worst case has the largest exponent, so all 16 are looked at;
//! neither side tries codes.

use std::hint::black_box;
use std::time::Instant;

#[repr(C)]
#[derive(Clone, Copy)]
struct Point {
    hundredths: i32,
    bits: u32,
    kind: u8,
    value: u8,
    outcome: u8,
}

extern "C" {
    fn kelindap_point_write(point: Point, out: *mut u8, length: usize) -> u8;
}

fn proved(x: i32, out: &mut [u8]) -> u8 {
    let point = Point { hundredths: x, bits: 0, kind: 9, value: 0, outcome: 0 };
    unsafe { kelindap_point_write(point, out.as_mut_ptr(), out.len()) }
}

/// The first exponent at which x rounds to a mantissa, a half toward zero.
#[inline(never)]
fn plain(x: i32, out: &mut [u8]) -> u8 {
    if out.len() != 2 {
        return 20;
    }
    if !(-67_108_864..=67_043_328).contains(&x) {
        return 23;
    }
    let mut e = 0;
    let mantissa = |e: u32| (2 * x + x.signum() * ((1 << e) - 1)) / (2 << e);
    while !(-2048..=2047).contains(&mantissa(e)) {
        e += 1;
    }
    let mut m = mantissa(e);
    if m == -1024 && e > 0 {
        (m, e) = (-2048, e - 1);
    }
    let code = (m as u32 & 0x800) << 4 | e << 11 | m as u32 & 0x7FF;
    out.copy_from_slice(&(code as u16).to_be_bytes());
    0
}

#[inline(never)]
fn nothing(_: i32, _: &mut [u8]) -> u8 {
    0
}

/// The best of 300 rounds.
fn time(f: impl Fn(i32, &mut [u8]) -> u8, x: i32) -> f64 {
    let mut out = [0; 2];
    let round = |out: &mut [u8; 2]| {
        let start = Instant::now();
        for _ in 0..10_000 {
            black_box(f(black_box(x), black_box(&mut out[..])));
        }
        start.elapsed().as_nanos() as f64 / 10_000.0
    };
    (0..300).map(|_| round(&mut out)).fold(f64::MAX, f64::min)
}

fn main() {
    println!("type 9 written                   ns    plain  ratio");
    for (name, x) in
        [("worst case, -67108864", -67_108_864), ("21.50 degrees, 2150", 2150), ("smallest, 1", 1)]
    {
        let (mut a, mut b) = ([0; 2], [0; 2]);
        assert_eq!((proved(x, &mut a), a), (plain(x, &mut b), b), "{x}");
        let idle = time(nothing, x);
        let (ours, theirs) = (time(proved, x) - idle, time(plain, x) - idle);
        println!("{name:<28} {ours:>6.1}   {theirs:>6.1}   {:>4.2}", ours / theirs);
    }
}
