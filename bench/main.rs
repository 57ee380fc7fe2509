// The timed half of the bench program in plain Rust, on the same sheets; as_rust.py puts the modules before it.
use host::mute::Mute;
use recipe::{admit, Recipe};
use eff::part::Part;
use runs::{advance, make, MOST};
use std::hint::black_box;
use std::time::{Duration, Instant};
use step::{front, is_computation};

const RUNS: [(u16, u32); 3] = [(8, 6_000_000), (98, 2_000_000), (998, 200_000)];

const TIMES: u32 = 4_000;

fn growing(lets: u16) -> String {
    format!("effect op takes gives\n\ninstance effect\n\ntype kind a b d e\n4 4 2 1 0 0\n5 4 1 1 0 0\n\npart kind a b type dirt\n0 17 4 0 1 0\n1 13 0 0 1 0\n2 0 0 0 4 0\n3 0 1 0 2 0\n4 17 5 0 1 0\n5 11 0 0 1 0\n6 0 1 0 1 0\n7 13 0 0 1 0\n8 0 2 0 4 0\n9 4 0 0 2 0\n10 16 0 0 1 0\n11 13 0 0 1 0\n12 0 1 0 5 0\n13 0 0 0 1 0\n14 14 0 0 1 0\n15 3 0 0 1 0\n16 3 0 0 1 0\n17 0 0 0 1 0\n18 13 0 0 1 0\n19 0 0 0 5 0\n20 2 {lets} 0 1 0\n\n")
}

fn cuts() -> String {
    let mut rows = String::new();
    for cut in 0..250 {
        let call = 4 * cut;
        let (instance, successor, numeral) = (call + 1, call + 2, call + 3);
        rows.push_str(&format!("{call} 15 0 1 2 2\n{instance} 5 0 0 4 0\n{successor} 3 0 0 1 0\n{numeral} 2 {cut} 0 1 0\n"));
    }
    format!("effect op takes gives\n0 0 1 2\n0 1 1 2\n0 2 2 1\n\ninstance effect\n0 0\n\ntype kind a b d e\n4 5 0 1 0 0\n\npart kind a b type dirt\n{rows}1000 14 0 0 2 2\n1001 4 0 0 2 0\n\n")
}

fn rate(count: u64, span: Duration) -> u128 {
    count as u128 * 1_000_000_000 / span.as_nanos().max(1)
}

fn measure(lets: u16, steps: u32) {
    let mut place = Recipe::empty();
    let _ = admit(growing(lets).as_bytes(), &mut place);
    let (mut first, mut second) = ([Part::default(); MOST], [Part::default(); MOST]);
    let run = advance(make(&place, &mut first, &mut second), &mut Mute, 5 + 3 * lets as u32);
    let start = Instant::now();
    let run = advance(run, &mut Mute, steps);
    let span = start.elapsed();
    let parts = (0..MOST).find(|size| is_computation(front(run.first(), *size))).unwrap_or(0);
    let copied = (steps / 2) as u64 * (10 * lets as u64 + 17);
    println!("{parts} {} {} {}", run.read().steps, rate(steps as u64, span), rate(copied, span));
}

fn passes(sheet: &[u8], layer: &str, place: &mut Recipe) -> bool {
    match layer {
        "text" => sheet::read(sheet).is_ok(),
        "table" => table::read(sheet).is_ok(),
        "shape" => shape::read(sheet).is_ok(),
        _ => admit(sheet, place).is_ok(),
    }
}

fn main() {
    println!("parts steps steps/s copied/s");
    for (lets, steps) in RUNS {
        measure(lets, steps);
    }
    println!("layer judged/s");
    let sheet = cuts();
    let mut place = Recipe::empty();
    for layer in ["text", "table", "shape", "claim"] {
        let start = Instant::now();
        for _ in 0..TIMES {
            assert!(passes(black_box(sheet.as_bytes()), layer, &mut place));
        }
        println!("{layer} {}", rate(TIMES as u64, start.elapsed()));
    }
}
