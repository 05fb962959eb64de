//! Times the archive against the second implementation, in one run, and measures the archive's stack.
use cram_host::reading::ARCHIVE as READER;
use cram_host::roles::ARCHIVE as ROLES;
use cram_host::{measured, plain, stack, ARCHIVE};

/// Each figure is the median of so many samples.
const SAMPLES: usize = 101;
/// A sample lasts about so long, so that the clock's own cost does not show.
const SAMPLE_NANOSECONDS: f64 = 100_000.0;
const MOST_COPIES: usize = 256;

extern "C" {
    fn clock_gettime(clock: i32, time: *mut [i64; 2]) -> i32;
}

/// Nanoseconds of processor time of this thread, so that other work on the machine does not count.
fn processor_time() -> i64 {
    const THREAD: i32 = 3;
    let mut time = [0; 2];
    assert_eq!(unsafe { clock_gettime(THREAD, &mut time) }, 0);
    1_000_000_000 * time[0] + time[1]
}

fn main() {
    println!("Nanoseconds of processor time a call, medians of {} samples, the two taking turns, at -O3.", SAMPLES);
    println!("Every call gets buffers of its own, written before the clock starts; nothing is cleared in between.\n");
    println!("{:<45}{:>12}{:>12}{:>8}", "", "archive", "plain Rust", "ratio");
    let engines = [&ARCHIVE, &plain::ENGINE];
    for (name, lent) in measured::compiles() {
        print(name, medians(&lent, engines, |lent, engine| lent.call(engine).place));
    }
    for (name, lent) in measured::runs() {
        print(name, medians(&lent, engines, |lent, engine| lent.call(engine).place));
    }
    for (name, searching, checking) in measured::searches() {
        let words = (searching.code.len() / 4) as f64;
        let [all, check] =
            [searching, checking].map(|lent| medians(&lent, engines, |lent, engine| lent.call(engine).place));
        print(name, [0, 1].map(|i| (all[i] - check[i]) / words));
    }
    let engines = [&ROLES, &plain::ROLES];
    for (name, lent) in measured::role_compiles() {
        print(name, medians(&lent, engines, |lent, engine| lent.call(engine).place));
    }
    for (name, lent) in measured::rounds() {
        print(name, medians(&lent, engines, |lent, engine| lent.call(engine).place));
    }
    let engines = [&READER, &plain::READER];
    for (name, lent) in measured::readings() {
        print(name, medians(&lent, engines, |lent, engine| lent.call(engine).place as u32));
    }
    println!("\nThe check of a table; plain Rust searches for each row, and then has an index of hashes.");
    println!("{:<45}{:>12}{:>12}{:>12}{:>8}", "used rows", "archive", "plain Rust", "hashed", "ratio");
    for (used, lent) in measured::checks() {
        let engines = [&ARCHIVE, &plain::ENGINE, &plain::HASHED];
        let [ours, searched, hashed] = medians(&lent, engines, |lent, engine| lent.call(engine).place);
        println!("{:<45}{:>12.0}{:>12.0}{:>12.0}{:>8.2}", used, ours, searched, hashed, ours / hashed);
    }
    println!("\nBytes of stack, by painting it before the call:");
    for (name, mut lent) in measured::compiles() {
        println!("{:<45}{:>12}", name, stack::taken_by(|| lent.call(&ARCHIVE)));
    }
    for (name, mut lent) in measured::runs() {
        println!("{:<45}{:>12}", name, stack::taken_by(|| lent.call(&ARCHIVE)));
    }
    for (name, mut lent) in measured::role_compiles() {
        println!("{:<45}{:>12}", name, stack::taken_by(|| lent.call(&ROLES)));
    }
    for (name, mut lent) in measured::rounds() {
        println!("{:<45}{:>12}", name, stack::taken_by(|| lent.call(&ROLES)));
    }
    for (name, mut lent) in measured::readings() {
        println!("{:<45}{:>12}", name, stack::taken_by(|| lent.call(&READER)));
    }
}

fn print(name: &str, [ours, theirs]: [f64; 2]) {
    println!("{:<45}{:>12.0}{:>12.0}{:>8.2}", name, ours, theirs, ours / theirs);
}

/// The time of a call by each engine.
fn medians<T: Clone, E, const N: usize>(lent: &T, engines: [&E; N], call: fn(&mut T, &E) -> u32) -> [f64; N] {
    let copies = copies_for_a_sample(lent, engines[0], call);
    let mut samples = [(); N].map(|()| Vec::new());
    for _ in 0..SAMPLES {
        for (engine, samples) in engines.into_iter().zip(&mut samples) {
            samples.push(sample(lent, engine, call, copies));
        }
    }
    samples.map(|mut samples| {
        samples.sort_by(f64::total_cmp);
        samples[SAMPLES / 2]
    })
}

fn copies_for_a_sample<T: Clone, E>(lent: &T, engine: &E, call: fn(&mut T, &E) -> u32) -> usize {
    let once = sample(lent, engine, call, 4);
    ((SAMPLE_NANOSECONDS / once) as usize).clamp(1, MOST_COPIES)
}

/// The time of a call, from calls on fresh copies one after another.
fn sample<T: Clone, E>(lent: &T, engine: &E, call: fn(&mut T, &E) -> u32, copies: usize) -> f64 {
    let mut fresh = vec![lent.clone(); copies];
    let mut places = 0u32;
    let start = processor_time();
    for lent in &mut fresh {
        places = places.wrapping_add(call(lent, engine));
    }
    let taken = (processor_time() - start) as f64 / copies as f64;
    // A use of the answers that no optimiser takes away.
    unsafe { std::ptr::read_volatile(&places) };
    taken
}
