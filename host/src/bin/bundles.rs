//! Writes bundles and their listings: `bundles examples FOLDER`, or `bundles generated FOLDER COUNT` from a seed.
//! The listings are those of the second implementation.
use cram_host::generator::{self, Random};
use cram_host::{examples, plain};
use std::path::Path;
use std::{env, fs, io};

fn main() -> io::Result<()> {
    let words: Vec<String> = env::args().skip(1).collect();
    let words: Vec<&str> = words.iter().map(String::as_str).collect();
    match words[..] {
        ["examples", folder] => examples::all().into_iter().try_for_each(|(name, bundle)| write(folder, name, &bundle)),
        ["generated", folder, count] => {
            let mut random = Random::new(6);
            let count: usize = count.parse().expect("a count of bundles");
            (0..count).try_for_each(|i| write(folder, &format!("generated-{}", i), &generator::bundle(&mut random)))
        }
        _ => {
            eprintln!("usage: bundles examples FOLDER | bundles generated FOLDER COUNT");
            std::process::exit(2)
        }
    }
}

fn write(folder: &str, name: &str, bundle: &[u8]) -> io::Result<()> {
    let file = |ending: &str| Path::new(folder).join(format!("{}.{}", name, ending));
    fs::write(file("bundle"), bundle)?;
    fs::write(file("listing"), plain::listing(&plain::ENGINE, bundle))
}
