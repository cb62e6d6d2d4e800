//! The built register's speed through the Rust crate, beside plain Rust of the same rules and other tables with the same hash.
//! Progress goes to standard error, the tables to standard output, and all to the folder named as the argument.

mod picture;
mod probes;
mod random;
mod report;
mod speed;
mod tables;

use std::path::PathBuf;
use std::time::Instant;
use std::{env, fs};

fn main() -> std::io::Result<()> {
    let folder = PathBuf::from(env::args_os().nth(1).unwrap_or_else(|| "build/bench".into()));
    let start = Instant::now();
    let settings: Vec<(usize, u8, f64)> = [2_048, 32_768]
        .into_iter()
        .flat_map(|m| [0, 1].into_iter().flat_map(move |rule| [0.5, 0.8, 0.9, 0.95].into_iter().map(move |load| (m, rule, load))))
        .collect();
    let (mut cases, mut probes) = (Vec::new(), Vec::new());
    for (i, (slots, rule, load)) in settings.iter().enumerate() {
        eprintln!(
            "bench: {} of {}: M {slots}, rule {rule}, load {load}: {} s so far",
            i + 1,
            settings.len(),
            start.elapsed().as_secs()
        );
        cases.push(speed::case(*slots, *rule, *load));
        probes.push(probes::case(*slots, *rule, *load));
    }
    let text = format!(
        "Nanoseconds a call, for check and census a slot. \\*: the table holds its records in more than M slots.\n\n{}\nRatios:\n\n{}\nAverage probes:\n\n{}",
        report::times(&cases),
        report::targets(&cases),
        report::probes(&probes)
    );
    fs::create_dir_all(&folder)?;
    fs::write(folder.join("register.md"), &text)?;
    fs::write(folder.join("register.svg"), picture::svg(&cases))?;
    print!("{text}");
    eprintln!(
        "bench: {} s; the table is in {1}/register.md, the picture in {1}/register.svg",
        start.elapsed().as_secs(),
        folder.display()
    );
    Ok(())
}
