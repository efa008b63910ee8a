//! Runs a script from standard input as `tcrx` does: `scripts run --scid N` and `scripts parallel --scid N`.
use plain_receiver::script::{parallel_script, run_script};
use std::io::{self, BufWriter};
use std::process::ExitCode;

fn main() -> ExitCode {
    let words: Vec<String> = std::env::args().skip(1).collect();
    let words: Vec<&str> = words.iter().map(String::as_str).collect();
    let (is_run, scid) = match words[..] {
        ["run", "--scid", n] => (true, n.parse::<u16>()),
        ["parallel", "--scid", n] => (false, n.parse::<u16>()),
        _ => return ExitCode::from(2),
    };
    let Ok(scid @ 0..=1023) = scid else {
        return ExitCode::from(2);
    };
    let (mut input, mut output) = (io::stdin().lock(), BufWriter::new(io::stdout().lock()));
    let done = if is_run { run_script(scid, &mut input, &mut output) } else { parallel_script(scid, &mut input, &mut output) };
    drop(output);
    match done {
        Ok(()) => ExitCode::SUCCESS,
        Err(fault) => {
            eprintln!("{fault}");
            ExitCode::from(1)
        }
    }
}
