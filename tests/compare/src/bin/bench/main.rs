//! bench [--plot FILE]: what the core's calls cost, beside the second machine's
//! and beside a plain pass over what is lent, as tables in Markdown; the file
//! gets a picture of what grows with the senders that wait.

mod figures;
mod markdown;
mod measure;
mod plot;
mod scenes;

use figures::{count, run_counted, time};
use markdown::Report;
use scenes::scenes;
use std::process::ExitCode;

/// The option by which the program runs itself under callgrind.
const COUNTED: &str = "--counted";

fn main() -> ExitCode {
    let args: Vec<String> = std::env::args().skip(1).collect();
    match args.iter().map(String::as_str).collect::<Vec<&str>>()[..] {
        [] => measure(None),
        ["--plot", file] => measure(Some(file)),
        [COUNTED] => {
            run_counted(&scenes());
            ExitCode::SUCCESS
        }
        _ => {
            eprintln!("usage: bench [--plot FILE]");
            ExitCode::from(2)
        }
    }
}

fn measure(plot: Option<&str>) -> ExitCode {
    let mut figures = time(&scenes());
    let counted = count(&mut figures, COUNTED);
    if !counted {
        println!("No instructions are counted: valgrind did not run.");
    }
    let report = Report(&figures);
    print!("{}", report.text(counted));
    match plot.map_or(Ok(()), |file| draw(&report, file)) {
        Ok(()) => ExitCode::SUCCESS,
        Err(error) => {
            eprintln!("bench: {error}");
            ExitCode::FAILURE
        }
    }
}

/// Writes the picture, or says why there is none.
fn draw(report: &Report, file: &str) -> Result<(), String> {
    let Some(svg) = plot::svg(report) else {
        return Err(String::from("there is no picture without instructions"));
    };
    std::fs::write(file, svg).map_err(|error| format!("{file}: {error}"))
}
