//! Compares the linked library libmarker.a with the reference on many made-up calls.

use compare::{
    compare, compare_case, parse, Case, Command, Coverage, Library, Stream, FULL_RUN, SHOWN_ROWS,
    USAGE,
};
use std::process::ExitCode;

fn main() -> ExitCode {
    let done = match parse(std::env::args().skip(1)) {
        Some(Command::Run {
            streams,
            seed,
            count,
            progress,
        }) => run(&streams, seed, count, progress),
        Some(Command::Replay(case)) => replay(case),
        None => {
            eprintln!("{USAGE}");
            return ExitCode::from(2);
        }
    };
    match done {
        Ok(()) => ExitCode::SUCCESS,
        Err(words) => {
            println!("{words}");
            ExitCode::FAILURE
        }
    }
}

fn run(streams: &[Stream], seed: u64, count: u64, progress: bool) -> Result<(), String> {
    println!("seed {seed}");
    let mut compared = 0;
    for stream in streams {
        let coverage = run_stream(*stream, seed, count, progress)?;
        compared += coverage.calls + coverage.others;
    }
    println!("compared {compared} calls, 0 differences");
    Ok(())
}

/// Compares so many calls of one stream. What they met, or what went wrong, in words.
fn run_stream(stream: Stream, seed: u64, count: u64, progress: bool) -> Result<Coverage, String> {
    let tell = |index| {
        if progress && index % 10_000 == 0 {
            eprintln!("{stream}: case {index} of {count} or more");
        }
    };
    let coverage = compare(&Library, stream, seed, count, tell)
        .map_err(|difference| difference.to_string())?;
    print!("{coverage}");
    let missing = if count >= FULL_RUN {
        coverage.missing()
    } else {
        Vec::new()
    };
    if !missing.is_empty() {
        return Err(format!("incomplete run: {}", missing.join(", ")));
    }
    Ok(coverage)
}

fn replay(case: Case) -> Result<(), String> {
    let (call, outcome) = compare_case(&Library, case).map_err(|it| it.to_string())?;
    println!("{call}{outcome}");
    for (index, row) in outcome.rows().enumerate().take(SHOWN_ROWS) {
        println!("answer {index}: {row}");
    }
    println!("compared 1 calls, 0 differences");
    Ok(())
}
