//! A second program for FlexRay frames, slots, clock and wire: works out what a replay script must give, and makes such
//! scripts and inputs for the bench program.

mod answer;
mod bench;
mod bench_inputs;
mod bit_clock;
mod bits;
mod cases;
mod causes;
mod channel;
mod checksum;
mod checksum_pair;
mod clock;
mod clock_faults;
mod clock_history;
mod clock_mixture;
mod clock_numbers;
mod clock_scene;
mod closing;
mod correction;
mod decoder;
mod draft;
mod errors;
mod faults;
mod frame;
mod history;
mod listed_frames;
mod listed_streams;
mod listening;
mod marks;
mod mixture;
mod payloads;
mod plan;
mod random;
mod reached;
mod reader;
mod reader_mixture;
mod reader_numbers;
mod reason;
mod refusal;
mod refused;
mod replay;
mod samples;
mod scene;
mod script;
mod settings;
mod sheet_mark;
mod slot;
mod slot_mixture;
mod status_numbers;
mod streams;
mod sync_list;
mod unreadable;
mod vectors;
mod wire;

use std::error::Error;
use std::io::{self, BufWriter, Read, Write};
use std::path::Path;
use std::process::ExitCode;
use std::{env, fs};

use errors::Small;
use replay::Replay;
use script::Letters;

const USAGE: &str =
    "usage: second scripts DIR | random SEED COUNT | replay | random-frames SEED COUNT | frames | errors DIR";

type Done = Result<(), Box<dyn Error>>;

fn main() -> ExitCode {
    let arguments: Vec<String> = env::args().skip(1).collect();
    let arguments: Vec<&str> = arguments.iter().map(String::as_str).collect();
    let done = match arguments[..] {
        ["scripts", directory] => write_scripts(Path::new(directory)),
        ["random", seed, count] => write_random(mixture::script, seed, count),
        ["replay"] => replay_input(Letters::All),
        ["random-frames", seed, count] => write_random(mixture::frames_script, seed, count),
        ["frames"] => replay_input(Letters::Frames),
        ["errors", directory] => write_errors(Path::new(directory)),
        _ => Err(USAGE.into()),
    };
    if let Err(error) = done {
        eprintln!("second: {error}");
        return ExitCode::FAILURE;
    }
    ExitCode::SUCCESS
}

fn write_scripts(directory: &Path) -> Done {
    let (vectors, frames) = (vectors::build()?, vectors::build_frames()?);
    fs::create_dir_all(directory)?;
    fs::write(directory.join("stdin"), &vectors.script)?;
    fs::write(directory.join("stdout"), &vectors.text)?;
    write_ends(&directory.join("ends"), errors::one_of_each().into())?;
    write_bench_inputs(&directory.join("bench"))?;
    // What a program can be given that knows the commands of frames alone.
    fs::write(directory.join("frames.stdin"), &frames.script)?;
    fs::write(directory.join("frames.stdout"), &frames.text)?;
    write_ends(&directory.join("frames-ends"), errors::of_frames())?;
    println!("{}\n{}", vectors.summary, frames.summary);
    Ok(())
}

/// Small scripts by their names.
fn write_ends(directory: &Path, ends: Vec<(String, Small)>) -> Done {
    fs::create_dir_all(directory)?;
    for (name, small) in ends {
        fs::write(directory.join(format!("{name}.stdin")), &small.script)?;
        fs::write(directory.join(format!("{name}.stdout")), &small.text)?;
    }
    Ok(())
}

/// Inputs for the bench program, also those that are too long for a script.
fn write_bench_inputs(directory: &Path) -> Done {
    fs::create_dir_all(directory)?;
    for input in bench_inputs::all() {
        fs::write(directory.join(format!("{}.stdin", input.name)), &input.bytes)?;
        fs::write(directory.join(format!("{}.stdout", input.name)), input.text)?;
    }
    Ok(())
}

fn write_random(script: fn(u64, usize) -> Vec<u8>, seed: &str, count: &str) -> Done {
    let script = script(seed.parse()?, count.parse()?);
    io::stdout().write_all(&script)?;
    Ok(())
}

fn replay_input(letters: Letters) -> Done {
    let mut script = Vec::new();
    io::stdin().read_to_end(&mut script)?;
    let mut output = BufWriter::new(io::stdout().lock());
    for outcome in Replay::by(letters, &script) {
        writeln!(output, "{}", outcome.line())?;
    }
    output.flush()?;
    Ok(())
}

fn write_errors(directory: &Path) -> Done {
    fs::create_dir_all(directory)?;
    for (number, small) in errors::all().iter().enumerate() {
        fs::write(directory.join(format!("{number:03}.script")), &small.script)?;
        fs::write(directory.join(format!("{number:03}.lines")), &small.text)?;
    }
    Ok(())
}
