//! Reads, plays, tells and draws sketches: `sketch [--rolls DIR] FILE...`.
use model::sketch::story::Story;
use model::sketch::{lines, notation, picture, play};
use std::ffi::OsString;
use std::fs;
use std::io::{self, Write};
use std::path::{Path, PathBuf};
use std::process::ExitCode;

const USAGE: &str = "usage: ./sketch FILE.sketch... writes FILE.txt, the lines, and FILE.svg, the picture, beside each;
       ./sketch --rolls DIR FILE.sketch also writes each bench's list of calls, by the rules, as DIR/bench-N.roll";

/// The sketches to show, and where to leave the rolls.
struct Task {
    files: Vec<PathBuf>,
    rolls: Option<PathBuf>,
}

fn main() -> ExitCode {
    let arguments: Vec<OsString> = std::env::args_os().skip(1).collect();
    if arguments.iter().any(|word| word == "--help" || word == "-h") {
        say(&format!("{USAGE}\n"));
        return ExitCode::SUCCESS;
    }
    let task = match Task::of(&arguments) {
        Ok(task) => task,
        Err(fault) => {
            eprintln!("sketch: {fault}\n{USAGE}");
            return ExitCode::from(2);
        }
    };
    let mut is_well = true;
    for file in &task.files {
        match show(file, task.rolls.as_deref()) {
            Ok(said) => say(&said),
            Err(fault) => {
                eprintln!("{}: {fault}", file.display());
                is_well = false;
            }
        }
    }
    if is_well {
        ExitCode::SUCCESS
    } else {
        ExitCode::FAILURE
    }
}

/// Prints; a reader that has seen enough and went away is no fault.
fn say(text: &str) {
    drop(io::stdout().write_all(text.as_bytes()));
}

impl Task {
    fn of(arguments: &[OsString]) -> Result<Task, String> {
        let (rolls, files) = match arguments {
            [option, folder, files @ ..] if option == "--rolls" => (Some(PathBuf::from(folder)), files),
            files => (None, files),
        };
        let files: Vec<PathBuf> = files.iter().map(PathBuf::from).collect();
        if let Some(other) = files.iter().find(|file| file.extension().is_none_or(|end| end != "sketch")) {
            return Err(format!("`{}` does not end in .sketch", other.display()));
        }
        match files.len() {
            0 => Err("no sketch is named".to_string()),
            1 => Ok(()),
            _ if rolls.is_some() => Err("--rolls takes one sketch".to_string()),
            _ => Ok(()),
        }?;
        Ok(Task { files, rolls })
    }
}

/// Writes what there is to see of a sketch; what is to be printed of it.
fn show(file: &Path, rolls: Option<&Path>) -> Result<String, String> {
    let text = fs::read_to_string(file).map_err(|error| error.to_string())?;
    let schedule = notation::read(&text).map_err(|fault| fault.to_string())?;
    let story = play::play(&schedule).map_err(|overlong| overlong.to_string())?;
    let mut written = vec![file.with_extension("txt"), file.with_extension("svg")];
    write(&written[0], lines::tell(&story).as_bytes())?;
    write(&written[1], picture::draw(&story).as_bytes())?;
    if let Some(folder) = rolls {
        written.extend(write_rolls(folder, &story)?);
    }
    let names = written.iter().map(|path| format!("  wrote {}\n", path.display()));
    Ok(format!(
        "{}\n{}{}",
        file.display(),
        lines::verdict(&story),
        names.collect::<String>()
    ))
}

/// Each bench's list of calls by the rules, which the roll's program can run.
fn write_rolls(folder: &Path, story: &Story) -> Result<Vec<PathBuf>, String> {
    fs::create_dir_all(folder).map_err(|error| at(folder, &error))?;
    let mut written = vec![];
    for bench in story.runs.first().into_iter().flat_map(|run| &run.benches) {
        let path = folder.join(format!("bench-{}.roll", bench.own));
        write(&path, &bench.roll)?;
        written.push(path);
    }
    Ok(written)
}

fn write(path: &Path, bytes: &[u8]) -> Result<(), String> {
    fs::write(path, bytes).map_err(|error| at(path, &error))
}

fn at(path: &Path, error: &io::Error) -> String {
    format!("{}: {error}", path.display())
}
