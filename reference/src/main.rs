use reference::file::Mark;
use reference::{
    generator, held_map, lists, map_program, program, random_file, unsound_generator, Shape,
};
use std::io::{self, Read, Write};
use std::process::ExitCode;
use std::str::FromStr;

const USAGE: &str = "usage: reference program < FILE
       reference map < FILE
       reference lists < SCRIPT
       reference held < SCRIPT
       reference random SEED NX NY K COUNT
       reference random-unsound SEED NX NY K COUNT
       reference field SEED NX NY K [KIND]
       reference field-plum SEED NX NY K [KIND]";

/// Refusals are answers and are printed with success; only a malformed
/// command or script fails.
fn main() -> ExitCode {
    let words: Vec<String> = std::env::args().skip(1).collect();
    match answer(&words) {
        Ok(bytes) => match io::stdout().write_all(&bytes) {
            Ok(()) => ExitCode::SUCCESS,
            Err(_) => ExitCode::from(1),
        },
        Err(what) => {
            eprintln!("{what}");
            ExitCode::from(2)
        }
    }
}

fn answer(words: &[String]) -> Result<Vec<u8>, String> {
    let words: Vec<&str> = words.iter().map(String::as_str).collect();
    match words[..] {
        ["program"] => Ok(program::output(&input()?).into_bytes()),
        ["map"] => Ok(map_program::output(&input()?).into_bytes()),
        ["lists"] => Ok(lists::output(&script()?)?.into_bytes()),
        ["held"] => Ok(held_map::output(&script()?)?.into_bytes()),
        ["random", seed, nx, ny, k, count] => {
            random(generator::script, number(seed)?, [nx, ny, k], count)
        }
        ["random-unsound", seed, nx, ny, k, count] => {
            random(unsound_generator::script, number(seed)?, [nx, ny, k], count)
        }
        ["field", seed, nx, ny, k] => file(Mark::Plu2, number(seed)?, [nx, ny, k], None),
        ["field", seed, nx, ny, k, kind] => {
            file(Mark::Plu2, number(seed)?, [nx, ny, k], Some(kind))
        }
        ["field-plum", seed, nx, ny, k] => file(Mark::Plum, number(seed)?, [nx, ny, k], None),
        ["field-plum", seed, nx, ny, k, kind] => {
            file(Mark::Plum, number(seed)?, [nx, ny, k], Some(kind))
        }
        _ => Err(USAGE.to_string()),
    }
}

type Generator = fn(u64, usize, usize, usize, usize) -> Result<String, u8>;

fn random(made: Generator, seed: u64, size: [&str; 3], count: &str) -> Result<Vec<u8>, String> {
    let [nx, ny, k] = size;
    let script = made(seed, number(nx)?, number(ny)?, number(k)?, number(count)?);
    Ok(script.map_err(no_shape)?.into_bytes())
}

/// A field file, sound or of a kind of damage.
fn file(mark: Mark, seed: u64, size: [&str; 3], kind: Option<&str>) -> Result<Vec<u8>, String> {
    let [nx, ny, k] = size;
    let (nx, ny, k) = (number(nx)?, number(ny)?, number(k)?);
    let shape = Shape::checked(nx, ny, k).map_err(no_shape)?;
    let mut bytes = random_file::sound_file_as(mark, seed, nx, ny, k).map_err(no_shape)?;
    if let Some(kind) = kind {
        random_file::damaged(&mut bytes, shape, kind, seed)?;
    }
    Ok(bytes)
}

fn no_shape(refusal: u8) -> String {
    format!("refused {refusal}: nothing to make for this shape")
}

fn number<T: FromStr>(word: &str) -> Result<T, String> {
    word.parse()
        .map_err(|_| format!("bad number {word}\n{USAGE}"))
}

fn script() -> Result<String, String> {
    String::from_utf8(input()?).map_err(|_| "the script is not text".to_string())
}

fn input() -> Result<Vec<u8>, String> {
    let mut bytes = Vec::new();
    let read = io::stdin().read_to_end(&mut bytes);
    read.map_err(|what| what.to_string())?;
    Ok(bytes)
}
