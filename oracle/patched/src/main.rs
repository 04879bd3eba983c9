//! oracle run < CASE       prints the answer to a library case
//! oracle check FOLDER     answers every case of a folder anew and compares with the answer beside it
//! oracle sheets FOLDER    the same for the sheets of the preview program
//! oracle calls FOLDER     prints the list of calls, of the cases in a folder, that the port's program `calls_replayed` reads
//! oracle answers FOLDER   prints what that program must print
//! oracle text             prints the patched text as it is compiled
use oracle::calls;
use oracle::cases::{show, Case};
use oracle::sheets::printed;
use std::error::Error;
use std::io::Read;
use std::path::Path;
use std::{env, fs, process};

fn run(bytes: &[u8], hashed: bool) -> Result<String, Box<dyn Error>> {
    let case = Case::read(bytes).ok_or("this is no case")?;
    Ok(show(&oracle::answer(&case.points(), &case.config, &case.room), hashed))
}

fn from_standard_input() -> Result<(), Box<dyn Error>> {
    let mut bytes = Vec::new();
    std::io::stdin().read_to_end(&mut bytes)?;
    print!("{}", run(&bytes, false)?);
    Ok(())
}

/// What stands beside each file of a folder is what `made` makes of it, from its bytes and from what stands there.
fn compare(
    folder: &Path,
    kind: &str,
    made: impl Fn(&[u8], &str) -> Result<String, Box<dyn Error>>,
) -> Result<(), Box<dyn Error>> {
    let (mut agree, mut differ) = (0, 0);
    for entry in fs::read_dir(folder)? {
        let path = entry?.path();
        if path.extension().is_none_or(|e| e != kind) {
            continue;
        }
        let wanted = fs::read_to_string(path.with_extension("out"))?;
        if made(&fs::read(&path)?, &wanted)? == wanted {
            agree += 1;
        } else {
            differ += 1;
            println!("differs: {}", path.display());
        }
    }
    println!("{agree} agree, {differ} differ");
    if differ == 0 && agree > 0 {
        Ok(())
    } else {
        Err("the oracle does not give the recorded answers".into())
    }
}

fn main() {
    let words: Vec<String> = env::args().skip(1).collect();
    let done = match words.iter().map(String::as_str).collect::<Vec<_>>()[..] {
        ["run"] => from_standard_input(),
        ["check", folder] => {
            compare(Path::new(folder), "case", |case, wanted| run(case, wanted.contains("hash-vertices")))
        }
        ["sheets", folder] => compare(Path::new(folder), "in", |sheet, _| Ok(printed(sheet))),
        ["calls", folder] => calls::list(Path::new(folder)).map(|text| print!("{text}")),
        ["answers", folder] => calls::answers(Path::new(folder)).map(|text| print!("{text}")),
        ["text"] => {
            print!("{}", oracle::PATCHED_TEXT);
            Ok(())
        }
        _ => Err("usage: oracle run < CASE | oracle check FOLDER | oracle sheets FOLDER | oracle calls FOLDER | oracle answers FOLDER | oracle text".into()),
    };
    if let Err(error) = done {
        eprintln!("oracle: {error}");
        process::exit(1);
    }
}
