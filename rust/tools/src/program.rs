//! The proved program: where it is, and a run of it taken apart.

use std::path::{Path, PathBuf};
use std::process::{Command, Stdio};
use std::{env, fs, io};

/// What the program printed.
pub enum Printed {
    Refused { number: u64, place: usize },
    Ran(Run),
}

/// A run: its numbers, the emissions and the result in one, and each function with its applications.
pub struct Run {
    pub answer: u64,
    pub function: usize,
    pub steps: u64,
    /// The emissions and then the result.
    pub body: Vec<u8>,
    pub profile: Profile,
}

/// Each function's name and applications, in the table's order.
pub type Profile = Vec<(String, u64)>;

/// The program that REFAL0 names, or the one beside this command.
fn find() -> Result<PathBuf, String> {
    let beside = env::current_exe().ok().and_then(|path| Some(path.parent()?.join("refal0")));
    let named = env::var_os("REFAL0").map(PathBuf::from).or(beside).ok_or("no program")?;
    if named.is_file() {
        Ok(named)
    } else {
        Err(format!("no program at {}: run tools/build program first", named.display()))
    }
}

/// A folder of its own for the table, since the program reads `table.rf` of the folder it is started in.
struct Folder(PathBuf);

impl Folder {
    fn new() -> io::Result<Folder> {
        let name = |number: u32| env::temp_dir().join(format!("refal0-{}-{number}", std::process::id()));
        // one that was left behind by another process of the same number is passed over
        let made = (0..100).map(name).find_map(|path| match fs::create_dir(&path) {
            Err(error) if error.kind() == io::ErrorKind::AlreadyExists => None,
            made => Some(made.map(|()| Folder(path))),
        });
        made.unwrap_or(Err(io::ErrorKind::AlreadyExists.into()))
    }
}

impl Drop for Folder {
    fn drop(&mut self) {
        // nothing is left to do if it can't be removed
        let _ = fs::remove_dir_all(&self.0);
    }
}

/// Runs the program on a table and a text.
pub fn run(table: &[u8], text: &[u8]) -> Result<Printed, String> {
    let program = find()?.canonicalize().map_err(|error| error.to_string())?;
    let folder = Folder::new().map_err(|error| format!("no folder for the table: {error}"))?;
    let output = started(&program, &folder.0, table, text).map_err(|error| format!("the program failed: {error}"))?;
    parsed(&output).ok_or_else(|| String::from("the program printed something else than a run or a refusal"))
}

fn started(program: &Path, folder: &Path, table: &[u8], text: &[u8]) -> io::Result<Vec<u8>> {
    fs::write(folder.join("table.rf"), table)?;
    fs::write(folder.join("text"), text)?;
    let sheet = fs::File::open(folder.join("text"))?;
    let output = Command::new(program).current_dir(folder).stdin(sheet).stderr(Stdio::inherit()).output()?;
    if output.status.success() { Ok(output.stdout) } else { Err(io::Error::other(output.status.to_string())) }
}

fn parsed(output: &[u8]) -> Option<Printed> {
    let end = output.iter().position(|&byte| byte == 10)?;
    let first = std::str::from_utf8(&output[..end]).ok()?;
    let numbers: Vec<u64> = first.split(' ').map(|word| word.parse().ok()).collect::<Option<_>>()?;
    match numbers[..] {
        [number, place] => Some(Printed::Refused { number, place: place as usize }),
        [answer, function, steps] => {
            let (body, profile) = separated(&output[end + 1..])?;
            Some(Printed::Ran(Run { answer, function: function as usize, steps, body: body.to_vec(), profile }))
        }
        _ => None,
    }
}

/// The body of a run without the line end that the program adds, and the lines of the functions. The last line is the
/// total. Before it comes a line for each function, which begins with the function's number: the last of them tells how
/// many there are. A table of no functions has none.
fn separated(rest: &[u8]) -> Option<(&[u8], Profile)> {
    let lines: Vec<&[u8]> = rest.strip_suffix(b"\n")?.split(|&byte| byte == 10).collect();
    let (_, before) = lines.split_last()?;
    let entry = |line: &&[u8]| {
        let mut words = std::str::from_utf8(line).ok()?.split(' ');
        let number: usize = words.next()?.parse().ok()?;
        Some((number, words.next()?.to_string(), words.next()?.parse::<u64>().ok()?))
    };
    let functions = before.last().and_then(entry).map_or(0, |(number, ..)| number);
    let (body, profile) = before.split_at(before.len().checked_sub(functions)?);
    let length = body.iter().map(|line| line.len() + 1).sum::<usize>().checked_sub(1)?;
    let profile = profile.iter().map(|line| entry(line).map(|(_, name, count)| (name, count)));
    Some((&rest[..length], profile.collect::<Option<_>>()?))
}

#[cfg(test)]
mod tests {
    use super::{Printed, parsed};

    #[test]
    fn a_run_is_taken_apart() {
        let output = b"0 0 3\nEmitA 1 F 2\nx\n1 F 2\n2 G 1\ntotal 3\n";
        let Some(Printed::Ran(run)) = parsed(output) else { panic!("a run") };
        assert_eq!((run.answer, run.function, run.steps), (0, 0, 3));
        assert_eq!(run.body, b"EmitA 1 F 2\nx");
        assert_eq!(run.profile, [(String::from("F"), 2), (String::from("G"), 1)]);
    }

    #[test]
    fn a_table_of_no_functions_has_no_lines() {
        let Some(Printed::Ran(run)) = parsed(b"9 0 0\n\ntotal 0\n") else { panic!("a run") };
        assert_eq!((run.answer, run.body.len(), run.profile.len()), (9, 0, 0));
    }

    #[test]
    fn a_refusal_has_two_numbers() {
        assert!(matches!(parsed(b"3 18\n"), Some(Printed::Refused { number: 3, place: 18 })));
        assert!(parsed(b"").is_none());
    }
}
