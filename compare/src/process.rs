//! The programs, compared as processes: each is run in a folder of its own, and what it prints is held to what the
//! papers say.

use std::path::Path;
use std::process::Command;

use crate::harness::Harness;
use crate::image::Number;
use crate::random::Random;

const NAMES: [&str; 3] = ["drive.hex", "state.hex", "target.hex"];

/// The contents of drive.hex, state.hex and target.hex; None is a missing file, which is as an empty one.
#[derive(Clone)]
pub struct Folder {
    pub drive: Option<Vec<u8>>,
    pub state: Option<Vec<u8>>,
    pub target: Option<Vec<u8>>,
}

impl Folder {
    fn files(&self) -> [(&'static str, &Option<Vec<u8>>); 3] {
        let [drive, state, target] = NAMES;
        [(drive, &self.drive), (state, &self.state), (target, &self.target)]
    }

    pub fn contents(&self) -> [&[u8]; 3] {
        self.files().map(|(_, content)| content.as_deref().unwrap_or_default())
    }
}

/// Folders with what a program prints for them.
pub type Table = Vec<(Folder, String)>;

pub struct Program {
    pub name: &'static str,
    /// The environment variable with its path.
    pub variable: &'static str,
    /// The text that it prints, or the number of its refusal.
    pub print: fn(&Folder) -> Result<String, Number>,
    pub table: fn() -> Table,
    pub random_folder: fn(&mut Random, u64) -> Folder,
}

impl Program {
    pub fn expected(&self, folder: &Folder) -> (Number, String) {
        match (self.print)(folder) {
            Ok(text) => (0, text),
            Err(number) => (number, format!("refused {number:02}\n")),
        }
    }

    /// The table's folders first, then random ones.
    pub fn run(&self, harness: &mut Harness, path: &Path, place: &Path, index: u64, random: &mut Random) {
        let mut table = (self.table)();
        let folder = match (index as usize).checked_sub(table.len()) {
            None => table.swap_remove(index as usize).0,
            Some(index) => (self.random_folder)(random, index as u64),
        };
        let (number, text) = self.expected(&folder);
        let found = observed(path, place, &folder);
        harness.meet(self.name, number);
        harness.check(found == text.as_bytes(), || {
            let files: String =
                folder.files().map(|(name, content)| format!("  {name}\n    {}\n", show(content))).concat();
            format!("{files}  expected {text:?}\n  printed  {}", found.escape_ascii())
        });
    }

    /// Acts as the program in the current folder, so that the comparison of processes can be tried on itself.
    pub fn act(&self) {
        let [drive, state, target] = NAMES.map(|name| std::fs::read(name).ok());
        print!("{}", self.expected(&Folder { drive, state, target }).1);
    }
}

/// What a program prints in a folder with these files.
fn observed(path: &Path, place: &Path, folder: &Folder) -> Vec<u8> {
    for (name, content) in folder.files() {
        let file = place.join(name);
        match content {
            Some(content) => std::fs::write(file, content).expect("the folder can be written"),
            None => drop(std::fs::remove_file(file)),
        }
    }
    let output = Command::new(path).current_dir(place).output().expect("the program can be run");
    output.stdout
}

fn show(content: &Option<Vec<u8>>) -> String {
    match content {
        Some(content) => content.escape_ascii().to_string().replace("\\n", "\n    "),
        None => "(missing)".to_string(),
    }
}
