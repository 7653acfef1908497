//! The names of processes, by which a picture labels their lines, and words call them.

const LONGEST: usize = 24;

/// A name for each process, in their order, or none at all.
pub struct Names(Vec<String>);

impl Names {
    pub fn none() -> Names {
        Names(Vec::new())
    }

    /// Each name is 1 to 24 characters that a picture can hold.
    pub fn new(names: Vec<String>) -> Result<Names, String> {
        for name in &names {
            let length = name.chars().count();
            if length == 0 {
                return Err("an empty name".to_string());
            }
            if length > LONGEST {
                return Err(format!("a name of {length} characters; at most {LONGEST}"));
            }
            if !name.chars().all(is_shown) {
                return Err("a name with a control character".to_string());
            }
        }
        Ok(Names(names))
    }

    /// Names are for all processes or for none.
    pub fn fit(&self, processes: usize) -> Result<(), String> {
        if self.0.is_empty() || self.0.len() == processes {
            return Ok(());
        }
        let names = counted(self.0.len(), "name", "names");
        Err(format!("{names} for {}", counted(processes, "process", "processes")))
    }

    /// The labels with names.
    pub fn labels(&self) -> impl Iterator<Item = String> + '_ {
        (0..self.0.len()).map(|process| self.label(process as u8))
    }

    /// What a process is called in words.
    pub fn name(&self, process: u8) -> String {
        match self.0.get(usize::from(process)) {
            Some(name) => name.clone(),
            None => format!("process {process}"),
        }
    }

    /// What stands at the line of a process.
    pub fn label(&self, process: u8) -> String {
        match self.0.get(usize::from(process)) {
            Some(name) => format!("{process} {name}"),
            None => format!("process {process}"),
        }
    }
}

/// No control character, and none that XML does not have.
fn is_shown(character: char) -> bool {
    !character.is_control() && !matches!(character, '\u{FFFE}' | '\u{FFFF}')
}

fn counted(number: usize, one: &str, more: &str) -> String {
    format!("{number} {}", if number == 1 { one } else { more })
}
