//! What differs between the archive and the second implementation, and where.

use std::fmt::{Debug, Display, Formatter, Result as Written};

pub struct Difference(pub String);

impl Display for Difference {
    fn fmt(&self, f: &mut Formatter<'_>) -> Written {
        f.write_str(&self.0)
    }
}

/// The archive's value is the second implementation's.
pub fn same<T: PartialEq + Debug>(what: &str, archive: T, second: T) -> Result<(), Difference> {
    if archive == second {
        return Ok(());
    }
    Err(Difference(format!("{what}: archive {archive:?}, second implementation {second:?}")))
}
