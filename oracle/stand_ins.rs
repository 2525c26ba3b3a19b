// What the original's two files name from modules that are not carried. No call that is compared reads any of it.

/// How tied notes are joined: a field of the Rust's track, left out of the port.
#[derive(Debug)]
pub enum TieMode {
    Port,
}

/// A script value, of which `Event::sysex` asks the number; that constructor is left out.
pub struct SValue(isize);

impl SValue {
    pub fn to_i(&self) -> isize {
        self.0
    }
}
