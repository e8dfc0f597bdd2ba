//! Named states of a listing: up to eight tapes, each under a name of 8 bytes.
use crate::ffi;
use crate::listing::Listing;
use crate::refusal::Refusal;
use crate::tape;

/// The name of a state: any 8 bytes.
pub type Name = [u8; 8];

/// A store of named states. Its bytes can be kept in a file; docs/TAPE.md says what they are.
#[derive(Debug, Clone, PartialEq, Eq)]
pub struct Store {
    bytes: Vec<u8>,
}

impl Default for Store {
    fn default() -> Store {
        Store::new()
    }
}

impl Store {
    /// A store that holds nothing.
    pub fn new() -> Store {
        Store { bytes: vec![0; ffi::STORE] }
    }

    /// The store of some bytes. Whether they are one is asked by each call: 2 of fewer than 524,288 bytes, 22 of damaged ones.
    pub fn from_bytes(bytes: Vec<u8>) -> Store {
        Store { bytes }
    }

    /// Its bytes.
    pub fn as_bytes(&self) -> &[u8] {
        &self.bytes
    }

    /// Saves a listing under a name, in the place of what is held under it.
    ///
    /// # Errors
    ///
    /// 2 and 22; the tape's questions; 21: the name is new, and eight states are held.
    pub fn save(&mut self, name: &Name, listing: &Listing) -> Result<(), Refusal> {
        self.save_tape(name, &tape::write(listing)?)
    }

    /// Saves a tape under a name, as [`Store::save`].
    ///
    /// # Errors
    ///
    /// Those of [`Store::save`].
    pub fn save_tape(&mut self, name: &Name, tape: &[u8]) -> Result<(), Refusal> {
        done(ffi::save(&mut self.bytes, name, tape), tape).map(drop)
    }

    /// The listing that is held under a name.
    ///
    /// # Errors
    ///
    /// 2 and 22; 20: none is held. Of a store that other programs wrote also 3 to 8: what is held is no tape.
    pub fn restore(&self, name: &Name) -> Result<Listing, Refusal> {
        tape::read(&self.restore_tape(name)?)
    }

    /// The tape that is held under a name, unasked.
    ///
    /// # Errors
    ///
    /// 2 and 22; 20: none is held.
    pub fn restore_tape(&self, name: &Name) -> Result<Vec<u8>, Refusal> {
        let mut out = vec![0; ffi::RESTORED];
        let length = done(ffi::restore(&self.bytes, name, &mut out), &[])?;
        out.truncate(length as usize);
        Ok(out)
    }

    /// Deletes what is held under a name.
    ///
    /// # Errors
    ///
    /// 2 and 22; 20: none is held.
    pub fn delete(&mut self, name: &Name) -> Result<(), Refusal> {
        done(ffi::delete(&mut self.bytes, name), &[]).map(drop)
    }
}

/// The value of an answer, or its refusal.
fn done(answer: ffi::Answer, tape: &[u8]) -> Result<u64, Refusal> {
    if answer.refusal != 0 {
        return Err(Refusal::answered(answer.refusal, answer.place, tape));
    }
    Ok(answer.value)
}
