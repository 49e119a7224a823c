//! A zone in a mapped file, whose process is killed at any instruction.

pub mod account;
pub mod journal;
pub mod map;
pub mod parent;
pub mod worker;
pub mod zone;

use std::io;
use std::path::PathBuf;

use journal::Journal;
use map::Map;
use zone::Zone;

/// What the parent and its workers share: where the files are, and the zone's size.
#[derive(Clone, Debug)]
pub struct Shared {
    /// The files' path, without their endings.
    pub file: PathBuf,
    pub n: u64,
    pub cpus: u64,
}

impl Shared {
    /// Maps the zone's file.
    pub fn zone(&self) -> io::Result<Zone> {
        let map = Map::open(&self.path("zone"), Zone::bytes(self.n))?;
        Ok(Zone::new(map, self.n, self.cpus))
    }

    /// Maps the journal's file.
    pub fn journal(&self) -> io::Result<Map> {
        Map::open(&self.path("journal"), Journal::bytes(self.cpus))
    }

    /// Removes both files; one that is not there is no matter.
    pub fn remove(&self) {
        for ending in ["zone", "journal"] {
            let _ = std::fs::remove_file(self.path(ending));
        }
    }

    /// The path of one file: its ending comes behind whatever the path is.
    fn path(&self, ending: &str) -> PathBuf {
        let mut path = self.file.clone().into_os_string();
        path.push(".");
        path.push(ending);
        PathBuf::from(path)
    }
}
