//! Where the program is run: which executable, with which limit of time, and a folder of its own for each run.
use std::fs;
use std::io;
use std::os::unix::fs::PermissionsExt;
use std::path::{Path, PathBuf};
use std::sync::atomic::{AtomicUsize, Ordering};
use std::time::Duration;

/// The time that a run may take.
pub const LIMIT: Duration = Duration::from_secs(10);

/// How many folders were made so far, so that each has another name.
static FOLDERS: AtomicUsize = AtomicUsize::new(0);

/// The executable under test, the library that makes its calls short or lets them fail, and the time that a run may
/// take.
#[derive(Clone, Debug)]
pub struct Bench {
    pub program: PathBuf,
    pub interposer: PathBuf,
    pub limit: Duration,
}

impl Bench {
    /// A bench for this executable.
    pub fn new(program: &Path, interposer: &Path) -> io::Result<Bench> {
        Ok(Bench { program: program.canonicalize()?, interposer: interposer.to_path_buf(), limit: LIMIT })
    }
}

/// A folder that is removed with all that is in it when it is no longer used.
#[derive(Debug)]
pub struct Room {
    pub path: PathBuf,
}

impl Room {
    /// A new folder, which every user may enter.
    pub fn new() -> io::Result<Room> {
        let number = FOLDERS.fetch_add(1, Ordering::SeqCst);
        let path = std::env::temp_dir().join(format!("tally-{}-{number}", std::process::id()));
        fs::create_dir(&path)?;
        let room = Room { path };
        fs::set_permissions(&room.path, fs::Permissions::from_mode(0o755))?;
        Ok(room)
    }

    /// What has this name in the folder.
    pub fn at(&self, name: &str) -> PathBuf {
        self.path.join(name)
    }
}

impl Drop for Room {
    fn drop(&mut self) {
        // Nothing depends on it: a folder that cannot be removed is left to the system.
        let _ = fs::remove_dir_all(&self.path);
    }
}
