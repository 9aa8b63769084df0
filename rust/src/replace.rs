//! How a file is replaced as a whole.
#![forbid(unsafe_code)]

use std::fs::{self, File, OpenOptions, Permissions};
use std::hash::{BuildHasher, Hasher, RandomState};
use std::io::{self, Write};
use std::os::unix::fs::{fchown, MetadataExt, OpenOptionsExt, PermissionsExt};
use std::path::{Path, PathBuf};

/// At most so many names are tried for a new file, and so many links are followed.
const TRIES: usize = 40;

/// Replaces the file at a path by one with these bytes; a device or a pipe is written to.
///
/// A new file beside it is handed to the disk, takes over from the one that it replaces, and then takes its name. On an
/// error the old file is unchanged.
pub(crate) fn replace(path: &Path, bytes: &[u8]) -> io::Result<()> {
    let target = behind_links(path)?;
    if fs::metadata(&target).is_ok_and(|there| !there.is_file()) {
        return OpenOptions::new().write(true).open(&target)?.write_all(bytes);
    }
    let folder = folder_of(&target);
    let (file, beside) = create_in(folder)?;
    let done = put_in_place(file, &beside, &target, bytes);
    if done.is_err() {
        // The error of the call says more than one of this.
        let _ = fs::remove_file(&beside);
        return done;
    }
    // The new name lasts if the system crashes once the folder is synced. The file is replaced already, so if this can't
    // be done, as where the folder can't be read, that is no error.
    let _ = File::open(folder).and_then(|opened| opened.sync_all());
    Ok(())
}

/// The path without links at its end. There need not be a file.
fn behind_links(path: &Path) -> io::Result<PathBuf> {
    let mut target = path.to_owned();
    for _ in 0..TRIES {
        if !fs::symlink_metadata(&target).is_ok_and(|there| there.is_symlink()) {
            return Ok(target);
        }
        target = folder_of(&target).join(fs::read_link(&target)?);
    }
    // (this has the system's error if the links lead to themselves)
    fs::metadata(path).map(|_| target)
}

/// The folder of a path.
fn folder_of(path: &Path) -> &Path {
    path.parent().filter(|folder| !folder.as_os_str().is_empty()).unwrap_or(Path::new("."))
}

/// A new file in a folder, which nobody else can read, and its path.
fn create_in(folder: &Path) -> io::Result<(File, PathBuf)> {
    for _ in 0..TRIES {
        let random = RandomState::new().build_hasher().finish();
        let path = folder.join(format!("hdt-unfinished-{random:016x}"));
        match OpenOptions::new().write(true).create_new(true).mode(0o600).open(&path) {
            Err(error) if error.kind() == io::ErrorKind::AlreadyExists => {}
            opened => return Ok((opened?, path)),
        }
    }
    Err(io::ErrorKind::AlreadyExists.into())
}

/// Writes a new file and renames it.
fn put_in_place(mut file: File, beside: &Path, target: &Path, bytes: &[u8]) -> io::Result<()> {
    file.write_all(bytes)?;
    file.sync_all()?;
    take_over(&file, target)?;
    fs::rename(beside, target)
}

/// Gives a new file, which nobody else can read, the group and the permissions of the file that it will replace.
///
/// The setuid, setgid and sticky bits are not taken over. If this process may not give the group, the group that the file
/// has then and others get what both had: so nobody who was kept out is let in. (The group is given first, as the
/// permissions of a group would be those of another one meanwhile.) If there is no file, the umask decides.
fn take_over(file: &File, target: &Path) -> io::Result<()> {
    let mode = match fs::metadata(target) {
        Ok(replaced) => {
            let _ = fchown(file, None, Some(replaced.gid()));
            let mode = replaced.mode() & 0o777;
            if file.metadata()?.gid() == replaced.gid() {
                mode
            } else {
                let both = mode >> 3 & mode & 0o7;
                mode & 0o700 | both << 3 | both
            }
        }
        Err(error) if error.kind() == io::ErrorKind::NotFound => 0o666 & !umask(),
        Err(error) => return Err(error),
    };
    file.set_permissions(Permissions::from_mode(mode))
}

/// The process's umask, without changing it, as another thread may create a file meanwhile.
///
/// Where the system doesn't say, as without /proc, it is the strictest one.
fn umask() -> u32 {
    let status = fs::read("/proc/self/status").unwrap_or_default();
    let digits = String::from_utf8_lossy(&status)
        .lines()
        .find_map(|line| u32::from_str_radix(line.strip_prefix("Umask:")?.trim(), 8).ok());
    digits.unwrap_or(0o077)
}
