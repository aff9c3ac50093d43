//! Files with keys of sessions, and folders of such files: for their owner only, whatever the umask.

use crate::files::remove_if_there;
use std::fs::{self, DirBuilder, File, OpenOptions, Permissions};
use std::io::{self, ErrorKind, Write};
use std::os::unix::fs::{DirBuilderExt, OpenOptionsExt, PermissionsExt};
use std::path::Path;

/// The mode of such a file.
pub const FILE: u32 = 0o600;
const FOLDER: u32 = 0o700;

/// Makes the folder, and those above it, if they are missing.
pub fn make_folder(path: &Path) -> io::Result<()> {
    DirBuilder::new().recursive(true).mode(FOLDER).create(path)
}

/// Takes what others may do to a folder from them.
pub fn close_folder(path: &Path) -> io::Result<()> {
    fs::set_permissions(path, Permissions::from_mode(FOLDER))
}

/// The same of a file, if it is there.
pub fn close_file(path: &Path) -> io::Result<()> {
    match fs::set_permissions(path, Permissions::from_mode(FILE)) {
        Err(fault) if fault.kind() == ErrorKind::NotFound => Ok(()),
        other => other,
    }
}

/// An empty file of this name that was not there. What a link of this name leads to is not written.
pub fn create(path: &Path) -> io::Result<File> {
    remove_if_there(path)?;
    OpenOptions::new().create_new(true).write(true).mode(FILE).open(path)
}

/// A file with this text.
pub fn write(path: &Path, text: &[u8]) -> io::Result<File> {
    let mut file = create(path)?;
    file.write_all(text)?;
    Ok(file)
}

#[cfg(test)]
mod tests {
    use super::*;

    fn mode(path: &Path) -> u32 {
        fs::metadata(path).unwrap().permissions().mode() & 0o777
    }

    #[test]
    fn nobody_else_may_do_anything() {
        let folder = std::env::temp_dir().join(format!("wozgirt-private-{}", std::process::id()));
        let _ = fs::remove_dir_all(&folder);
        let (file, old) = (folder.join("in/file"), folder.join("in/old"));
        make_folder(&folder.join("in")).unwrap();
        fs::set_permissions(&folder, Permissions::from_mode(0o755)).unwrap();
        make_folder(&folder).unwrap();
        assert_eq!((mode(&folder), mode(&folder.join("in"))), (0o755, 0o700));
        close_folder(&folder).unwrap();
        fs::write(&old, "0123456789").unwrap();
        fs::set_permissions(&old, Permissions::from_mode(0o666)).unwrap();
        write(&file, b"text").unwrap();
        write(&old, b"new").unwrap();
        assert_eq!((mode(&folder), mode(&file), mode(&old)), (0o700, 0o600, 0o600));
        assert_eq!(fs::read_to_string(&old).unwrap(), "new");
        fs::set_permissions(&old, Permissions::from_mode(0o644)).unwrap();
        close_file(&old).unwrap();
        close_file(&folder.join("none")).unwrap();
        assert_eq!(mode(&old), 0o600);
        fs::remove_dir_all(folder).unwrap();
    }
}
