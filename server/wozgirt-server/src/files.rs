//! Files that are replaced as a whole, and names beside the journal's folder.

use std::fs::{self, File};
use std::io::{self, ErrorKind, Write};
use std::path::{Path, PathBuf};

/// The path beside this folder whose name has this at its end. `.` and the like have names of their own first.
pub fn beside(folder: &Path, end: &str) -> io::Result<PathBuf> {
    let folder = if folder.file_name().is_none() { folder.canonicalize()? } else { folder.to_owned() };
    let mut name = folder.file_name().ok_or(io::Error::from(ErrorKind::InvalidInput))?.to_owned();
    name.push(end);
    Ok(folder.with_file_name(name))
}

/// The folder with the file of this path.
pub fn parent(path: &Path) -> &Path {
    path.parent().filter(|folder| *folder != Path::new("")).unwrap_or(Path::new("."))
}

/// An error if it is a link: what that leads to may be anybody's.
pub fn refuse_link(path: &Path) -> io::Result<()> {
    match fs::symlink_metadata(path) {
        Ok(found) if found.is_symlink() => Err(io::Error::other(format!("{}: it is a link", path.display()))),
        _ => Ok(()),
    }
}

/// An empty file of this name that was not there. What a link of this name leads to is not written.
pub fn create(path: &Path) -> io::Result<File> {
    remove_if_there(path)?;
    File::options().create_new(true).write(true).open(path)
}

/// Removes the file, if there is one.
pub fn remove_if_there(path: &Path) -> io::Result<()> {
    fs::remove_file(path).or_else(|fault| match fault.kind() {
        ErrorKind::NotFound => Ok(()),
        _ => Err(fault),
    })
}

/// Replaces the file, if there is one, by way of the other name, which `create` gives to an empty file; it is on the disk then. If that
/// cannot be, the one that was there stays as it is.
pub fn replace(path: &Path, part: &Path, create: impl Fn(&Path) -> io::Result<File>, text: &[u8]) -> io::Result<File> {
    let mut file = create(part)?;
    file.write_all(text)?;
    file.sync_all()?;
    fs::rename(part, path)?;
    File::open(parent(path))?.sync_all()?;
    Ok(file)
}

#[cfg(test)]
mod tests {
    use super::*;
    use std::os::unix::fs::symlink;

    #[test]
    fn names_beside_a_folder() {
        assert_eq!(beside(Path::new("/a/b"), ".x").unwrap(), Path::new("/a/b.x"));
        assert_eq!(beside(Path::new("b/."), ".x").unwrap(), Path::new("b.x"));
        let here = std::env::current_dir().unwrap();
        let name = here.file_name().unwrap().to_string_lossy().into_owned();
        assert_eq!(beside(Path::new("."), ".x").unwrap(), here.with_file_name(format!("{name}.x")));
        assert!(beside(Path::new("/"), ".x").is_err() && beside(Path::new("/none/.."), ".x").is_err());
    }

    #[test]
    fn a_file_is_replaced_or_stays_and_no_link_is_followed() {
        let folder = std::env::temp_dir().join(format!("wozgirt-files-{}", std::process::id()));
        let _ = fs::remove_dir_all(&folder);
        fs::create_dir(&folder).unwrap();
        let [path, part, other] = ["file", "file.part", "other"].map(|name| folder.join(name));
        fs::write(&other, "as it was").unwrap();
        symlink(&other, &path).unwrap();
        symlink(&other, &part).unwrap();
        assert!(
            refuse_link(&path).is_err() && refuse_link(&other).is_ok() && refuse_link(&folder.join("none")).is_ok()
        );
        replace(&path, &part, create, b"new").unwrap();
        assert_eq!(fs::read_to_string(&path).unwrap() + &fs::read_to_string(&other).unwrap(), "newas it was");
        fs::create_dir(&part).unwrap();
        assert!(replace(&path, &part, create, b"newer").is_err());
        assert_eq!(fs::read_to_string(&path).unwrap(), "new");
        fs::remove_dir_all(folder).unwrap();
    }
}
