//! How much room a disk has.

use crate::calls;
use std::ffi::CString;
use std::io;
use std::os::unix::ffi::OsStrExt;
use std::path::Path;

/// How many bytes may still be added to the disk on which this file or folder is.
pub fn free_bytes(path: &Path) -> io::Result<u64> {
    calls::free_bytes(&CString::new(path.as_os_str().as_bytes())?)
}

#[cfg(test)]
mod tests {
    use super::*;

    #[test]
    fn of_the_temporary_folder() {
        let folder = std::env::temp_dir();
        let free = free_bytes(&folder).unwrap();
        assert!(free > 1 << 10 && free < 1 << 60, "{free}");
        assert!(free_bytes(&folder.join("missing/file")).is_err() && free_bytes(Path::new("a\0b")).is_err());
        assert_eq!(free_bytes(Path::new("/proc")).unwrap(), 0);
    }
}
