//! Which users can write what is created.

use crate::calls;

/// The modes that allow other users than the owner to write.
const OTHERS_WRITE: u32 = 0o022;

/// What this program and its children create from now on, only the owner can write. Else it has the modes that it had. To be
/// called before there are threads.
pub fn create_for_owner() {
    calls::set_umask(calls::set_umask(OTHERS_WRITE) | OTHERS_WRITE);
}

#[cfg(test)]
mod tests {
    use super::*;
    use std::fs::{remove_file, File};
    use std::os::unix::fs::PermissionsExt;

    #[test]
    fn nobody_else_can_write() {
        create_for_owner();
        let path = std::env::temp_dir().join(format!("wozgirt-created-{}", std::process::id()));
        let mode = File::create(&path).unwrap().metadata().unwrap().permissions().mode();
        remove_file(path).unwrap();
        assert_eq!((mode & 0o200, mode & 0o022), (0o200, 0));
    }
}
