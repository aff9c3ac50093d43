//! Users and groups as the system knows them: by its files, LDAP, SSSD, or what else its `nsswitch.conf` names. To ask may take long.

use crate::calls;
use std::ffi::CString;

/// The number of the user with this name; nothing if there is none, or nobody says so.
pub fn user_number(name: &str) -> Option<u32> {
    calls::user_number(&CString::new(name).ok()?).ok()?
}

/// The same of a group.
pub fn group_number(name: &str) -> Option<u32> {
    calls::group_number(&CString::new(name).ok()?).ok()?
}

/// The name of the user with this number, if it is text.
pub fn user_name(number: u32) -> Option<String> {
    calls::user_name(number).ok()??.into_string().ok()
}

#[cfg(test)]
mod tests {
    use super::*;

    #[test]
    fn names_and_numbers() {
        assert_eq!(
            (user_number("root"), group_number("root"), user_name(0).as_deref()),
            (Some(0), Some(0), Some("root"))
        );
        for name in ["", "nobody has this name", "ro\0ot", ":", &"n".repeat(4000)] {
            assert_eq!((user_number(name), group_number(name)), (None, None), "{name:?}");
        }
        assert_eq!(user_name(u32::MAX - 7), None);
    }
}
