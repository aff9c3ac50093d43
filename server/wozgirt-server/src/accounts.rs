//! Names of users and groups, as the system knows them: by its files, LDAP, SSSD. To ask may take long, so the loop asks in a thread of
//! its own, and what was answered is kept.

use crate::rules::names_in;
use std::collections::HashMap;
use std::io;
use std::sync::mpsc::{channel, Receiver, Sender};
use std::thread;
use std::time::Duration;
use wozgirt_system::{group_number, user_name, user_number};

/// How long a client's name is waited for: files answer in time, and of who is known to a service that is slow the number is shown at
/// first.
const SOON: Duration = Duration::from_millis(5);

/// What the system has answered about names, until it is asked anew.
#[derive(Debug, Default)]
pub struct Accounts {
    users: HashMap<String, Option<u32>>,
    groups: HashMap<String, Option<u32>>,
}

impl Accounts {
    /// With what the system answers about all names in these rules.
    pub fn of_rules(text: &str) -> Accounts {
        let mut accounts = Accounts::default();
        for word in names_in(text) {
            match word.strip_prefix('%') {
                Some(group) => accounts.group(group),
                None => accounts.user(word),
            };
        }
        accounts
    }

    /// The same, which comes later: a service that is away keeps nobody but this thread.
    pub fn of_rules_aside(text: String) -> io::Result<Receiver<Accounts>> {
        let (tell, told) = channel();
        // (if nobody wants it any more, it is not sent)
        thread::Builder::new().name("accounts".into()).spawn(move || drop(tell.send(Accounts::of_rules(&text))))?;
        Ok(told)
    }

    /// The number of a user, by its name or as a number.
    pub fn user(&mut self, word: &str) -> Option<u32> {
        known(&mut self.users, word, user_number)
    }

    /// The number of a group, by its name or as a number.
    pub fn group(&mut self, word: &str) -> Option<u32> {
        known(&mut self.groups, word, group_number)
    }

    /// With these and no others.
    #[cfg(test)]
    pub fn with(users: &[(&str, u32)], groups: &[(&str, u32)]) -> Accounts {
        let of = |them: &[(&str, u32)]| them.iter().map(|(name, number)| (name.to_string(), Some(*number))).collect();
        Accounts { users: of(users), groups: of(groups) }
    }
}

fn known(answers: &mut HashMap<String, Option<u32>>, word: &str, ask: fn(&str) -> Option<u32>) -> Option<u32> {
    if let Some(number) = answers.get(word) {
        return *number;
    }
    let number = ask(word).or_else(|| word.parse().ok());
    answers.insert(word.into(), number);
    number
}

/// Names of the users who connect, which a thread asks for.
pub struct UserNames {
    /// Nothing for a name that is asked for, or that there is not.
    known: HashMap<u32, Option<String>>,
    ask: Sender<u32>,
    told: Receiver<(u32, Option<String>)>,
}

impl UserNames {
    /// Starts the thread.
    pub fn start() -> io::Result<UserNames> {
        let ((ask, asked), (tell, told)) = (channel::<u32>(), channel());
        let answer = move || asked.iter().map(|number| (number, user_name(number))).try_for_each(|it| tell.send(it));
        thread::Builder::new().name("names".into()).spawn(answer)?;
        Ok(UserNames { known: HashMap::new(), ask, told })
    }

    /// The name of the user, or the number.
    pub fn name(&mut self, number: u32) -> String {
        if !self.known.contains_key(&number) {
            self.known.insert(number, None);
            // (the thread lasts as long as this side of the channel)
            let _ = self.ask.send(number);
            self.known.extend(self.told.recv_timeout(SOON));
        }
        self.known.extend(self.told.try_iter());
        self.known.get(&number).cloned().flatten().unwrap_or_else(|| number.to_string())
    }

    /// Has them all asked for anew.
    pub fn forget(&mut self) {
        self.known.clear();
    }
}

#[cfg(test)]
mod tests {
    use super::*;

    #[test]
    fn names_and_numbers() {
        let mut accounts = Accounts::with(&[("alice", 1000)], &[("ops", 50)]);
        assert_eq!((accounts.user("alice"), accounts.group("ops")), (Some(1000), Some(50)));
        assert_eq!((accounts.user("1001"), accounts.group("51")), (Some(1001), Some(51)));
        assert_eq!((accounts.user("nobody has this name"), accounts.group("alice/")), (None, None));
        assert_eq!((accounts.user("root"), accounts.group("root")), (Some(0), Some(0)));
    }

    #[test]
    fn names_of_rules() {
        let text = String::from("lock a: root %root # no more\nlock b: *");
        let accounts = Accounts::of_rules_aside(text).unwrap().recv().unwrap();
        assert_eq!(
            (accounts.users, accounts.groups),
            ([("root".into(), Some(0))].into(), [("root".into(), Some(0))].into())
        );
    }

    #[test]
    fn names_of_who_comes() {
        let mut names = UserNames::start().unwrap();
        assert_eq!(names.name(4_000_000_000), "4000000000");
        let mut tries = 0;
        while names.name(0) != "root" {
            thread::sleep(SOON);
            tries += 1;
            assert!(tries < 1000);
        }
        names.forget();
        assert!(names.known.is_empty());
    }
}
