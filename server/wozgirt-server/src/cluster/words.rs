//! The words of the command line for a server that is one of several.

use super::is_name;
use crate::options::EtcdName;
use crate::settings::{seconds, BadWords};
use std::time::Duration;

/// How a server is one of several.
#[derive(Debug, Clone, PartialEq, Eq)]
pub struct OverEtcd {
    /// The members of etcd.
    pub members: String,
    /// The name of this server.
    pub name: String,
    /// What all keys begin with.
    pub prefix: String,
    /// What this server shows to etcd: files for TLS, a user and the file with its password, each with its word.
    pub files: Vec<(&'static str, String)>,
    /// The lease of this server.
    pub host_lease: Duration,
    /// How many lines lie between checkpoints.
    pub checkpoint: u64,
    /// The program that speaks to etcd.
    pub program: String,
}

/// What was read of it so far.
#[derive(Default)]
pub struct ReadingOverEtcd {
    members: Option<String>,
    name: Option<String>,
    prefix: Option<String>,
    files: Vec<(&'static str, String)>,
    host_lease: Option<Duration>,
    checkpoint: Option<u64>,
    log_program: Option<String>,
}

impl ReadingOverEtcd {
    /// Nothing if it is not a value of this option.
    pub fn put(&mut self, name: EtcdName, value: &str) -> Option<()> {
        match name {
            EtcdName::Members => self.members = Some(value.into()),
            EtcdName::Name => self.name = Some(value).filter(|name| is_name(name)).map(|name| Some(name.into()))?,
            EtcdName::Prefix => self.prefix = Some(value.into()),
            EtcdName::Authority => self.files.push(("--cacert", value.into())),
            EtcdName::Certificate => self.files.push(("--cert", value.into())),
            EtcdName::Key => self.files.push(("--key", value.into())),
            EtcdName::User => self.files.push(("--etcd-user", value.into())),
            EtcdName::PasswordFile => self.files.push(("--etcd-password-file", value.into())),
            EtcdName::HostLease => self.host_lease = Some(seconds(value).filter(|time| time.as_secs() > 0)?),
            EtcdName::Checkpoint => self.checkpoint = Some(value.parse().ok().filter(|&lines| lines > 0)?),
            EtcdName::Program => self.log_program = Some(value.into()),
        }
        Some(())
    }

    /// The words together; nothing without `--etcd`.
    pub fn settings(mut self) -> Result<Option<OverEtcd>, BadWords> {
        let Some(members) = self.members.take() else {
            let words = [
                ("--name", self.name.is_some()),
                ("--prefix", self.prefix.is_some()),
                ("--host-lease", self.host_lease.is_some()),
                ("--checkpoint", self.checkpoint.is_some()),
                ("--log-program", self.log_program.is_some()),
            ];
            let alone = words.into_iter().find(|(_, is_there)| *is_there).map(|(word, _)| word);
            let alone = alone.or_else(|| self.files.first().map(|(word, _)| *word));
            return alone.map_or(Ok(None), |word| Err(BadWords::Alone(word)));
        };
        Ok(Some(OverEtcd {
            members,
            name: self.name.take().ok_or(BadWords::Missing("--name"))?,
            prefix: self.prefix.take().unwrap_or_else(|| "wozgirt".into()),
            files: std::mem::take(&mut self.files),
            host_lease: self.host_lease.unwrap_or(Duration::from_secs(10)),
            checkpoint: self.checkpoint.unwrap_or(100_000),
            program: self.log_program.take().unwrap_or_else(|| "wozgirt-log".into()),
        }))
    }
}

impl OverEtcd {
    /// The words with which the program is run that speaks to etcd.
    pub fn words(&self) -> Vec<String> {
        let lease = self.host_lease.as_secs_f64().ceil().to_string();
        let mut words =
            vec!["--endpoints", &self.members, "--prefix", &self.prefix, "--name", &self.name, "--lease", &lease];
        for (word, file) in &self.files {
            words.extend([*word, file]);
        }
        words.into_iter().map(String::from).collect()
    }
}
