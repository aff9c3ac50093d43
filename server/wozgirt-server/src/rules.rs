//! The rules: which users may use which lock. A file of lines `lock NAME: WORD ..`.
//!
//! A WORD is a user, `%GROUP`, `cert:NAME`, or `*` for all; users and groups also by number. A NAME of a lock that ends in `*` is a
//! pattern, of all locks whose names begin so. A lock has the line of its whole name; if there is none, that of the longest pattern, of
//! which `*` is the last; without any line it is for all. A client over TCP, and one of a proxy that has no certificate, has no name, so only
//! `*` lets it in. A user or group that the system does not know lets nobody in. The NAME of a certificate may end in `*` too, where it means any
//! rest; in it `%` and two digits of base 16 are a byte. Empty lines, and what follows `#`, say nothing.

use crate::accounts::Accounts;
use crate::board::Board;
use crate::certificate_name::{bytes_of, written, CertificateName, NotAName};
use crate::connection::Known;
use crate::names::ByName;
use std::collections::{BTreeSet, HashMap, HashSet};
use std::fmt;
use wozgirt_engine::Lock;

/// Whom a lock is for.
#[derive(Debug, Default, Clone, PartialEq, Eq)]
struct Rule {
    is_for_all: bool,
    users: Vec<u32>,
    groups: Vec<u32>,
    certificates: HashSet<CertificateName>,
    /// What names of other certificates begin with, as that is written.
    beginnings: Vec<String>,
    /// How many locks of the server have it, unless it is that of all others.
    locks: usize,
}

/// Rules for all locks.
#[derive(Debug, Clone)]
pub struct Rules {
    /// Of locks with a line of their own.
    rules: ByName<Rule>,
    patterns: Patterns,
    others: Rule,
    /// Users and groups that there are not.
    unknown: Vec<Unknown>,
}

/// A user or a group that the system does not know, in this line, from 1.
#[derive(Debug, Clone, PartialEq, Eq)]
pub struct Unknown {
    line: usize,
    /// As it is in the rules, so a group begins with `%`.
    word: String,
}

impl fmt::Display for Unknown {
    fn fmt(&self, f: &mut fmt::Formatter<'_>) -> fmt::Result {
        match self.word.strip_prefix('%') {
            Some(group) => write!(f, "line {}: there is no group {group}", self.line),
            None => write!(f, "line {}: there is no user {}", self.line, self.word),
        }
    }
}

/// Rules of patterns.
#[derive(Debug, Default, Clone)]
struct Patterns {
    /// By what the names begin with.
    rules: HashMap<String, Rule>,
    /// How long these beginnings are.
    lengths: BTreeSet<usize>,
}

/// What is wrong with a file of rules, and in which line, from 1.
#[derive(Debug, PartialEq, Eq)]
pub struct BadRule {
    line: usize,
    why: WhyBad,
}

/// What is wrong with a line.
#[derive(Debug, PartialEq, Eq)]
enum WhyBad {
    Syntax,
    Star(String),
    Beginning(String),
    Lock(String),
    Twice(String),
    Certificate(String, NotAName),
}

impl fmt::Display for BadRule {
    fn fmt(&self, f: &mut fmt::Formatter<'_>) -> fmt::Result {
        write!(f, "line {}: ", self.line)?;
        match &self.why {
            WhyBad::Syntax => f.write_str("`lock NAME: USER %GROUP cert:NAME ..` is wanted"),
            WhyBad::Star(name) => {
                write!(f, "in {name} a `*` is not at the end, where it means any rest of a name")
            }
            WhyBad::Beginning(text) => write!(f, "no name of a lock begins with `{text}`"),
            WhyBad::Lock(name) => write!(f, "there is no lock {name}"),
            WhyBad::Twice(name) => write!(f, "lock {name} has a rule already"),
            WhyBad::Certificate(word, why) => write!(f, "in {word} the name of a certificate {why}"),
        }
    }
}

impl std::error::Error for BadRule {}

impl Default for Rules {
    /// Every lock is for all who may connect.
    fn default() -> Rules {
        let others = Rule { is_for_all: true, ..Rule::default() };
        Rules { rules: ByName::default(), patterns: Patterns::default(), others, unknown: Vec::new() }
    }
}

impl Rules {
    /// The rules in the text of a file, for the locks of this board.
    pub fn parse(text: &str, board: &Board, accounts: &mut Accounts) -> Result<Rules, BadRule> {
        let mut rules = Rules::default();
        let mut has_others = false;
        for (i, line) in lines(text) {
            let bad = |why| BadRule { line: i + 1, why };
            let (name, words) = parts(line).ok_or_else(|| bad(WhyBad::Syntax))?;
            let (rule, unknown) = read_rule(words, accounts).map_err(bad)?;
            rules.unknown.extend(unknown.into_iter().map(|word| Unknown { line: i + 1, word }));
            let was_there = match beginning(name).map_err(bad)? {
                Some("") => {
                    rules.others = rule;
                    std::mem::replace(&mut has_others, true)
                }
                Some(beginning) => rules.patterns.insert(beginning, rule),
                None => {
                    let lock = board.name(name).ok_or_else(|| bad(WhyBad::Lock(name.into())))?;
                    rules.rules.insert(lock, rule).is_some()
                }
            };
            if was_there {
                return Err(bad(WhyBad::Twice(name.into())));
            }
        }
        Ok(rules.of(board))
    }

    /// The same rules where the locks of the list are these.
    pub fn of(mut self, board: &Board) -> Rules {
        let Rules { rules, patterns, .. } = &mut self;
        rules.values_mut().chain(patterns.rules.values_mut()).for_each(|rule| rule.locks = 0);
        for sight in board.locks() {
            let rule = rules.get_mut(&*sight.lock).or_else(|| patterns.rule_mut(&sight.lock));
            rule.into_iter().for_each(|rule| rule.locks += 1);
        }
        self
    }

    /// The users and groups in them that the system did not know.
    pub fn unknown(&self) -> &[Unknown] {
        &self.unknown
    }

    /// Whether this client may use the lock.
    pub fn permits(&self, name: &str, known: &Known) -> bool {
        let rule = self.rules.get(name).or_else(|| self.patterns.rule(name));
        rule.unwrap_or(&self.others).permits(known)
    }

    /// How many of this many locks, those of the list, this one may use.
    pub fn count(&self, locks: usize, known: &Known) -> usize {
        let rules = || self.rules.values().chain(self.patterns.rules.values());
        let permitted: usize = rules().filter(|rule| rule.permits(known)).map(|rule| rule.locks).sum();
        let others = locks - rules().map(|rule| rule.locks).sum::<usize>();
        permitted + if self.others.permits(known) { others } else { 0 }
    }
}

impl Patterns {
    /// Whether there was one with this beginning.
    fn insert(&mut self, beginning: &str, rule: Rule) -> bool {
        self.lengths.insert(beginning.len());
        self.rules.insert(beginning.into(), rule).is_some()
    }

    /// The longest beginning that the name has.
    fn beginning<'a>(&self, name: &'a str) -> Option<&'a str> {
        let mut beginnings = self.lengths.iter().rev().filter_map(|&length| name.get(..length));
        beginnings.find(|beginning| self.rules.contains_key(*beginning))
    }

    fn rule(&self, name: &str) -> Option<&Rule> {
        self.rules.get(self.beginning(name)?)
    }

    fn rule_mut(&mut self, name: &str) -> Option<&mut Rule> {
        self.rules.get_mut(self.beginning(name)?)
    }
}

impl Rule {
    fn permits(&self, known: &Known) -> bool {
        self.is_for_all
            || match known {
                Known::Nobody => false,
                Known::Process(peer) => {
                    self.users.contains(&peer.user) || peer.groups.iter().any(|group| self.groups.contains(group))
                }
                Known::Certificate(name) => {
                    self.certificates.contains(name)
                        || self.beginnings.iter().any(|beginning| name.as_str().starts_with(beginning))
                }
            }
    }

    /// The certificates of this name, or of names that begin so, are let in.
    fn put_certificates(&mut self, name: &str) -> Result<(), NotAName> {
        let bytes = |name: &str| bytes_of(name).filter(|_| !name.contains('*')).ok_or(NotAName::Syntax);
        match name.strip_suffix('*') {
            Some(beginning) => self.beginnings.push(written(&bytes(beginning)?)),
            None => _ = self.certificates.insert(CertificateName::new(&bytes(name)?)?),
        }
        Ok(())
    }
}

/// What the names of a pattern begin with; nothing if it is a whole name.
fn beginning(name: &str) -> Result<Option<&str>, WhyBad> {
    let Some((beginning, rest)) = name.split_once('*') else { return Ok(None) };
    if !rest.is_empty() {
        return Err(WhyBad::Star(name.into()));
    }
    if !beginning.is_empty() && beginning.parse::<Lock>().is_err() {
        return Err(WhyBad::Beginning(beginning.into()));
    }
    Ok(Some(beginning))
}

/// The lines that say something, each with its place from 0.
fn lines(text: &str) -> impl Iterator<Item = (usize, &str)> {
    let lines = text.lines().map(|line| line.split('#').next().unwrap_or("").trim());
    lines.enumerate().filter(|(_, line)| !line.is_empty())
}

/// The name of the lock in a line, and the words after it.
fn parts(line: &str) -> Option<(&str, &str)> {
    let (name, words) = line.strip_prefix("lock ")?.split_once(':')?;
    Some((name.trim(), words))
}

/// What a certificate's name comes after.
const CERTIFICATE: &str = "cert:";

/// The users and groups in a text, a group with `%`.
pub fn names_in(text: &str) -> impl Iterator<Item = &str> {
    lines(text)
        .filter_map(|(_, line)| parts(line))
        .flat_map(|(_, words)| words.split_whitespace())
        .filter(|word| *word != "*" && !word.starts_with(CERTIFICATE))
}

/// Whom these words let in, and those who are not known.
fn read_rule(words: &str, accounts: &mut Accounts) -> Result<(Rule, Vec<String>), WhyBad> {
    let (mut rule, mut unknown) = (Rule::default(), Vec::new());
    for word in words.split_whitespace() {
        if let Some(name) = word.strip_prefix(CERTIFICATE) {
            rule.put_certificates(name).map_err(|why| WhyBad::Certificate(word.into(), why))?;
            continue;
        }
        let (numbers, number) = match word.strip_prefix('%') {
            _ if word == "*" => {
                rule.is_for_all = true;
                continue;
            }
            Some(group) => (&mut rule.groups, accounts.group(group)),
            None => (&mut rule.users, accounts.user(word)),
        };
        match number {
            Some(number) => numbers.push(number),
            None => unknown.push(word.into()),
        }
    }
    Ok((rule, unknown))
}

#[cfg(test)]
mod tests;
