//! The machine of locks: who holds, who waits. Written from its description, and not the proved one.
//!
//! Behind the locks of the list may come the rings of a pool, for locks of any other name. A name has the lowest free ring from the grant
//! that finds it without one to the end of a hold that is handed to nobody. `before` is what number of grants the ring had then, and
//! `floor` all rings together: so the tokens of a name rise, whichever rings it has.

use crate::pool::Pool;
use crate::ring::{Ring, LEFT, RELEASED};
use std::collections::{BTreeSet, HashMap, VecDeque};
use std::fmt::Write as _;
use wozgirt_engine::{Answer, Answered, Asked, Client, Input, Label, Lock as Name, Refusal, Stats, Token, NOBODY};

pub struct Waiter {
    pub client: Client,
    pub label: Label,
}

#[derive(Clone, Copy)]
pub struct Holder {
    pub client: Client,
    pub token: Token,
}

/// A lock of the list: its name, its machines, their values.
pub type Listed = (Name, usize, u64);

/// What a ring is at.
pub struct Lock {
    /// A ring of the pool that is free has none.
    pub name: Option<Name>,
    pub before: u64,
    pub floor: u64,
    pub ring: Ring,
    pub holder: Option<Holder>,
    pub line: VecDeque<Waiter>,
}

impl Lock {
    pub fn new(name: Option<Name>, ring: Ring) -> Lock {
        Lock { name, before: 0, floor: 0, ring, holder: None, line: VecDeque::new() }
    }

    /// The token of the ring's last grant.
    pub fn token(&self) -> Token {
        self.floor + (self.ring.passes - self.before)
    }

    fn is_held_by(&self, client: Client) -> bool {
        self.holder.is_some_and(|holder| holder.client == client)
    }

    /// Takes the client out of the line: whether it stood there.
    fn give_up(&mut self, client: Client) -> bool {
        let place = self.line.iter().position(|waiter| waiter.client == client);
        place.and_then(|place| self.line.remove(place)).is_some()
    }
}

pub struct Locks {
    pub locks: Vec<Lock>,
    /// How many of these are of the list, and what there is besides.
    pub listed: usize,
    pub pool: Option<Pool>,
    pub numbers: HashMap<Name, usize>,
    /// The locks that a client may hold or wait for.
    touched: HashMap<Client, BTreeSet<usize>>,
    waits_for: HashMap<Client, usize>,
    permits_faults: bool,
    pub answers: String,
    pub journal: String,
}

impl Locks {
    pub fn new(list: &[Listed], pool: Option<Pool>, permits_faults: bool) -> Locks {
        let lock = |(number, (name, n, k)): (usize, &Listed)| Lock::new(Some(name.clone()), Ring::new(number, *n, *k));
        Locks {
            locks: list.iter().enumerate().map(lock).collect(),
            listed: list.len(),
            pool,
            numbers: list.iter().enumerate().map(|(number, (name, ..))| (name.clone(), number)).collect(),
            touched: HashMap::new(),
            waits_for: HashMap::new(),
            permits_faults,
            answers: String::new(),
            journal: String::new(),
        }
    }

    /// After the journal was read: repairs, and what is held is nobody's that is there.
    pub fn begin(&mut self) {
        for lock in &mut self.locks {
            lock.ring.repair(&mut self.journal);
        }
        let held = (0..self.locks.len()).filter(|&l| self.locks[l].holder.is_some()).collect();
        self.touched.insert(NOBODY, held);
    }

    /// Gives an open hold of nobody to a client: whether there was one with this token.
    pub fn give(&mut self, name: &str, token: Token, client: Client) -> bool {
        let Some(&l) = self.numbers.get(name) else { return false };
        let Some(holder) = self.locks[l].holder.as_mut() else { return false };
        let is_open = holder.client == NOBODY && holder.token == token;
        if is_open {
            holder.client = client;
            self.touched.entry(NOBODY).or_default().remove(&l);
            self.touched.entry(client).or_default().insert(l);
        }
        is_open
    }

    pub fn answer(&mut self, client: Client, answer: Answer<'_>) {
        let _ = writeln!(self.answers, "{}", Answered { client, answer });
    }

    /// One line of standard input.
    pub fn line(&mut self, line: &str) {
        match line.parse::<Asked>() {
            Ok(Asked { client, input }) => {
                if let Err(why) = self.input(client, &input) {
                    let lock = input.lock().filter(|_| why != Refusal::Off).map(|lock| &**lock);
                    self.answer(client, Answer::Refused { why, lock });
                }
            }
            Err(fault) => {
                let client = line.split(' ').next().and_then(|word| word.parse().ok()).unwrap_or(NOBODY);
                let _ = writeln!(self.answers, "{client} refused {fault}");
            }
        }
    }

    fn input(&mut self, client: Client, input: &Input) -> Result<(), Refusal<'static>> {
        if matches!(input, Input::Corrupt { .. }) && !self.permits_faults {
            return Err(Refusal::Off);
        }
        let Some(name) = input.lock() else {
            self.leave(client);
            return Ok(());
        };
        let Some(&l) = self.numbers.get(name) else { return self.ask_of_no_ring(client, name, input) };
        match *input {
            Input::Leave => Ok(()),
            Input::Acquire { label, .. } => self.acquire(client, l, label),
            Input::Try { label, .. } => self.attempt(client, l, label),
            Input::Release { token, .. } => self.release(client, l, token),
            Input::Cancel { .. } => self.cancel(client, l),
            Input::Corrupt { machine, value, .. } => self.corrupt(client, l, machine, value),
            Input::Stats { .. } => self.stats(client, l),
        }
    }

    fn grant(&mut self, client: Client, l: usize, label: Label) {
        let lock = &mut self.locks[l];
        lock.ring.grant(label, &mut self.journal);
        let token = lock.token();
        lock.holder = Some(Holder { client, token });
        self.touched.entry(client).or_default().insert(l);
        let name = self.name(l);
        self.answer(client, Answer::Granted { lock: &name, token });
    }

    /// The name of a lock that has one.
    fn name(&self, l: usize) -> Name {
        self.locks[l].name.clone().unwrap_or_else(Name::some)
    }

    fn end_hold(&mut self, l: usize, seat: u64) {
        let lock = &mut self.locks[l];
        lock.holder = None;
        lock.ring.survey(seat, &mut self.journal);
    }

    fn advance(&mut self, l: usize) {
        if let Some(head) = self.locks[l].line.pop_front() {
            self.waits_for.remove(&head.client);
            self.grant(head.client, l, head.label);
        } else {
            self.free(l);
        }
    }

    /// Whether the client waits for any lock.
    pub fn waits(&self, client: Client) -> bool {
        self.waits_for.contains_key(&client)
    }

    /// Would the client, if it waited for lock l, wait step by step for itself?
    fn closes_circle(&self, client: Client, mut l: usize) -> bool {
        while let Some(holder) = self.locks[l].holder {
            if holder.client == client {
                return true;
            }
            match self.waits_for.get(&holder.client) {
                Some(&next) => l = next,
                None => return false,
            }
        }
        false
    }

    pub fn acquire(&mut self, client: Client, l: usize, label: Label) -> Result<(), Refusal<'static>> {
        if self.locks[l].is_held_by(client) {
            return Err(Refusal::Holds);
        }
        if self.waits_for.contains_key(&client) {
            return Err(Refusal::Waits);
        }
        if self.locks[l].holder.is_none() {
            self.grant(client, l, label);
            return Ok(());
        }
        if self.closes_circle(client, l) {
            return Err(Refusal::Circle);
        }
        let before = self.locks[l].line.len() as u64;
        self.locks[l].line.push_back(Waiter { client, label });
        self.waits_for.insert(client, l);
        self.touched.entry(client).or_default().insert(l);
        let name = self.name(l);
        self.answer(client, Answer::Waiting { lock: &name, before });
        Ok(())
    }

    pub fn attempt(&mut self, client: Client, l: usize, label: Label) -> Result<(), Refusal<'static>> {
        if self.locks[l].is_held_by(client) {
            return Err(Refusal::Holds);
        }
        if self.waits_for.get(&client) == Some(&l) {
            return Err(Refusal::Waits);
        }
        if self.locks[l].holder.is_some() {
            let name = self.name(l);
            self.answer(client, Answer::Busy { lock: &name });
        } else {
            self.grant(client, l, label);
        }
        Ok(())
    }

    fn release(&mut self, client: Client, l: usize, token: Token) -> Result<(), Refusal<'static>> {
        if !self.locks[l].holder.is_some_and(|holder| holder.client == client && holder.token == token) {
            return Err(Refusal::Holder);
        }
        self.end_hold(l, RELEASED);
        let name = self.name(l);
        self.answer(client, Answer::Released { lock: &name });
        self.advance(l);
        Ok(())
    }

    fn cancel(&mut self, client: Client, l: usize) -> Result<(), Refusal<'static>> {
        if !self.locks[l].give_up(client) {
            return Err(Refusal::Waiter);
        }
        self.waits_for.remove(&client);
        let name = self.name(l);
        self.answer(client, Answer::Cancelled { lock: &name });
        Ok(())
    }

    fn leave(&mut self, client: Client) {
        self.waits_for.remove(&client);
        for l in self.touched.remove(&client).unwrap_or_default() {
            self.locks[l].give_up(client);
            if self.locks[l].is_held_by(client) {
                self.end_hold(l, LEFT);
                self.advance(l);
            }
        }
    }

    fn corrupt(&mut self, client: Client, l: usize, machine: u64, value: u64) -> Result<(), Refusal<'static>> {
        let (name, ring) = (self.name(l), &mut self.locks[l].ring);
        let machine = usize::try_from(machine).ok().filter(|&machine| machine < ring.n()).ok_or(Refusal::Machine)?;
        if value >= ring.k {
            return Err(Refusal::Value);
        }
        let old = ring.corrupt(machine, value, &mut self.journal);
        self.answer(client, Answer::Corrupted { lock: &name, old });
        Ok(())
    }

    fn stats(&mut self, client: Client, l: usize) -> Result<(), Refusal<'static>> {
        let lock = &self.locks[l];
        let Holder { client: holder, token } = lock.holder.unwrap_or(Holder { client: NOBODY, token: 0 });
        let (machines, waiters) = (lock.ring.n() as u64, lock.line.len() as u64);
        let (name, passes) = (self.name(l), lock.ring.passes - lock.before);
        self.answer(client, Answer::Stats(Stats { lock: &name, machines, waiters, passes, holder, token }));
        Ok(())
    }
}
