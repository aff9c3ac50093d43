//! The places: each door has places of its own, and the last of them are for users, addresses or certificates that have few.

use crate::connection::Door;
use crate::settings::Settings;
use crate::shares::{Counts, Guest, Share};

/// How many operators there may be at once.
const OPERATORS: usize = 32;
/// How many more than `--connections` may come in at a door, and which: those that have fewer places than this.
const MOST_EXTRA: usize = 64;
const MOST_FEW: usize = 8;

/// All places.
#[derive(Debug)]
pub struct Places {
    most: usize,
    clients: Counts,
    network: Counts,
    proxied: Counts,
    operators: Counts,
}

impl Places {
    /// This many for clients at each door, all of them free.
    pub fn new(most: usize) -> Places {
        let [clients, network, proxied, operators] = [(); 4].map(|()| Counts::default());
        Places { most, clients, network, proxied, operators }
    }

    /// How many connections there may be in all.
    pub fn count(settings: &Settings) -> usize {
        let doors = 1 + usize::from(settings.sockets.tcp.is_some()) + usize::from(settings.sockets.proxied.is_some());
        OPERATORS + doors * (settings.limits.connections + extra(settings.limits.connections))
    }

    fn at(&mut self, door: Door) -> &mut Counts {
        match door {
            Door::Clients => &mut self.clients,
            Door::Network => &mut self.network,
            Door::Proxied => &mut self.proxied,
            Door::Operators => &mut self.operators,
        }
    }

    /// Takes a place, if there is one for this guest.
    pub fn take(&mut self, door: Door, guest: &Guest) -> bool {
        let share = match door {
            Door::Operators => Share::new(OPERATORS, 0, 0),
            Door::Clients | Door::Network | Door::Proxied => {
                Share::new(self.most, extra(self.most), (self.most / 8).clamp(1, MOST_FEW))
            }
        };
        let at = self.at(door);
        let is_let_in = share.permits(at, guest);
        if is_let_in {
            at.add(guest.clone());
        }
        is_let_in
    }

    /// Gives back a place that was taken.
    pub fn give_back(&mut self, door: Door, guest: &Guest) {
        self.at(door).remove(guest);
    }
}

fn extra(most: usize) -> usize {
    (most / 8).clamp(1, MOST_EXTRA)
}

#[cfg(test)]
mod tests {
    use super::*;

    fn user(number: u32) -> Guest {
        Guest::User(Some(number))
    }

    /// How many of this many tries succeed.
    fn taken(places: &mut Places, door: Door, guest: Guest, tries: usize) -> usize {
        (0..tries).filter(|_| places.take(door, &guest)).count()
    }

    #[test]
    fn nobody_takes_all_places() {
        let mut places = Places::new(1000);
        assert_eq!(taken(&mut places, Door::Network, Guest::at([127, 0, 0, 1].into()), 5000), 1000);
        assert_eq!(taken(&mut places, Door::Clients, user(7), 5000), 1000);
        assert_eq!(taken(&mut places, Door::Clients, user(0), 5000), MOST_FEW);
        assert_eq!(taken(&mut places, Door::Network, Guest::at([10, 0, 0, 1].into()), 5000), MOST_FEW);
        assert_eq!(taken(&mut places, Door::Operators, user(7), 5000), OPERATORS);
        for other in 100..200 {
            taken(&mut places, Door::Clients, user(other), 5000);
        }
        assert!(!places.take(Door::Clients, &user(300)));
        (0..MOST_EXTRA).for_each(|_| places.give_back(Door::Clients, &user(7)));
        assert!(places.take(Door::Clients, &user(300)));
    }

    #[test]
    fn a_place_that_is_given_back_is_free() {
        let mut places = Places::new(3);
        for _ in 0..10 {
            assert_eq!(taken(&mut places, Door::Clients, user(7), 9), 3);
            (0..3).for_each(|_| places.give_back(Door::Clients, &user(7)));
        }
        assert_eq!(places.clients.all(), 0);
    }
}
