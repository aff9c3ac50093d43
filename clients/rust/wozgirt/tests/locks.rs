//! Exact answers of locks.

use wozgirt::{Acquired, Granted, Locks, Reason, Refused};

fn refused<T>(reason: Reason) -> Result<T, Refused> {
    Err(Refused { reason, machine: None })
}

fn granted(client: u64, lock: u32, token: u64) -> Granted {
    Granted { client, lock, token }
}

#[test]
fn go_to_who_waits() -> Result<(), Refused> {
    let mut locks = Locks::open(2, 4)?;
    assert_eq!(locks.acquire(7, 0, 70), Ok(Acquired::Held(1)));
    assert_eq!(locks.acquire(8, 0, 80), Ok(Acquired::Waits(0)));
    assert_eq!(locks.acquire(9, 0, 90), Ok(Acquired::Waits(1)));
    assert_eq!(locks.try_acquire(6, 0, 60), Ok(None));
    assert_eq!(locks.try_acquire(6, 1, 60), Ok(Some(1)));
    assert_eq!(locks.release(7, 0, 1)?.collect::<Vec<_>>(), [granted(8, 0, 2)]);
    assert_eq!(locks.cancel(9, 0), Ok(()));
    assert_eq!(locks.release(8, 0, 2)?.next(), None);
    assert_eq!(locks.acquire(9, 0, 0), Ok(Acquired::Held(3)));
    Ok(())
}

#[test]
fn go_on_when_their_client_leaves() -> Result<(), Refused> {
    let mut locks = Locks::open(3, 4)?;
    for lock in 0..3 {
        assert_eq!(locks.acquire(1, lock, 0), Ok(Acquired::Held(1)));
    }
    assert_eq!(locks.acquire(2, 2, 0), Ok(Acquired::Waits(0)));
    assert_eq!(locks.acquire(3, 0, 0), Ok(Acquired::Waits(0)));
    let mut grants: Vec<_> = locks.leave(1)?.collect();
    grants.sort_by_key(|grant| grant.lock);
    assert_eq!(grants, [granted(3, 0, 2), granted(2, 2, 2)]);
    assert_eq!(locks.try_acquire(2, 1, 0), Ok(Some(2)));
    Ok(())
}

#[test]
fn refuse() -> Result<(), Refused> {
    assert_eq!(Locks::open(0, 4).map(|_| ()), refused(Reason::BadLocks));
    assert_eq!(Locks::open(1_000_001, 4).map(|_| ()), refused(Reason::BadLocks));
    assert_eq!(Locks::open(1, 1).map(|_| ()), refused(Reason::BadMachines));
    let mut locks = Locks::open(2, 4)?;
    locks.acquire(1, 0, 0)?;
    locks.acquire(2, 1, 0)?;
    locks.acquire(2, 0, 0)?;
    assert_eq!(locks.acquire(1, 2, 0), refused(Reason::NoLock));
    assert_eq!(locks.acquire(1, 0, 0), refused(Reason::Holds));
    assert_eq!(locks.acquire(2, 0, 0), refused(Reason::Stands));
    assert_eq!(locks.acquire(1, 1, 0), refused(Reason::Circle));
    assert_eq!(locks.release(1, 0, 2).map(|_| ()), refused(Reason::NotHeld));
    assert_eq!(locks.release(2, 0, 1).map(|_| ()), refused(Reason::NotHeld));
    assert_eq!(locks.cancel(1, 0), refused(Reason::NotWaiting));
    Ok(())
}

#[test]
fn wait_for_their_grants_to_be_taken() -> Result<(), Refused> {
    let mut locks = Locks::open(1, 4)?;
    locks.acquire(1, 0, 0)?;
    locks.acquire(2, 0, 0)?;
    drop(locks.release(1, 0, 1)?);
    assert_eq!(locks.acquire(3, 0, 0), refused(Reason::GrantsLeft));
    assert_eq!(locks.cut(), refused(Reason::GrantsLeft));
    assert_eq!(locks.grants().collect::<Vec<_>>(), [granted(2, 0, 2)]);
    assert_eq!(locks.acquire(3, 0, 0), Ok(Acquired::Waits(0)));
    Ok(())
}

#[test]
fn go_on_over_a_cut() -> Result<(), Refused> {
    let mut locks = Locks::open(1, 4)?;
    locks.acquire(1, 0, 0)?;
    locks.acquire(2, 0, 0)?;
    assert_eq!(locks.cut(), Ok(()));
    assert_eq!(locks.release(1, 0, 1)?.next(), Some(granted(2, 0, 2)));
    Ok(())
}

#[test]
fn go_to_another_thread() -> Result<(), Refused> {
    let mut locks = Locks::open(1, 4)?;
    let held = std::thread::spawn(move || locks.acquire(1, 0, 0)).join().expect("it does not panic");
    assert_eq!(held, Ok(Acquired::Held(1)));
    Ok(())
}
