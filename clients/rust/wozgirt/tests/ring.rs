//! Exact answers of a ring of three machines.

use std::error::Error;
use wozgirt::{
    check, version, Event, Fault, Grant, Group, NotLegal, NotResumed, Reason, Refused, Ring, Step, Sums, Survey,
};

const TEXT: &str =
    "ringfarm 2\nring 0 3 3\nstart 0 2 0\np 0 0 5 g 1 5\np 0 0 1 n\np 0 2 4 g 2 9\nend 3\ns 0 3 1 1 2 0\ndone 1\n";

fn refused<T>(reason: Reason) -> Result<T, Refused> {
    Err(Refused { reason, machine: None })
}

/// The ring that `TEXT` tells of.
fn ring() -> Result<Ring, Refused> {
    let mut ring = Ring::open(3, 3, &[0, 2, 0], 1)?;
    assert_eq!(ring.pass(0, 0, 5), Ok(Some(Grant { position: 0, number: 1, result: 5 })));
    assert_eq!(ring.try_pass(0, 0, 1), Ok(None));
    assert_eq!(ring.history_length(), 1);
    assert_eq!(ring.pass(0, 0, 1), Ok(None));
    assert_eq!(ring.try_pass(0, 2, 4), Ok(Some(Grant { position: 2, number: 2, result: 9 })));
    assert_eq!(ring.glance(), ring.survey(0)?);
    Ok(ring)
}

#[test]
fn saves_and_resumes() -> Result<(), Box<dyn Error>> {
    let text = ring()?.save()?;
    assert_eq!(String::from_utf8_lossy(&text), TEXT);
    assert_eq!(check(&text), Ok(Sums { rings: 1, events: 3, granted: 2, corrupted: 0, surveys: 1 }));
    let mut again = Ring::from_saved(&text, 0, 1)?;
    assert_eq!(again.save()?, text);
    let Survey { position, privileged, first, .. } = again.glance();
    assert_eq!((position, privileged), (3, 1));
    assert_eq!(again.pass(0, first, 1), Ok(Some(Grant { position: 3, number: 3, result: 10 })));
    Ok(())
}

#[test]
fn refuses() -> Result<(), Refused> {
    let mut ring = ring()?;
    assert_eq!(ring.pass(1, 0, 0), refused(Reason::NoSeat));
    assert_eq!(ring.pass(0, 3, 0), refused(Reason::NoMachine));
    assert_eq!(ring.corrupt(0, 0, 3), refused(Reason::NoValue));
    assert_eq!(ring.pass_group(0, &[], 1), refused(Reason::NotRising));
    assert_eq!(ring.pass_group(0, &[0, 1, 2], 1), refused(Reason::WholeRing));
    let first = ring.glance().first;
    let other = (0..3).find(|machine| *machine != first).expect("one machine of three is privileged");
    assert_eq!(ring.pass_group(0, &[other], 1), Err(Refused { reason: Reason::NotPrivileged, machine: Some(other) }));
    assert_eq!(ring.pass_group(0, &[first], 1), Ok(Group { first: 3, number: 3, result: 10, count: 1 }));
    for (n, k, start, seats, reason) in [
        (3, 3, &[0, 0, 0][..], 11, Reason::BadSeats),
        (1, 3, &[0][..], 1, Reason::BadMachines),
        (3, 2, &[0, 0, 0][..], 1, Reason::BadValues),
        (3, 3, &[0, 0][..], 1, Reason::BadLength),
        (3, 3, &[0, 3, 0][..], 1, Reason::BadStart),
    ] {
        assert_eq!(Ring::open(n, k, start, seats).map(|_| ()), refused(reason));
    }
    assert_eq!(Ring::open_idle(2, 2, &[0, 0], 1)?.save(), refused(Reason::NoTill));
    Ok(())
}

#[test]
fn resumes_only_what_is_legal() {
    let changed = TEXT.replace("g 2 9", "g 2 8");
    for (text, place, seats, wanted) in [
        (&TEXT.as_bytes()[..20], 0, 1, NotResumed::NotLegal(NotLegal { fault: Fault::Truncated, line: None })),
        (b"no text", 0, 1, NotResumed::NotLegal(NotLegal { fault: Fault::Syntax, line: Some(1) })),
        (changed.as_bytes(), 0, 1, NotResumed::NotLegal(NotLegal { fault: Fault::Reply, line: Some(6) })),
        (changed.as_bytes(), 1, 0, NotResumed::NotLegal(NotLegal { fault: Fault::Reply, line: Some(6) })),
        (TEXT.as_bytes(), 1, 1, NotResumed::Refused(Refused { reason: Reason::NoRing, machine: None })),
        (TEXT.as_bytes(), 0, 0, NotResumed::Refused(Refused { reason: Reason::BadSeats, machine: None })),
    ] {
        assert_eq!(Ring::from_saved(text, place, seats).map(|_| ()), Err(wanted));
    }
}

#[test]
fn shows_its_events() -> Result<(), Refused> {
    let mut ring = ring()?;
    ring.corrupt(0, 1, 0)?;
    let events = [
        Event { seat: 0, machine: 0, step: Step::Passed { order: 5, number: 1, result: 5 } },
        Event { seat: 0, machine: 0, step: Step::Waited { order: 1 } },
        Event { seat: 0, machine: 2, step: Step::Passed { order: 4, number: 2, result: 9 } },
        Event { seat: 0, machine: 1, step: Step::Fault { value: 0, old: 2 } },
    ];
    assert_eq!(ring.events().collect::<Vec<_>>(), events);
    assert_eq!((ring.event(3), ring.event(4)), (Some(events[3]), None));
    Ok(())
}

const BEGUN: &str = "ringsegment 1 1 1\nbehind 0000000000000000000000000000000000000000000000000000000000000000\n\
                     base 0 0 0 0\nringjournal 1\nringfarm 2\nring 0 3 3\nstart 0 2 0\n";

#[test]
fn keeps_a_journal() -> Result<(), Box<dyn Error>> {
    let mut ring = Ring::open(3, 3, &[0, 2, 0], 1)?;
    assert_eq!(ring.take_journal(), refused(Reason::NoJournal));
    let first = ring.open_journal()?;
    assert_eq!(String::from_utf8(first.clone())?, format!("{BEGUN}end 0\ndone 1\n"));
    assert_eq!(ring.take_journal()?, b"");
    assert_eq!(ring.pass(0, 0, 5)?, Some(Grant { position: 0, number: 1, result: 5 }));
    ring.survey(0)?;
    assert_eq!(ring.pass(0, 2, 4)?, Some(Grant { position: 1, number: 2, result: 9 }));
    let lines = ring.take_journal()?;
    assert_eq!(String::from_utf8(lines.clone())?, "0 p 0 0 5 g 1 5\n0 p 0 2 4 g 2 9\n0 s 0 1 2 1 1 3\n");
    assert_eq!(ring.take_journal()?, b"");
    let sealed = String::from_utf8(ring.cut()?)?;
    assert_eq!(sealed, format!("{BEGUN}p 0 0 5 g 1 5\np 0 2 4 g 2 9\nend 2\ns 0 1 2 1 1 3\ndone 1\n"));
    assert_eq!((ring.history_length(), ring.events().next(), ring.event(1)), (2, None, None));
    assert_eq!(ring.pass(0, 1, 1)?, Some(Grant { position: 2, number: 3, result: 10 }));
    let second = ring.open_journal()?;
    assert!(String::from_utf8(second.clone())?.starts_with("ringsegment 1 2 1\nbehind "));
    assert_eq!(Ring::from_segment(&second, 1)?.open_journal()?, second);
    let cut = [&first[..], &lines[..lines.len() - 3]].concat();
    assert_eq!(Ring::from_segment(&cut, 1)?.pass(0, 1, 1)?, Some(Grant { position: 2, number: 3, result: 10 }));
    Ok(())
}

#[test]
fn goes_on_only_in_files_of_a_chain() {
    let first = format!("{BEGUN}end 0\ndone 1\n");
    for (file, wanted) in [
        (first[..40].to_owned(), NotResumed::NotLegal(NotLegal { fault: Fault::Truncated, line: None })),
        (format!("{first}0 p 0 0 5 g 2 5\n"), NotResumed::NotLegal(NotLegal { fault: Fault::Reply, line: Some(10) })),
        (first.replace("base 0", "base 1"), NotResumed::Refused(Refused { reason: Reason::NoChain, machine: None })),
        (format!("{first}0 p 1 0 5 g 1 5\n"), NotResumed::Refused(Refused { reason: Reason::NoSeat, machine: None })),
    ] {
        assert_eq!(Ring::from_segment(file.as_bytes(), 1).map(|_| ()), Err(wanted));
    }
}

#[test]
fn judges() {
    let changed = TEXT.replace("g 2 9", "g 2 8");
    assert_eq!(check(changed.as_bytes()), Err(NotLegal { fault: Fault::Reply, line: Some(6) }));
    assert_eq!(check(&TEXT.as_bytes()[..TEXT.len() - 1]), Err(NotLegal { fault: Fault::Truncated, line: None }));
    let fault = NotLegal { fault: Fault::Reply, line: Some(6) };
    assert_eq!(fault.to_string(), "line 6: reply");
    assert_eq!((Fault::Reply.code(), version()), (66, 100));
}

#[test]
fn goes_to_another_thread() -> Result<(), Refused> {
    let ring = ring()?;
    let length = std::thread::spawn(move || ring.history_length()).join().expect("it does not panic");
    assert_eq!(length, 3);
    Ok(())
}
