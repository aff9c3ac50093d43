//! A first ring: three passes, a call that is refused, and the saved history.

use wozgirt::Ring;

fn main() -> Result<(), Box<dyn std::error::Error>> {
    let mut ring = Ring::open(3, 3, &[0, 0, 0], 1)?;
    for machine in 0..3 {
        println!("{:?}", ring.pass(0, machine, 5)?);
    }
    if let Err(refused) = ring.pass(0, 7, 5) {
        println!("{refused}");
    }
    std::fs::write("history.txt", ring.save()?)?;
    Ok(())
}
