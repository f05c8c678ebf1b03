//! Two captains at the claim desk of one bus that has room for one more message: a claim, a claim
//! that names an older edition, and a withdrawal that makes room again. Each step is printed as a
//! person reads it, and is what it is expected to be.

use telhavina::{claim, withdraw, Claim, Ledger, Refusal, Withdrawal};

/// Frames of 125 bit times, at most one in 1000; the rudder's are allowed 350 and the others 400.
/// The lower of two such rows has the figure 375, the lowest of three 500: two have room.
const RUDDER: [u32; 6] = [0, 0, 125, 1000, 350, 0];
const WINCH: [u32; 6] = [0, 0, 125, 1000, 400, 0];
const SONAR: [u32; 6] = [0, 0, 125, 1000, 400, 0];

fn main() {
    let mut ledger = Ledger::fresh();
    claims(&mut ledger, "rudder", RUDDER, 0, Claim::Granted { edition: 1 });

    println!("\nboth captains saw edition 1");
    claims(&mut ledger, "winch", WINCH, 1, Claim::Granted { edition: 2 });
    claims(&mut ledger, "sonar", SONAR, 1, Claim::Refused(Refusal::OtherEdition));
    let no_room = Refusal::NoOrder { unplaced: 3, tried: 3 };
    claims(&mut ledger, "sonar", SONAR, 2, Claim::Refused(no_room));

    println!("\nthe winch, row 1, is given up");
    withdraws(&mut ledger, 1, 2, Withdrawal::Withdrawn { edition: 3 });
    claims(&mut ledger, "sonar", SONAR, 3, Claim::Granted { edition: 4 });
    assert_eq!(ledger.rows(), [RUDDER, SONAR].concat());
}

fn claims(ledger: &mut Ledger, name: &str, row: [u32; 6], seen: u32, expected: Claim) {
    let answer = claim(ledger, &row, seen);
    assert_eq!(answer, expected);
    match answer {
        Claim::Granted { edition } => println!("{name}, edition {seen}: granted, now {edition}"),
        Claim::Refused(refusal) => println!("{name}, edition {seen}: {refusal}"),
    }
}

fn withdraws(ledger: &mut Ledger, row: u32, seen: u32, expected: Withdrawal) {
    let answer = withdraw(ledger, row, seen);
    assert_eq!(answer, expected);
    match answer {
        Withdrawal::Withdrawn { edition } => {
            println!("row {row}, edition {seen}: withdrawn, now {edition}");
        }
        Withdrawal::Refused(refusal) => println!("row {row}, edition {seen}: {refusal}"),
    }
}
