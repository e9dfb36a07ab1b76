//! How often each operation was accepted and each refusal came up, for tests that ask for all of them.

use crate::operation::{Answer, Operation};

#[derive(Default)]
pub struct Census {
    pub calls: u64,
    /// By the operation's code.
    pub accepted: [u64; 14],
    /// By the refusal's number.
    pub refused: [u64; 25],
}

impl Census {
    pub fn count(&mut self, operation: &Operation, answer: Answer) {
        self.calls += 1;
        match answer.refused {
            0 => self.accepted[operation.code as usize] += 1,
            number => self.refused[number as usize] += 1,
        }
    }

    /// Every operation of edition 1 was accepted, and each of these refusals came up.
    pub fn check(&self, refusals: impl IntoIterator<Item = usize>) {
        self.check_codes(1..=12, refusals);
    }

    /// Each of these operations was accepted, and each of these refusals came up.
    pub fn check_codes(&self, codes: impl IntoIterator<Item = usize>, refusals: impl IntoIterator<Item = usize>) {
        println!("calls {} accepted {:?} refused {:?}", self.calls, self.accepted, self.refused);
        for code in codes {
            assert!(self.accepted[code] > 0, "operation {code} was never accepted");
        }
        for number in refusals {
            assert!(self.refused[number] > 0, "refusal {number} never came up");
        }
    }
}
