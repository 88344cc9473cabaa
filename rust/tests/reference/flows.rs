//! The flows that an end announces (document 02, No. 7): 256 yes or no values.

use std::fmt;

#[derive(Clone, Copy, PartialEq, Eq)]
pub struct Flows([bool; 256]);

impl Flows {
    pub fn all() -> Flows {
        Flows([true; 256])
    }

    pub fn none() -> Flows {
        Flows([false; 256])
    }

    pub fn only(list: &[u8]) -> Flows {
        let mut flows = Flows::none();
        list.iter().for_each(|&flow| flows.0[usize::from(flow)] = true);
        flows
    }

    pub fn contains(&self, flow: u8) -> bool {
        self.0[usize::from(flow)]
    }

    /// The flows that are announced, in order.
    pub fn list(&self) -> Vec<u8> {
        (0..=255).filter(|&flow| self.contains(flow)).collect()
    }

    /// In 32 bytes: F is bit F mod 8, lowest first, of byte F div 8.
    pub fn bytes(&self) -> [u8; 32] {
        let mut bytes = [0; 32];
        for flow in self.list() {
            bytes[usize::from(flow / 8)] += 2u8.pow(u32::from(flow % 8));
        }
        bytes
    }
}

impl fmt::Debug for Flows {
    fn fmt(&self, f: &mut fmt::Formatter<'_>) -> fmt::Result {
        self.list().fmt(f)
    }
}
