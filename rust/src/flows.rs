use crate::ffi;
use std::fmt;

/// The flows that an end announces, of 0 to 255. [`Sender::open`](crate::Sender::open) and [`Receiver::open`](crate::Receiver::open) take
/// them, and the end keeps them.
///
/// A flow that is not announced is [`Refusal::Unannounced`](crate::Refusal::Unannounced): a sender adds no ADU of it, and a receiver takes no
/// source packet of it, so that the packet, be it the first, begins no window. Repair packets are not checked: their symbols are sums, over
/// ADUs of any flows. So a receiver may solve an ADU whose flow it does not announce and its sender does. Then the ADU's symbols are shown
/// and counted like all others, and the start of the ADU after it is found; but [`Receiver::adu`](crate::Receiver::adu) does not hand out
/// the ADU itself.
///
/// ```
/// use rlc8681::{Adu, Flows, Receiver, Refusal, Scheme, Sender};
/// # fn main() -> Result<(), Refusal> {
/// let mut sender = Sender::open(Scheme::Gf2, 4, 3, &Flows::only(&[1, 2]))?;
/// let mut receiver = Receiver::open(Scheme::Gf2, 4, 3, &Flows::only(&[1]))?;
/// let mut packet = [0; 12];
/// assert_eq!(sender.add_adu(3, b"A", &mut packet), Err(Refusal::Unannounced));
/// let n = sender.add_adu(1, b"A", &mut packet)?;
/// receiver.receive_source(1, &packet[..n])?;
/// let n = sender.add_adu(2, b"B", &mut packet)?;
/// assert_eq!(receiver.receive_source(2, &packet[..n]), Err(Refusal::Unannounced));
///
/// // Repair brings it all the same, and the ADU after it too.
/// let n = sender.make_repair(0, 15, 1, &mut packet)?.bytes;
/// assert_eq!(receiver.receive_repair(&packet[..n])?.known, 1);
/// sender.add_adu(1, b"C", &mut packet)?;
/// let n = sender.make_repair(0, 15, 1, &mut packet)?.bytes;
/// assert_eq!(receiver.receive_repair(&packet[..n])?.known, 1);
/// assert_eq!(receiver.symbol(1), Ok(&[2, 0, 1, b'B'][..]));
/// let mut out = [0; 1];
/// assert_eq!(receiver.adu(1, &mut out), Err(Refusal::Unannounced));
/// assert_eq!(receiver.adu(2, &mut out), Ok(Adu { flow: 1, bytes: b"C" }));
/// # Ok(())
/// # }
/// ```
#[derive(Clone, Copy, PartialEq, Eq, Hash)]
pub struct Flows([u8; 32]);

impl Flows {
    /// All 256 flows.
    ///
    /// ```
    /// assert!((0..=255).all(|flow| rlc8681::Flows::all().contains(flow)));
    /// ```
    #[must_use]
    pub fn all() -> Flows {
        let mut flows = Flows::none();
        // SAFETY: the pointer is to 32 bytes that are borrowed for the call alone.
        unsafe { ffi::rlc_announce_all(flows.0.as_mut_ptr()) };
        flows
    }

    /// No flow at all: a sender that announces none adds no ADU, and a receiver takes repair packets alone.
    ///
    /// ```
    /// assert!((0..=255).all(|flow| !rlc8681::Flows::none().contains(flow)));
    /// ```
    #[must_use]
    pub fn none() -> Flows {
        Flows([0; 32])
    }

    /// These flows and no others.
    ///
    /// ```
    /// use rlc8681::Flows;
    /// let flows = Flows::only(&[7, 8]);
    /// assert_eq!([6, 7, 8, 9].map(|flow| flows.contains(flow)), [false, true, true, false]);
    /// assert_eq!(flows, Flows::only(&[8, 7, 8]));
    /// ```
    #[must_use]
    pub fn only(flows: &[u8]) -> Flows {
        let mut announced = Flows::none();
        for &flow in flows {
            // SAFETY: the pointer is to 32 bytes that are borrowed for the call alone.
            unsafe { ffi::rlc_announce(announced.0.as_mut_ptr(), flow) };
        }
        announced
    }

    /// Whether a flow is among them.
    #[must_use]
    pub const fn contains(&self, flow: u8) -> bool {
        self.0[flow as usize / 8] >> (flow % 8) & 1 == 1
    }

    /// The 32 bytes that the library reads: flow F is bit F mod 8, lowest first, of byte F div 8.
    pub(crate) const fn as_ptr(&self) -> *const u8 {
        self.0.as_ptr()
    }
}

impl fmt::Debug for Flows {
    fn fmt(&self, f: &mut fmt::Formatter<'_>) -> fmt::Result {
        f.write_str("Flows")?;
        f.debug_set().entries((0..=255).filter(|&flow| self.contains(flow))).finish()
    }
}
