//! What is timed, the same on every side: a call made over and over, whose answers are mixed into a sum.

use reference::flow::Rule;

/// A switch that has received the shares of `filling` since it was set up, one after another.
pub struct AtSwitch {
    pub id: u8,
    pub n: u8,
    pub keys: Vec<u8>,
    pub filling: Vec<u8>,
}

/// A controller with the playbook that bytes are.
pub struct AtController {
    pub id: u8,
    pub n: u8,
    pub keys: Vec<u8>,
    pub book: Vec<u8>,
}

/// The switch and cause of a decision.
#[derive(Clone, Copy)]
pub struct Trigger {
    pub switch: u8,
    pub cause: u8,
}

/// Where a message is written: for which end, and at which offset.
#[derive(Clone, Copy)]
pub struct Place {
    pub receiver: u8,
    pub at: usize,
}

/// One side of the comparison. The sums of two sides are equal where their calls answer the same.
pub trait Side {
    /// SHA-256 of the bytes, each time with the first byte of the last hash at their front.
    fn sha256(&self, bytes: &mut [u8], times: u32) -> u64;

    /// HMAC of the bytes, each time with the first byte of the last one at their front.
    fn hmac(&self, key: &[u8], bytes: &mut [u8], times: u32) -> u64;

    /// Shares received one after another, over and over from the same state.
    fn received(&self, switch: &AtSwitch, shares: &[u8], times: u32) -> u64;

    /// Lookups at a switch, which asks question 20, of addresses that are a step apart.
    fn looked_up(&self, switch: &AtSwitch, step: u32, times: u32) -> u64;

    /// Lookups in its table, which asks nothing.
    fn forwarded(&self, switch: &AtSwitch, step: u32, times: u32) -> u64;

    /// Events, or acknowledgements, written into a frame.
    fn written(&self, switch: &AtSwitch, event: bool, place: Place, frame: &mut [u8], times: u32) -> u64;

    /// FLOW_MODs written at an offset of a frame with the numbers from 0 on, of a rule and of those whose prefixes are a
    /// step apart.
    fn flow_mods(&self, rule: &Rule, step: u32, frame: &mut [u8], at: usize, times: u32) -> u64;

    /// Decisions on a trigger with the serials from 1 on, after acknowledgements.
    fn decided(&self, controller: &AtController, acknowledgements: &[u8], trigger: Trigger, times: u32) -> u64;

    /// Acknowledgements received one after another, over and over from the state after so many decisions.
    fn acknowledged(
        &self,
        controller: &AtController,
        trigger: Trigger,
        decisions: u32,
        acknowledgements: &[u8],
        times: u32,
    ) -> u64;

    /// A decision before each acknowledgement, over and over from the state after setup.
    fn in_turn(&self, controller: &AtController, trigger: Trigger, acknowledgements: &[u8], times: u32) -> u64;

    /// Shares written into a frame after so many decisions.
    fn share_written(
        &self,
        controller: &AtController,
        trigger: Trigger,
        decisions: u32,
        place: Place,
        frame: &mut [u8],
        times: u32,
    ) -> u64;

    /// A playbook read, each time with another byte at a place.
    fn read(&self, book: &mut [u8], place: usize, times: u32) -> u64;

    /// An input rehearsed, its lines printed to an output.
    fn rehearsed(&self, input: &[u8], out: &mut [u8], times: u32) -> u64;
}

/// A sum that depends on every number mixed into it, and on their order.
pub fn mix(sum: u64, x: u32) -> u64 {
    sum % 0x100_0000_0000 * 31 + u64::from(x)
}
