//! The library's side: the functions of `crates/timed`, declared as its source has them.

use crate::sides::{AtController, AtSwitch, Place, Side, Trigger};
use reference::flow::Rule;

// A slice is a pointer and a length. No function requires anything of its arguments.
extern "C" {
    fn timed_sha256(bytes: *mut u8, bytes_length: usize, times: u32) -> u64;
    fn timed_hmac(key: *const u8, key_length: usize, bytes: *mut u8, bytes_length: usize, times: u32) -> u64;
    fn timed_received(
        id: u8,
        n: u8,
        keys: *const u8,
        keys_length: usize,
        filling: *const u8,
        filling_length: usize,
        shares: *const u8,
        shares_length: usize,
        times: u32,
    ) -> u64;
    fn timed_looked_up(
        id: u8,
        n: u8,
        keys: *const u8,
        keys_length: usize,
        filling: *const u8,
        filling_length: usize,
        step: u32,
        times: u32,
    ) -> u64;
    fn timed_forwarded(
        id: u8,
        n: u8,
        keys: *const u8,
        keys_length: usize,
        filling: *const u8,
        filling_length: usize,
        step: u32,
        times: u32,
    ) -> u64;
    fn timed_written(
        id: u8,
        n: u8,
        keys: *const u8,
        keys_length: usize,
        filling: *const u8,
        filling_length: usize,
        event: bool,
        controller: u8,
        frame: *mut u8,
        frame_length: usize,
        at: usize,
        times: u32,
    ) -> u64;
    fn timed_flow_mods(
        prefix: u32,
        step: u32,
        length: u8,
        port: u16,
        frame: *mut u8,
        frame_length: usize,
        at: usize,
        times: u32,
    ) -> u64;
    fn timed_decided(
        id: u8,
        n: u8,
        keys: *const u8,
        keys_length: usize,
        book: *const u8,
        book_length: usize,
        acknowledgements: *const u8,
        acknowledgements_length: usize,
        switch: u8,
        cause: u8,
        times: u32,
    ) -> u64;
    fn timed_acknowledged(
        id: u8,
        n: u8,
        keys: *const u8,
        keys_length: usize,
        book: *const u8,
        book_length: usize,
        switch: u8,
        cause: u8,
        decisions: u32,
        acknowledgements: *const u8,
        acknowledgements_length: usize,
        times: u32,
    ) -> u64;
    fn timed_in_turn(
        id: u8,
        n: u8,
        keys: *const u8,
        keys_length: usize,
        book: *const u8,
        book_length: usize,
        switch: u8,
        cause: u8,
        acknowledgements: *const u8,
        acknowledgements_length: usize,
        times: u32,
    ) -> u64;
    fn timed_share_written(
        id: u8,
        n: u8,
        keys: *const u8,
        keys_length: usize,
        book: *const u8,
        book_length: usize,
        switch: u8,
        cause: u8,
        decisions: u32,
        receiver: u8,
        frame: *mut u8,
        frame_length: usize,
        at: usize,
        times: u32,
    ) -> u64;
    fn timed_read(book: *mut u8, book_length: usize, place: usize, times: u32) -> u64;
    fn timed_rehearsed(input: *const u8, input_length: usize, out: *mut u8, out_length: usize, times: u32) -> u64;
}

/// The proved library.
pub struct Rattle;

impl Side for Rattle {
    fn sha256(&self, bytes: &mut [u8], times: u32) -> u64 {
        unsafe { timed_sha256(bytes.as_mut_ptr(), bytes.len(), times) }
    }

    fn hmac(&self, key: &[u8], bytes: &mut [u8], times: u32) -> u64 {
        unsafe { timed_hmac(key.as_ptr(), key.len(), bytes.as_mut_ptr(), bytes.len(), times) }
    }

    fn received(&self, switch: &AtSwitch, shares: &[u8], times: u32) -> u64 {
        let AtSwitch { id, n, keys, filling } = switch;
        unsafe {
            timed_received(
                *id,
                *n,
                keys.as_ptr(),
                keys.len(),
                filling.as_ptr(),
                filling.len(),
                shares.as_ptr(),
                shares.len(),
                times,
            )
        }
    }

    fn looked_up(&self, switch: &AtSwitch, step: u32, times: u32) -> u64 {
        let AtSwitch { id, n, keys, filling } = switch;
        unsafe { timed_looked_up(*id, *n, keys.as_ptr(), keys.len(), filling.as_ptr(), filling.len(), step, times) }
    }

    fn forwarded(&self, switch: &AtSwitch, step: u32, times: u32) -> u64 {
        let AtSwitch { id, n, keys, filling } = switch;
        unsafe { timed_forwarded(*id, *n, keys.as_ptr(), keys.len(), filling.as_ptr(), filling.len(), step, times) }
    }

    fn written(&self, switch: &AtSwitch, event: bool, place: Place, frame: &mut [u8], times: u32) -> u64 {
        let AtSwitch { id, n, keys, filling } = switch;
        unsafe {
            timed_written(
                *id,
                *n,
                keys.as_ptr(),
                keys.len(),
                filling.as_ptr(),
                filling.len(),
                event,
                place.receiver,
                frame.as_mut_ptr(),
                frame.len(),
                place.at,
                times,
            )
        }
    }

    fn flow_mods(&self, rule: &Rule, step: u32, frame: &mut [u8], at: usize, times: u32) -> u64 {
        let Rule { prefix, length, action } = *rule;
        unsafe { timed_flow_mods(prefix, step, length, action.port(), frame.as_mut_ptr(), frame.len(), at, times) }
    }

    fn decided(&self, controller: &AtController, acknowledgements: &[u8], trigger: Trigger, times: u32) -> u64 {
        let AtController { id, n, keys, book } = controller;
        unsafe {
            timed_decided(
                *id,
                *n,
                keys.as_ptr(),
                keys.len(),
                book.as_ptr(),
                book.len(),
                acknowledgements.as_ptr(),
                acknowledgements.len(),
                trigger.switch,
                trigger.cause,
                times,
            )
        }
    }

    fn acknowledged(
        &self,
        controller: &AtController,
        trigger: Trigger,
        decisions: u32,
        acknowledgements: &[u8],
        times: u32,
    ) -> u64 {
        let AtController { id, n, keys, book } = controller;
        unsafe {
            timed_acknowledged(
                *id,
                *n,
                keys.as_ptr(),
                keys.len(),
                book.as_ptr(),
                book.len(),
                trigger.switch,
                trigger.cause,
                decisions,
                acknowledgements.as_ptr(),
                acknowledgements.len(),
                times,
            )
        }
    }

    fn in_turn(&self, controller: &AtController, trigger: Trigger, acknowledgements: &[u8], times: u32) -> u64 {
        let AtController { id, n, keys, book } = controller;
        unsafe {
            timed_in_turn(
                *id,
                *n,
                keys.as_ptr(),
                keys.len(),
                book.as_ptr(),
                book.len(),
                trigger.switch,
                trigger.cause,
                acknowledgements.as_ptr(),
                acknowledgements.len(),
                times,
            )
        }
    }

    fn share_written(
        &self,
        controller: &AtController,
        trigger: Trigger,
        decisions: u32,
        place: Place,
        frame: &mut [u8],
        times: u32,
    ) -> u64 {
        let AtController { id, n, keys, book } = controller;
        unsafe {
            timed_share_written(
                *id,
                *n,
                keys.as_ptr(),
                keys.len(),
                book.as_ptr(),
                book.len(),
                trigger.switch,
                trigger.cause,
                decisions,
                place.receiver,
                frame.as_mut_ptr(),
                frame.len(),
                place.at,
                times,
            )
        }
    }

    fn read(&self, book: &mut [u8], place: usize, times: u32) -> u64 {
        unsafe { timed_read(book.as_mut_ptr(), book.len(), place, times) }
    }

    fn rehearsed(&self, input: &[u8], out: &mut [u8], times: u32) -> u64 {
        unsafe { timed_rehearsed(input.as_ptr(), input.len(), out.as_mut_ptr(), out.len(), times) }
    }
}
