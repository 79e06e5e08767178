//! An applied rule as a FLOW_MOD of OpenFlow 1.3.5, for switches of other makers (document 02, N1). Names in capitals
//! are the standard's. Fields that neither document names are zero.

use crate::flow::{Action, Rule, LONGEST};
use crate::message::part_of;
use crate::{ask, Question, DONE};

/// Bytes of `ofp_flow_mod` before its match.
const FIXED: usize = 48;
/// Bytes of a match with its padding: the Ethernet type alone, and the IPv4 destination behind it.
const ANY_MATCH: usize = 16;
const MATCH: usize = 24;
/// Bytes of an apply-actions instruction with one output.
const INSTRUCTION: usize = 24;

const VERSION: u8 = 4;
const OFPT_FLOW_MOD: u8 = 14;
const OFPFC_ADD: u8 = 0;
const OFPFC_DELETE_STRICT: u8 = 4;
/// OFP_NO_BUFFER, OFPP_ANY and OFPG_ANY are the same number.
const NONE: u32 = u32::MAX;

const OFPMT_OXM: u16 = 1;
/// OXM headers of class OFPXMC_OPENFLOW_BASIC: the field's number above the bit for a mask, then the payload's length.
const OXM_OF_ETH_TYPE: u32 = 0x8000 << 16 | 5 << 9 | 2;
const OXM_OF_IPV4_DST: u32 = 0x8000 << 16 | 12 << 9 | 4;
const OXM_OF_IPV4_DST_W: u32 = 0x8000 << 16 | 12 << 9 | 1 << 8 | 8;
const IPV4: u16 = 0x0800;
/// What a match's length field says. It leaves the padding out.
const ANY_MATCHED: u16 = 4 + 6;
const ONE_MATCHED: u16 = ANY_MATCHED + 8;
const MASKED: u16 = ANY_MATCHED + 12;

const OFPIT_APPLY_ACTIONS: u16 = 4;
const OFPAT_OUTPUT: u16 = 0;
const OUTPUT: u16 = 16;

/// Writes the FLOW_MOD of a change's number and rule at an offset of a frame: the answer, and how many bytes were
/// written, 0 where it is refused.
pub fn write_flow_mod(number: u32, rule: &Rule, frame: &mut [u8], at: usize) -> (u8, usize) {
    match put_flow_mod(number, rule, frame, at) {
        Ok(length) => (DONE, length),
        Err(question) => (question.number(), 0),
    }
}

/// How many bytes the FLOW_MOD of a rule has.
pub const fn flow_mod_length(rule: &Rule) -> usize {
    let matched = if rule.length == 0 { ANY_MATCH } else { MATCH };
    match rule.action {
        Action::Remove => FIXED + matched,
        Action::Set(_) => FIXED + matched + INSTRUCTION,
    }
}

/// Questions 15 and 25, the second for the message's own length.
fn put_flow_mod(number: u32, rule: &Rule, frame: &mut [u8], at: usize) -> Result<usize, Question> {
    ask(Question::WellFormed, rule.well_formed())?;
    let length = flow_mod_length(rule);
    let mut left = part_of(frame, at, length)?;
    put(&mut left, fixed(length as u16, number, rule));
    match rule.length {
        0 => put(&mut left, any_match()),
        LONGEST => put(&mut left, exact_match(rule.prefix)),
        _ => put(&mut left, masked_match(rule.prefix, rule.mask())),
    }
    if let Action::Set(port) = rule.action {
        put(&mut left, instruction(port));
    }
    Ok(length)
}

/// Puts bytes at the front of a part, and leaves the part behind them. The part is as long as all that is put.
#[inline(always)]
fn put<const N: usize>(left: &mut &mut [u8], bytes: [u8; N]) {
    if let Some((places, rest)) = std::mem::take(left).split_first_chunk_mut() {
        *places = bytes;
        *left = rest;
    }
}

/// `ofp_flow_mod` up to its match.
#[inline(always)]
fn fixed(length: u16, number: u32, rule: &Rule) -> [u8; FIXED] {
    let mut bytes = [0; FIXED];
    bytes[0] = VERSION;
    bytes[1] = OFPT_FLOW_MOD;
    bytes[2..4].copy_from_slice(&length.to_be_bytes());
    bytes[4..8].copy_from_slice(&number.to_be_bytes());
    bytes[25] = if rule.action == Action::Remove { OFPFC_DELETE_STRICT } else { OFPFC_ADD };
    bytes[30..32].copy_from_slice(&u16::from(rule.length).to_be_bytes());
    bytes[32..36].copy_from_slice(&NONE.to_be_bytes());
    bytes[36..40].copy_from_slice(&NONE.to_be_bytes());
    bytes[40..44].copy_from_slice(&NONE.to_be_bytes());
    bytes
}

/// `ofp_match` of so many bytes with padding, up to its Ethernet type.
#[inline(always)]
fn ipv4_match<const N: usize>(length: u16) -> [u8; N] {
    let mut bytes = [0; N];
    bytes[0..2].copy_from_slice(&OFPMT_OXM.to_be_bytes());
    bytes[2..4].copy_from_slice(&length.to_be_bytes());
    bytes[4..8].copy_from_slice(&OXM_OF_ETH_TYPE.to_be_bytes());
    bytes[8..10].copy_from_slice(&IPV4.to_be_bytes());
    bytes
}

/// The match of every IPv4 destination.
#[inline(always)]
fn any_match() -> [u8; ANY_MATCH] {
    ipv4_match(ANY_MATCHED)
}

/// The match of one destination.
#[inline(always)]
fn exact_match(address: u32) -> [u8; MATCH] {
    let mut bytes = ipv4_match(ONE_MATCHED);
    bytes[10..14].copy_from_slice(&OXM_OF_IPV4_DST.to_be_bytes());
    bytes[14..18].copy_from_slice(&address.to_be_bytes());
    bytes
}

/// The match of the destinations under a mask.
#[inline(always)]
fn masked_match(prefix: u32, mask: u32) -> [u8; MATCH] {
    let mut bytes = ipv4_match(MASKED);
    bytes[10..14].copy_from_slice(&OXM_OF_IPV4_DST_W.to_be_bytes());
    bytes[14..18].copy_from_slice(&prefix.to_be_bytes());
    bytes[18..22].copy_from_slice(&mask.to_be_bytes());
    bytes
}

/// `ofp_instruction_actions` with one `ofp_action_output`.
#[inline(always)]
fn instruction(port: u16) -> [u8; INSTRUCTION] {
    let mut bytes = [0; INSTRUCTION];
    bytes[0..2].copy_from_slice(&OFPIT_APPLY_ACTIONS.to_be_bytes());
    bytes[2..4].copy_from_slice(&(INSTRUCTION as u16).to_be_bytes());
    bytes[8..10].copy_from_slice(&OFPAT_OUTPUT.to_be_bytes());
    bytes[10..12].copy_from_slice(&OUTPUT.to_be_bytes());
    bytes[12..16].copy_from_slice(&u32::from(port).to_be_bytes());
    bytes
}
