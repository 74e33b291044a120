//! Frames that a chosen trial accepts, or no trial of some: under one start of the check its bits pass,
//! whatever they are, and under each other start they fail.

use crate::reference::check::check;
use crate::reference::description::{with_start, Code};
use crate::reference::frame::Frame;
use crate::reference::pass::{pass, plain_rules, Rule};
use crate::reference::placing::take;

/// The description of kind 4 under which the trial that flips a set passes.
pub fn passing_description(d: &[u8], channel: &[u8], set: &[usize]) -> Vec<u8> {
    let frame = Frame::read(d, channel).expect("a frame");
    with_start(d, start_of(&frame, set))
}

/// A description of kind 4 under which the trials that flip these sets fail, where there is one.
pub fn failing_description(d: &[u8], channel: &[u8], sets: &[Vec<usize>]) -> Option<Vec<u8>> {
    let frame = Frame::read(d, channel).expect("a frame");
    let passing: Vec<u16> = sets.iter().map(|set| start_of(&frame, set)).collect();
    let mut starts = 0..1u32 << frame.code.r;
    let start = starts.find(|&start| !passing.contains(&(start as u16)))?;
    Some(with_start(d, start as u16))
}

/// The start under which the trial that flips a set passes.
fn start_of(frame: &Frame, set: &[usize]) -> u16 {
    let mut rules = plain_rules(frame.mask);
    for &index in set {
        rules[index] = Rule::Opposite;
    }
    let bits = pass(&frame.values, &[], &rules).bits;
    passing_start(&frame.code, &take(frame.mask, &bits))
}

/// The start with which a message's check is right: what lacks under start 0 is start · z^k, which is
/// divided by z as often as there are payload bits.
fn passing_start(code: &Code, message: &[u8]) -> u16 {
    let (payload, check_bits) = message.split_at(code.k);
    let without = check(payload, code.r, code.polynomial, 0);
    let lacking = without.iter().zip(check_bits).map(|(a, b)| a ^ b);
    let lacking = lacking.fold(0, |number, bit| 2 * number + u32::from(bit));
    let start = (0..code.k).fold(lacking, |number, _| over_z(code, number)) as u16;
    assert_eq!(check(payload, code.r, code.polynomial, start), check_bits);
    start
}

/// A number's polynomial over z, modulo the check's, whose lowest coefficient is 1.
fn over_z(code: &Code, number: u32) -> u32 {
    let divisor = 1 << code.r | u32::from(code.polynomial);
    match number % 2 {
        0 => number / 2,
        _ => (number ^ divisor) / 2,
    }
}
