//! Makes programs and expressions that come near one of the limits in docs/PROFILE.md, or exceed it
//! by a little.

use crate::encoded::push_uleb;
use crate::random::Random;
use crate::target::Target;

/// A random number from `limit - 4` to `limit + 2`, so that most are within the limit.
fn near(random: &mut Random, limit: usize) -> usize {
    limit - 4 + random.below(7)
}

fn push_sleb(bytes: &mut Vec<u8>, mut number: i64) {
    while !(-0x40..0x40).contains(&number) {
        bytes.push(number as u8 & 0x7f | 0x80);
        number >>= 7;
    }
    bytes.push(number as u8 & 0x7f);
}

/// The beginning of an FDE's program, with one of these: many nested remember_state instructions,
/// offsets that only just fit in 64 bits, or rules for many registers.
pub fn program(random: &mut Random) -> Vec<u8> {
    match random.below(3) {
        0 => remembered(random),
        1 => far_offsets(random),
        _ => many_rules(random),
    }
}

/// Nested remember_state instructions, most of them followed by a change of a rule, and then the
/// same number of restore_state instructions, or sometimes one fewer or one more.
fn remembered(random: &mut Random) -> Vec<u8> {
    let mut bytes = Vec::new();
    let count = near(random, 16);
    for _ in 0..count {
        bytes.push(0x0a);
        match random.below(4) {
            0 => bytes.extend([0x07, random.below(20) as u8]),
            1 => bytes.extend([0x0e, random.below(100) as u8]),
            2 => bytes.extend([0x80 + random.below(20) as u8, random.below(20) as u8]),
            _ => {}
        }
    }
    let restored = if random.one_of(8) { count - 1 + random.below(3) } else { count };
    bytes.extend(vec![0x0b; restored]);
    bytes
}

/// Instructions with an offset that is near the limits of 64 bits, either as it is written or after
/// it is multiplied by an alignment factor.
fn far_offsets(random: &mut Random) -> Vec<u8> {
    let mut bytes = Vec::new();
    for _ in 0..1 + random.below(3) {
        let shift = *random.of(&[56, 59, 60, 61, 62, 63]);
        let near = (1u64 << shift).wrapping_add(random.below(3) as u64).wrapping_sub(1);
        let register = random.below(20) as u8;
        match random.below(6) {
            0 => bytes.push(0x80 + register),
            1 => bytes.extend([*random.of(&[0x05, 0x14]), register]),
            2 => bytes.extend([0x0c, register]),
            3 => bytes.push(0x0e),
            4 => {
                bytes.extend([*random.of(&[0x11, 0x12, 0x15]), register]);
                push_sleb(&mut bytes, near as i64);
                continue;
            }
            _ => {
                bytes.push(0x13);
                push_sleb(&mut bytes, (near as i64).wrapping_neg());
                continue;
            }
        }
        push_uleb(&mut bytes, near);
    }
    bytes
}

/// Rules for many consecutive registers, some of which get a restore_extended.
fn many_rules(random: &mut Random) -> Vec<u8> {
    let mut bytes = Vec::new();
    let first = *random.of(&[0, 0, 1, 17, 1000]);
    let count = near(random, 128);
    for register in first..first + count {
        let code = *random.of(&[0x05, 0x07, 0x08, 0x09, 0x11, 0x14]);
        bytes.push(code);
        push_uleb(&mut bytes, register as u64);
        if !matches!(code, 0x07 | 0x08) {
            bytes.push(random.below(64) as u8);
        }
        if random.one_of(64) {
            bytes.push(0x06);
            push_uleb(&mut bytes, (first + random.below(count)) as u64);
        }
    }
    bytes
}

/// An expression with one of these: many entries on the stack, branches over operations that push
/// and pop, or many pieces.
pub fn expression(random: &mut Random, target: Target) -> Vec<u8> {
    match random.below(3) {
        0 => high(random),
        1 => branching(random, target),
        _ => pieces(random),
    }
}

/// An expression that pushes about as many entries as are allowed, sometimes a few more, and then
/// pops some of them.
fn high(random: &mut Random) -> Vec<u8> {
    let mut bytes = vec![0x31, 0x32];
    for _ in 2..near(random, 128) {
        match random.below(4) {
            0 => bytes.push(0x12),
            1 => bytes.push(0x14),
            2 => bytes.extend([0x70 + random.below(32) as u8, random.below(64) as u8]),
            _ => bytes.push(0x30 + random.below(32) as u8),
        }
    }
    for _ in 0..random.below(8) {
        bytes.push(*random.of(&[0x13, 0x16, 0x17, 0x1c, 0x22, 0x27, 0x29]));
    }
    bytes
}

/// A few operations that together leave the number of stack entries as it was; now and then some
/// that change it.
fn body(random: &mut Random) -> Vec<u8> {
    let mut bytes = Vec::new();
    for _ in 0..random.below(4) {
        let even: &[&[u8]] = &[&[0x96], &[0x20], &[0x12, 0x13], &[0x33, 0x22], &[0x12, 0x1c, 0x31, 0x22]];
        let uneven: &[&[u8]] = &[&[0x31], &[0x12], &[0x13]];
        let parts = if random.one_of(8) { uneven } else { even };
        bytes.extend(*random.of(parts));
    }
    bytes
}

/// An expression with branches that skip a few operations, or that choose between two groups of
/// operations. Some branches lead to another byte, not always the start of an operation.
fn branching(random: &mut Random, target: Target) -> Vec<u8> {
    let mut bytes = vec![0x35];
    for _ in 0..1 + random.below(4) {
        let (mut first, second) = (body(random), body(random));
        if random.one_of(2) {
            first.push(0x2f);
            first.extend(target.number(second.len() as u64, 2));
        }
        let to = if random.one_of(8) { random.below(first.len() + 1) } else { first.len() };
        bytes.extend([0x30 + random.below(2) as u8, 0x28]);
        bytes.extend(target.number(to as u64, 2));
        bytes.extend(first);
        bytes.extend(second);
    }
    bytes
}

/// An expression with about as many pieces as are allowed, sometimes a few more, of every kind.
fn pieces(random: &mut Random) -> Vec<u8> {
    let mut bytes = Vec::new();
    for _ in 0..near(random, 32) {
        match random.below(6) {
            0 => {}
            1 => bytes.push(0x50 + random.below(32) as u8),
            2 => bytes.extend([0x90, random.below(64) as u8]),
            3 => bytes.extend([0x30 + random.below(32) as u8, 0x9f]),
            4 => bytes.extend([0x9e, 2, random.below(256) as u8, random.below(256) as u8]),
            _ => bytes.extend([0x70 + random.below(32) as u8, random.below(64) as u8]),
        }
        if random.one_of(4) {
            bytes.push(0x9d);
            push_uleb(&mut bytes, random.below(1000) as u64);
            push_uleb(&mut bytes, random.below(64) as u64);
        } else {
            bytes.push(0x93);
            push_uleb(&mut bytes, random.below(1000) as u64);
        }
    }
    bytes
}
