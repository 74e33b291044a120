//! Scales and samples, at the edges and random.

use host::testing::random::Random;

/// The fraction's bits in a float.
const FRACTION: u32 = 23;

/// Not a number: quiet and signalling, of both signs, with payloads at the edges and between.
pub const NOT_A_NUMBER: [u32; 9] = [
    0x7F80_0001,
    0x7F80_0100,
    0x7FBF_FFFF,
    0x7FC0_0000,
    0x7FFF_FFFF,
    0xFF80_0001,
    0xFFA5_5A5A,
    0xFFC0_0000,
    0xFFFF_FFFF,
];

/// 2^power, of the normal floats.
pub fn power_of_two(power: i32) -> f32 {
    f32::from_bits(((power + 127) as u32) << FRACTION)
}

/// Numbers of every exponent with the mantissas at the edges, and infinity; of both signs.
pub fn edges() -> Vec<f32> {
    let fractions = [
        0, 1, 2, 3, 0x1FFFFF, 0x200000, 0x3FFFFF, 0x400000, 0x400001, 0x600000, 0x7FFFFE, 0x7FFFFF,
    ];
    let finite = (0..255).flat_map(|field| {
        fractions.map(move |fraction| f32::from_bits((field << FRACTION) + fraction))
    });
    let positive = finite.chain([f32::INFINITY]);
    positive.flat_map(|y| [y, -y]).collect()
}

/// Scales at the edges, simple ones, and a random one of every exponent.
pub fn right_scales(random: &mut Random) -> Vec<f32> {
    let mut scales = vec![f32::from_bits(1), f32::MAX, 0.25, 3.0];
    for edge in [f32::MIN_POSITIVE, 0.5, 1.0, 2.0, 4.0] {
        scales.extend([edge.next_down(), edge, edge.next_up()]);
    }
    scales.extend((0..255).map(|field| {
        let fraction = random.between(1, 0x7FFFFF) as u32;
        f32::from_bits((field << FRACTION) + fraction)
    }));
    scales
}

pub fn wrong_scales() -> Vec<f32> {
    let mut scales = vec![0.0, -0.0, f32::INFINITY, f32::NEG_INFINITY];
    scales.extend([f32::from_bits(1), f32::MIN_POSITIVE, 0.25, 1.0, f32::MAX].map(|x| -x));
    scales.extend(NOT_A_NUMBER.map(f32::from_bits));
    scales
}

/// Any scale that is accepted, every exponent as often as another.
pub fn right_scale(random: &mut Random) -> f32 {
    f32::from_bits(random.between(1, f32::MAX.to_bits() as usize) as u32)
}

/// Any samples that are accepted, every exponent as often as another.
pub fn any_samples(random: &mut Random, count: usize) -> Vec<f32> {
    let any = |_| {
        let bits = random.between(0, f32::INFINITY.to_bits() as usize);
        signed(random, f32::from_bits(bits as u32))
    };
    (0..count).map(any).collect()
}

/// Samples for products between −16 and 16, about half of which are clipped.
pub fn useful_samples(random: &mut Random, count: usize, scale: f32) -> Vec<f32> {
    let useful = |_| {
        let p = random.below(1 << 24) as f32 / power_of_two(20);
        signed(random, p / scale)
    };
    (0..count).map(useful).collect()
}

/// A sample that is refused.
pub fn any_nan(random: &mut Random) -> f32 {
    f32::from_bits(NOT_A_NUMBER[random.below(NOT_A_NUMBER.len())])
}

pub fn signed(random: &mut Random, magnitude: f32) -> f32 {
    if random.bit() {
        -magnitude
    } else {
        magnitude
    }
}
