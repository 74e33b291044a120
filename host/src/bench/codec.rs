//! The codecs that are compared.

use std::fmt::{self, Display, Formatter};

use crate::testing::library::{self, call, Decoder, HearingDecoder, SetDecoder};

type Encode = fn(&[u8], &[u8], &mut [u8]) -> u64;
type Resume = fn(&[u8], &[u8], &[u8], &mut [u8]) -> u64;
type Open = fn(&[u8], &mut [u8]) -> u64;
type Add = fn(&mut [u8], &[u8]) -> u64;
type Clear = fn(&mut [u8]) -> u64;
type Quantise = fn(f32, &[f32], &mut [u8], &mut [u64; 2]) -> f32;

/// A codec with the calls and answers of `library`.
pub struct Codec {
    pub name: &'static str,
    pub encode: Encode,
    pub resume: Resume,
    pub decode_full: Decoder,
    pub decode_half: Decoder,
    pub decode_restarted: Decoder,
    pub decode_sets_full: SetDecoder,
    pub decode_sets_half: SetDecoder,
    pub decode_sets_restarted: SetDecoder,
    pub hearing_open: Open,
    pub hearing_add: Add,
    pub hearing_clear: Clear,
    pub hearing_decode_full: HearingDecoder,
    pub hearing_decode_restarted: HearingDecoder,
    pub hearing_preview: Decoder,
    pub quantise: Quantise,
}

/// How trials after the first are made.
#[derive(Clone, Copy, Debug, PartialEq, Eq)]
pub enum Way {
    Full,
    Half,
    Restarted,
}

impl Way {
    pub const ALL: [Way; 3] = [Way::Full, Way::Half, Way::Restarted];
}

impl Display for Way {
    fn fmt(&self, to: &mut Formatter) -> fmt::Result {
        to.write_str(match self {
            Way::Full => "full",
            Way::Half => "half",
            Way::Restarted => "restarted",
        })
    }
}

impl Codec {
    pub fn decoder(&self, way: Way) -> Decoder {
        match way {
            Way::Full => self.decode_full,
            Way::Half => self.decode_half,
            Way::Restarted => self.decode_restarted,
        }
    }

    pub fn set_decoder(&self, way: Way) -> SetDecoder {
        match way {
            Way::Full => self.decode_sets_full,
            Way::Half => self.decode_sets_half,
            Way::Restarted => self.decode_sets_restarted,
        }
    }
}

/// The proved codec, libpolar.a.
pub const LIBRARY: Codec = Codec {
    name: "polar",
    encode: library::encode,
    resume: library::resume,
    decode_full: library::decode_full,
    decode_half: library::decode_half,
    decode_restarted: library::decode_restarted,
    decode_sets_full: library::decode_sets_full,
    decode_sets_half: library::decode_sets_half,
    decode_sets_restarted: library::decode_sets_restarted,
    hearing_open: library::hearing_open,
    hearing_add: library::hearing_add,
    hearing_clear: library::hearing_clear,
    hearing_decode_full: library::hearing_decode_full,
    hearing_decode_restarted: library::hearing_decode_restarted,
    hearing_preview: library::hearing_preview,
    quantise: library::quantise,
};

/// The package `plain`.
const PLAIN_RUST: Codec = Codec {
    name: "plain Rust",
    encode: plain::encode,
    resume: plain::resume,
    decode_full: plain::decode_full,
    decode_half: plain::decode_half,
    decode_restarted: plain::decode_restarted,
    decode_sets_full: plain::decode_sets_full,
    decode_sets_half: plain::decode_sets_half,
    decode_sets_restarted: plain::decode_sets_restarted,
    hearing_open: plain::hearing_open,
    hearing_add: plain::hearing_add,
    hearing_clear: plain::hearing_clear,
    hearing_decode_full: plain::hearing_decode_full,
    hearing_decode_restarted: plain::hearing_decode_restarted,
    hearing_preview: plain::hearing_preview,
    quantise: plain::quantise,
};

/// The compilers of plain C, each with its version, or nothing where the build has not found it.
pub const COMPILERS: [(&str, &str); 2] =
    [("gcc", env!("PLAIN_GCC")), ("clang", env!("PLAIN_CLANG"))];

/// bench/plain.c by one compiler. SAFETY of the calls: its functions keep to what `call` asks, and
/// the table is constant.
macro_rules! plain_c {
    ($name:literal, $table:ident) => {
        Codec {
            name: $name,
            encode: |d, payload, codeword| unsafe {
                call::encode($table.encode, d, payload, codeword)
            },
            resume: |d, channel, prefix, bits| unsafe {
                call::resume($table.resume, d, channel, prefix, bits)
            },
            decode_full: |d, channel, limit, payload| unsafe {
                call::decode($table.decode_full, d, channel, limit, payload)
            },
            decode_half: |d, channel, limit, payload| unsafe {
                call::decode($table.decode_half, d, channel, limit, payload)
            },
            decode_restarted: |d, channel, limit, payload| unsafe {
                call::decode($table.decode_restarted, d, channel, limit, payload)
            },
            decode_sets_full: |d, channel, most_flips, limit, payload| unsafe {
                let by = $table.decode_sets_full;
                call::decode_sets(by, d, channel, most_flips, limit, payload)
            },
            decode_sets_half: |d, channel, most_flips, limit, payload| unsafe {
                let by = $table.decode_sets_half;
                call::decode_sets(by, d, channel, most_flips, limit, payload)
            },
            decode_sets_restarted: |d, channel, most_flips, limit, payload| unsafe {
                let by = $table.decode_sets_restarted;
                call::decode_sets(by, d, channel, most_flips, limit, payload)
            },
            hearing_open: |d, state| unsafe { call::open($table.hearing_open, d, state) },
            hearing_add: |state, channel| unsafe { call::add($table.hearing_add, state, channel) },
            hearing_clear: |state| unsafe { call::clear($table.hearing_clear, state) },
            hearing_decode_full: |state, limit, payload| unsafe {
                call::decode_hearing($table.hearing_decode_full, state, limit, payload)
            },
            hearing_decode_restarted: |state, limit, payload| unsafe {
                call::decode_hearing($table.hearing_decode_restarted, state, limit, payload)
            },
            hearing_preview: |state, channel, limit, payload| unsafe {
                call::decode($table.hearing_preview, state, channel, limit, payload)
            },
            quantise: |scale, samples, output, numbers| unsafe {
                call::quantise($table.quantise, scale, samples, output, numbers)
            },
        }
    };
}

/// The codecs beside the library: plain C by each compiler that the build found, and plain Rust.
pub fn others() -> Vec<Codec> {
    vec![
        #[cfg(plain_c = "gcc")]
        plain_c!("gcc -O3", plain_gcc),
        #[cfg(plain_c = "clang")]
        plain_c!("clang -O3", plain_clang),
        PLAIN_RUST,
    ]
}

/// Plain C's restarted decoder of flip sets with a clock around each choice of the next set, by one
/// compiler. It gives the time of the call and, of it, that of choosing, in nanoseconds.
pub struct Clocked {
    pub name: &'static str,
    pub time: fn(&[u8], &[u8], u32, u32, &mut [u8]) -> [u64; 2],
}

/// SAFETY as in `plain_c`.
macro_rules! clocked {
    ($name:literal, $table:ident) => {
        Clocked {
            name: $name,
            time: |d, channel, most_flips, limit, payload| {
                let mut numbers = [0; 2];
                unsafe {
                    ($table.decode_sets_by_clock)(
                        d.as_ptr(),
                        d.len(),
                        channel.as_ptr(),
                        channel.len(),
                        most_flips,
                        limit,
                        payload.as_mut_ptr(),
                        payload.len(),
                        numbers.as_mut_ptr(),
                    );
                }
                numbers
            },
        }
    };
}

/// By each compiler that the build found.
pub fn clocked() -> Vec<Clocked> {
    vec![
        #[cfg(plain_c = "gcc")]
        clocked!("gcc -O3", plain_gcc),
        #[cfg(plain_c = "clang")]
        clocked!("clang -O3", plain_clang),
    ]
}

/// The call of plain C's decoder with a clock.
type DecodeByClock = unsafe extern "C" fn(
    *const u8,
    usize,
    *const u8,
    usize,
    u32,
    u32,
    *mut u8,
    usize,
    *mut u64,
) -> u64;

/// The functions of bench/plain.c.
#[repr(C)]
struct Table {
    encode: call::Encode,
    resume: call::Resume,
    decode_full: call::Decode,
    decode_half: call::Decode,
    decode_restarted: call::Decode,
    decode_sets_full: call::DecodeSets,
    decode_sets_half: call::DecodeSets,
    decode_sets_restarted: call::DecodeSets,
    decode_sets_by_clock: DecodeByClock,
    hearing_open: call::Open,
    hearing_add: call::Add,
    hearing_clear: call::Clear,
    hearing_decode_full: call::DecodeHearing,
    hearing_decode_restarted: call::DecodeHearing,
    hearing_preview: call::Decode,
    quantise: call::Quantise,
}

extern "C" {
    #[cfg(plain_c = "gcc")]
    static plain_gcc: Table;
    #[cfg(plain_c = "clang")]
    static plain_clang: Table;
}
