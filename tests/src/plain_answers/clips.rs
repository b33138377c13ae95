//! Answers about the packet count and the rate.

use crate::answers::Answer;
use crate::wrong_answers::WrongAnswer::{self, *};

/// The bytes of a number of packets.
fn bytes_of(packets: u32, wrong: WrongAnswer) -> u64 {
    match wrong {
        PacketBytesOf32Bits => u64::from(packets.wrapping_mul(192)),
        PacketsOf188 => u64::from(packets) * 188,
        _ => u64::from(packets) * 192,
    }
}

/// The clip's length in bytes.
pub fn byte_len(packets: u32, wrong: WrongAnswer) -> Answer {
    let bytes = bytes_of(packets, wrong);
    Answer::of(if wrong == LastByteForLength { bytes.saturating_sub(1) } else { bytes })
}

/// The first byte of a packet, up to and including the packet count.
pub fn spn_to_byte(packets: u32, spn: u32, wrong: WrongAnswer) -> Answer {
    if spn > packets || wrong == PacketCountRefused && spn == packets {
        return Answer::NONE;
    }
    Answer::of(bytes_of(spn, wrong))
}

/// The packet of a byte, where it is below the packet count.
pub fn byte_to_spn(packets: u32, byte: u64, wrong: WrongAnswer) -> Answer {
    let byte = if wrong == ByteOf32Bits { u64::from(byte as u32) } else { byte };
    let spn = byte / if wrong == PacketsOf188 { 188 } else { 192 };
    let there = spn < u64::from(packets) || wrong == ByteAtCountAccepted && spn == u64::from(packets);
    if there { Answer::of(spn) } else { Answer::NONE }
}

/// The bits of the seconds that the clip's bytes take, where there is a rate.
pub fn transfer_duration(rate: u32, packets: u32, wrong: WrongAnswer) -> Answer {
    let bytes = bytes_of(packets, wrong);
    if rate == 0 {
        return match wrong {
            NoRateInfinite => Answer::of((bytes as f64 / 0.0).to_bits()),
            NoRateZeroSeconds => Answer::of(0),
            _ => Answer::NONE,
        };
    }
    let seconds = match wrong {
        WholeSeconds => (bytes / u64::from(rate)) as f64,
        SecondsOf32Bits => f64::from(bytes as f32 / rate as f32),
        SecondsByInverse => bytes as f64 * (1.0 / f64::from(rate)),
        PacketsForBytes => f64::from(packets) / f64::from(rate),
        _ => quotient(bytes, rate.into(), wrong == SecondsCutOff),
    };
    Answer::of(seconds.to_bits())
}

/// The f64 nearest to a quotient, by whole numbers alone; of two that are as near, the one whose last bit is 0. Its 53
/// bits may be cut off instead.
fn quotient(bytes: u64, rate: u64, cut: bool) -> f64 {
    if bytes == 0 {
        return 0.0;
    }
    let width = |number: u64| 64 - number.leading_zeros();
    let divided = |shift: u32| {
        let whole = u128::from(bytes) << shift;
        (whole / u128::from(rate), whole % u128::from(rate))
    };
    let least = 52 + width(rate) - width(bytes);
    let shift = if divided(least).0 < 1 << 52 { least + 1 } else { least };
    let (bits, rest) = divided(shift);
    let up = 2 * rest > u128::from(rate) || 2 * rest == u128::from(rate) && bits % 2 == 1;
    let bits = bits + u128::from(up && !cut);
    bits as f64 / (1u128 << shift) as f64
}
