//! Sixteen bytes at a time, by instructions of SSE2.

use core::arch::x86_64::{
    __m128i, _mm_cmpeq_epi8, _mm_loadu_si128, _mm_movemask_epi8, _mm_or_si128, _mm_setzero_si128, _mm_sub_epi8, _mm_sub_epi16,
    _mm_subs_epu8, _mm_subs_epu16,
};
use core::ops::BitOr;

#[derive(Clone, Copy)]
pub struct Lanes(__m128i);

impl Lanes {
    #[inline(always)]
    pub fn zero() -> Lanes {
        // SAFETY: every x86-64 has SSE2.
        unsafe { Lanes(_mm_setzero_si128()) }
    }

    #[inline(always)]
    pub fn load(bytes: &[u8], at: usize) -> Lanes {
        let part: &[u8; 16] = bytes[at..at + 16].try_into().expect("16 bytes");
        // SAFETY: the pointer is to 16 readable bytes, and the load needs no alignment.
        unsafe { Lanes(_mm_loadu_si128(part.as_ptr().cast())) }
    }

    #[inline(always)]
    pub fn is_zero(self) -> bool {
        // SAFETY: every x86-64 has SSE2.
        unsafe { _mm_movemask_epi8(_mm_cmpeq_epi8(self.0, _mm_setzero_si128())) == 0xffff }
    }

    /// A bit for each byte that differs, the first byte's lowest.
    #[inline(always)]
    pub fn differing(self, other: Lanes) -> u32 {
        // SAFETY: every x86-64 has SSE2.
        unsafe { _mm_movemask_epi8(_mm_cmpeq_epi8(self.0, other.0)) as u32 ^ 0xffff }
    }

    /// Bytes: what self − from has above span, without a sign; zero where from ≤ self ≤ from + span.
    #[inline(always)]
    pub fn outside(self, from: Lanes, span: Lanes) -> Lanes {
        // SAFETY: every x86-64 has SSE2.
        unsafe { Lanes(_mm_subs_epu8(_mm_sub_epi8(self.0, from.0), span.0)) }
    }

    /// The same in words of 16 bits.
    #[inline(always)]
    pub fn outside_u16(self, from: Lanes, span: Lanes) -> Lanes {
        // SAFETY: every x86-64 has SSE2.
        unsafe { Lanes(_mm_subs_epu16(_mm_sub_epi16(self.0, from.0), span.0)) }
    }
}

impl BitOr for Lanes {
    type Output = Lanes;

    #[inline(always)]
    fn bitor(self, other: Lanes) -> Lanes {
        // SAFETY: every x86-64 has SSE2.
        unsafe { Lanes(_mm_or_si128(self.0, other.0)) }
    }
}
