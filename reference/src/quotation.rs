//! The calls that quote: the four quotations, the counts for a class, and the record.

use crate::bits::BitWriter;
use crate::figure::{Asked, Quotation, FIGURES};
use crate::plan::{require_team, Plan};
use crate::refusal::{require, Refusal};
use crate::rounds;

pub const RECORD_OCTETS: usize = 11;

impl Plan {
    /// Quotes a figure, or a count for a class, and puts the walk at the front of the buffer. Later
    /// places stay.
    pub fn quote(&self, asked: impl Into<Asked>, buffer: &mut [u16]) -> Result<Quotation, Refusal> {
        let asked = asked.into();
        self.require_limits()?;
        asked.team.map_or(Ok(()), require_team)?;
        require(buffer.len() >= self.states.len(), Refusal::BufferTooShort)?;
        let quotation = rounds::quote(self, asked);
        for (place, &number) in buffer.iter_mut().zip(&quotation.walk) {
            *place = number as u16;
        }
        Ok(quotation)
    }

    /// Puts the quotation record at the front of the buffer and returns its length. Later octets
    /// stay.
    pub fn record(&self, buffer: &mut [u8]) -> Result<usize, Refusal> {
        self.require_limits()?;
        require(buffer.len() >= RECORD_OCTETS, Refusal::BufferTooShort)?;
        let values = FIGURES.map(|figure| rounds::quote(self, figure).value);
        let mut bits = BitWriter::with_capacity(RECORD_OCTETS);
        for value in values {
            bits.put(2, value.kind());
            bits.put(20, value.figure());
        }
        buffer[..RECORD_OCTETS].copy_from_slice(&bits.finish());
        Ok(RECORD_OCTETS)
    }
}
