//! The resolution notification section.

use crate::refusal::fine;
use crate::{raw, Header, Refusal};

/// A section that was read.
#[derive(Clone, Copy, Debug, PartialEq, Eq)]
#[non_exhaustive]
#[allow(missing_docs)]
pub struct Section<'a> {
    /// All bytes of the section, its CRC included.
    pub bytes: &'a [u8],
    pub header: Header,
    pub context_id_type: u8,
    pub reserved_common_descriptors_length: u16,
    pub common_descriptors: &'a [u8],
    pub number_of_providers: usize,
    /// Where the first provider stands, and where the last one ends: no section has places above 16 bits.
    providers: (u16, u16),
}

/// A provider, without its authorities.
#[derive(Clone, Copy, Debug, PartialEq, Eq)]
#[allow(missing_docs)]
pub struct Provider<'a> {
    pub reserved_info_length: u16,
    pub name: &'a [u8],
    pub reserved_descriptors_length: u16,
    pub descriptors: &'a [u8],
    pub number_of_authorities: usize,
}

/// An authority of a provider.
#[derive(Clone, Copy, Debug, PartialEq, Eq)]
#[allow(missing_docs)]
pub struct Authority<'a> {
    pub name: &'a [u8],
    pub reserved: u16,
    pub crid_authority_policy: u16,
    pub descriptors: &'a [u8],
}

/// The plain reading of the section that `s` begins with: its syntax, not its CRC.
pub fn read(s: &[u8]) -> Result<Section<'_>, Refusal> {
    // SAFETY: here and below, pointers and lengths are those of slices.
    section(s, unsafe { raw::eallunsa_rnt_read(s.as_ptr(), s.len()) })
}

/// The checked reading: with the syntax indicator, the limit of the length, and the CRC.
pub fn check(s: &[u8]) -> Result<Section<'_>, Refusal> {
    section(s, unsafe { raw::eallunsa_rnt_check(s.as_ptr(), s.len()) })
}

fn section(s: &[u8], answer: raw::RntAnswer) -> Result<Section<'_>, Refusal> {
    fine(answer.refusal)?;
    let common = answer.common_descriptors;
    Ok(Section {
        providers: ((common.start + common.length) as u16, answer.total.saturating_sub(4) as u16),
        bytes: &s[..answer.total],
        header: Header::of(answer.header),
        context_id_type: answer.context_id_type,
        reserved_common_descriptors_length: answer.reserved_common_descriptors_length,
        common_descriptors: part(s, common),
        number_of_providers: answer.number_of_providers,
    })
}

/// Provider by number, the first is 0.
pub fn provider(s: &[u8], number: usize) -> Result<Provider<'_>, Refusal> {
    let answer = unsafe { raw::eallunsa_rnt_provider(s.as_ptr(), s.len(), number) };
    fine(answer.refusal)?;
    Ok(Provider::of(s, answer.provider, answer.number_of_authorities))
}

/// Authority by number of a provider by number.
pub fn authority(s: &[u8], number: usize, authority: usize) -> Result<Authority<'_>, Refusal> {
    let answer = unsafe { raw::eallunsa_rnt_authority(s.as_ptr(), s.len(), number, authority) };
    fine(answer.refusal)?;
    Ok(Authority::of(s, answer.authority))
}

impl<'a> Section<'a> {
    /// Its providers, each with its authorities, one after the other, in one walk.
    pub fn providers(&self) -> impl Iterator<Item = (Provider<'a>, Vec<Authority<'a>>)> {
        let (s, (mut at, end)) = (self.bytes, self.providers);
        (0..self.number_of_providers).map_while(move |_| {
            let found = unsafe { raw::eallunsa_rnt_provider_at(s.as_ptr(), s.len(), end, at) };
            fine(found.refusal).ok()?;
            at = found.provider.end;
            let authorities = authorities(s, found.provider);
            Some((Provider::of(s, found.provider, authorities.len()), authorities))
        })
    }
}

fn authorities(s: &[u8], provider: raw::Provider) -> Vec<Authority<'_>> {
    let (mut at, end) = (provider.authorities_at, provider.end);
    let next = || {
        if at >= end {
            return None;
        }
        let found = unsafe { raw::eallunsa_rnt_authority_at(s.as_ptr(), s.len(), end, at) };
        fine(found.refusal).ok()?;
        at = found.next;
        Some(Authority::of(s, found.authority))
    };
    std::iter::from_fn(next).collect()
}

impl<'a> Provider<'a> {
    fn of(s: &'a [u8], provider: raw::Provider, number_of_authorities: usize) -> Provider<'a> {
        Provider {
            reserved_info_length: provider.reserved_info_length,
            name: part(s, provider.name),
            reserved_descriptors_length: provider.reserved_descriptors_length,
            descriptors: part(s, provider.descriptors),
            number_of_authorities,
        }
    }
}

impl<'a> Authority<'a> {
    fn of(s: &'a [u8], authority: raw::Authority) -> Authority<'a> {
        Authority {
            name: part(s, authority.name),
            reserved: authority.reserved,
            crid_authority_policy: authority.crid_authority_policy,
            descriptors: part(s, authority.descriptors),
        }
    }
}

fn part(s: &[u8], span: raw::Span) -> &[u8] {
    &s[span.start..span.start + span.length]
}
