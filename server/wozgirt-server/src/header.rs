//! The header of the PROXY protocol, version 2, with which a proxy begins a connection: from which address its client came, and, if it has
//! ended TLS, the name of the client's certificate.
//!
//! Of all else that a header may have nothing is kept. A name is taken only if the proxy says that the certificate was checked, and is right.

use crate::certificate_name::{CertificateName, NotAName};
use std::fmt;
use std::net::{IpAddr, Ipv4Addr, Ipv6Addr, SocketAddr};

/// What each header begins with. No request does.
pub const SIGNATURE: [u8; 12] = *b"\r\n\r\n\0\r\nQUIT\n";
/// How long a header is before its addresses, and how long the rest of it may be.
const HEAD: usize = 16;
const LONGEST_REST: usize = 2048;
/// The longest header.
const LONGEST: usize = HEAD + LONGEST_REST;

const VERSION: u8 = 2;
const LOCAL: u8 = 0;
const PROXY: u8 = 1;
const UNKNOWN: u8 = 0;
const IPV4: u8 = 1;
const IPV6: u8 = 2;
const UNIX: u8 = 3;
const STREAM: u8 = 1;

const TYPE_TLS: u8 = 0x20;
const TYPE_NAME: u8 = 0x22;
/// The client spoke TLS; and it gave a certificate, in this connection or in the session of TLS that it continues.
const HAS_TLS: u8 = 1;
const HAS_CERTIFICATE: u8 = 2 | 4;

/// Whom a header is about.
#[derive(Debug, PartialEq, Eq)]
pub enum Header {
    /// The proxy itself, which looks whether the server is there.
    Local,
    /// A client of it.
    Client {
        /// Where it came from, if it did so over IP.
        address: Option<SocketAddr>,
        /// The name of its certificate, if it has one that was checked.
        name: Option<CertificateName>,
    },
}

/// What is wrong with a header.
#[derive(Debug, Clone, Copy, PartialEq, Eq)]
pub enum BadHeader {
    /// It is not one.
    Signature,
    /// It is one of another version.
    Version,
    /// It has a command, a family or a protocol that there is not.
    Kind,
    /// It is too long.
    Length,
    /// It has not the addresses that it should.
    Addresses,
    /// A part of it is longer than what it is in.
    Part,
    /// It says twice what it may say once.
    Twice,
    /// The name of the certificate is not one.
    Name(NotAName),
    /// It is at a socket that is not the proxy's.
    Place,
    /// It ends before it is whole.
    Cut,
    /// It did not come in time.
    Late,
}

impl fmt::Display for BadHeader {
    fn fmt(&self, f: &mut fmt::Formatter<'_>) -> fmt::Result {
        match self {
            BadHeader::Signature => f.write_str("no header of the PROXY protocol, version 2"),
            BadHeader::Version => f.write_str("a header of another version of the PROXY protocol"),
            BadHeader::Kind => f.write_str("a header with a command, family or protocol that is not known"),
            BadHeader::Length => write!(f, "a header of more than {LONGEST} bytes"),
            BadHeader::Addresses => f.write_str("a header without its addresses"),
            BadHeader::Part => f.write_str("a header with a part that does not fit"),
            BadHeader::Twice => f.write_str("a header with a part that comes twice"),
            BadHeader::Name(fault) => write!(f, "a certificate whose name {fault}"),
            BadHeader::Place => f.write_str("a header of the PROXY protocol, at a socket that takes none"),
            BadHeader::Cut => f.write_str("a header that is cut"),
            BadHeader::Late => f.write_str("no whole header in 3 s"),
        }
    }
}

/// The header at the beginning of these bytes, and how long it is; nothing if it is not whole yet, and may still be right.
pub fn parse(bytes: &[u8]) -> Result<Option<(Header, usize)>, BadHeader> {
    let known = bytes.len().min(SIGNATURE.len());
    if bytes[..known] != SIGNATURE[..known] {
        return Err(BadHeader::Signature);
    }
    let Some(&kind) = bytes.get(12) else { return Ok(None) };
    if kind >> 4 != VERSION {
        return Err(BadHeader::Version);
    }
    let command = kind & 15;
    if command > PROXY {
        return Err(BadHeader::Kind);
    }
    let Some(&family) = bytes.get(13) else { return Ok(None) };
    let size = size_of_addresses(family).ok_or(BadHeader::Kind)?;
    let Some(length) = bytes.get(14..HEAD) else { return Ok(None) };
    let length = usize::from(u16::from_be_bytes([length[0], length[1]]));
    if length > LONGEST_REST {
        return Err(BadHeader::Length);
    }
    let Some(rest) = bytes.get(HEAD..HEAD + length) else { return Ok(None) };
    if command == LOCAL {
        return Ok(Some((Header::Local, HEAD + length))); // whatever it says of addresses
    }
    let (addresses, parts) = split(rest, size).ok_or(BadHeader::Addresses)?;
    let (address, name) = (address_of(family >> 4, addresses), name_in(parts)?);
    Ok(Some((Header::Client { address, name }, HEAD + length)))
}

/// How long the addresses of this family and protocol are. A protocol other than a stream is nobody's who comes in here.
fn size_of_addresses(family: u8) -> Option<usize> {
    match (family >> 4, family & 15) {
        (UNKNOWN, UNKNOWN) => Some(0),
        (IPV4, STREAM) => Some(12),
        (IPV6, STREAM) => Some(36),
        (UNIX, STREAM) => Some(216),
        _ => None,
    }
}

/// Where the client came from: the first of the two addresses and of the two ports.
fn address_of(family: u8, addresses: &[u8]) -> Option<SocketAddr> {
    let port = |at: usize| Some(u16::from_be_bytes(addresses.get(at..at + 2)?.try_into().ok()?));
    match family {
        IPV4 => {
            let from: [u8; 4] = addresses.get(..4)?.try_into().ok()?;
            Some(SocketAddr::new(IpAddr::V4(Ipv4Addr::from(from)), port(8)?))
        }
        IPV6 => {
            let from: [u8; 16] = addresses.get(..16)?.try_into().ok()?;
            Some(SocketAddr::new(IpAddr::V6(Ipv6Addr::from(from)), port(32)?))
        }
        _ => None,
    }
}

/// This number of bytes, and the rest, if there are as many.
fn split(bytes: &[u8], count: usize) -> Option<(&[u8], &[u8])> {
    (bytes.len() >= count).then(|| bytes.split_at(count))
}

/// The parts of a text of them: each has a kind, a length, and as many bytes.
fn parts(mut text: &[u8]) -> impl Iterator<Item = Result<(u8, &[u8]), BadHeader>> {
    std::iter::from_fn(move || {
        if text.is_empty() {
            return None;
        }
        let Some((head, rest)) = split(text, 3) else {
            text = &[];
            return Some(Err(BadHeader::Part));
        };
        let length = usize::from(u16::from_be_bytes([head[1], head[2]]));
        let Some((value, rest)) = split(rest, length) else {
            text = &[];
            return Some(Err(BadHeader::Part));
        };
        text = rest;
        Some(Ok((head[0], value)))
    })
}

/// The one part of this kind, if there is one; all have to fit.
fn part(text: &[u8], kind: u8) -> Result<Option<&[u8]>, BadHeader> {
    let mut found = None;
    for part in parts(text) {
        let (its, value) = part?;
        if its == kind && found.replace(value).is_some() {
            return Err(BadHeader::Twice);
        }
    }
    Ok(found)
}

/// The name of the client's certificate, if the proxy has checked that.
fn name_in(text: &[u8]) -> Result<Option<CertificateName>, BadHeader> {
    let Some(tls) = part(text, TYPE_TLS)? else { return Ok(None) };
    let (head, rest) = split(tls, 5).ok_or(BadHeader::Part)?;
    let name = part(rest, TYPE_NAME)?;
    let has_certificate = head[0] & HAS_TLS != 0 && head[0] & HAS_CERTIFICATE != 0;
    let is_right = head[1..] == [0; 4];
    match name.filter(|name| has_certificate && is_right && !name.is_empty()) {
        None => Ok(None),
        Some(name) => CertificateName::new(name).map(Some).map_err(BadHeader::Name),
    }
}

/// Whether this is what a proxy says, of either version, where no proxy is heard.
pub fn is_one(bytes: &[u8]) -> bool {
    bytes.starts_with(&SIGNATURE) || bytes.starts_with(b"PROXY ")
}

#[cfg(test)]
mod tests;
