//! That each header is read as it is written, and refused where any byte of it is wrong.

use super::*;

/// A part of a header.
fn tlv(kind: u8, value: &[u8]) -> Vec<u8> {
    [&[kind][..], &(value.len() as u16).to_be_bytes(), value].concat()
}

/// What a proxy says of TLS.
fn tls(client: u8, verify: u32, parts: &[u8]) -> Vec<u8> {
    tlv(TYPE_TLS, &[&[client][..], &verify.to_be_bytes(), parts].concat())
}

fn header(kind: u8, family: u8, rest: &[u8]) -> Vec<u8> {
    [&SIGNATURE[..], &[kind, family], &(rest.len() as u16).to_be_bytes(), rest].concat()
}

/// From 10.0.0.7:51234 to 10.0.0.1:7101.
const FROM_IPV4: [u8; 12] = [10, 0, 0, 7, 10, 0, 0, 1, 200, 34, 27, 189];

fn over_ipv4(parts: &[u8]) -> Vec<u8> {
    header(0x21, 0x11, &[&FROM_IPV4, parts].concat())
}

fn named(name: &[u8]) -> Vec<u8> {
    over_ipv4(&tls(1 | 2, 0, &[tlv(0x21, b"TLSv1.3"), tlv(TYPE_NAME, name)].concat()))
}

fn client(address: &str, name: Option<&str>) -> Header {
    let name = name.map(|name| CertificateName::new(name.as_bytes()).unwrap());
    Header::Client { address: Some(address.parse().unwrap()), name }
}

/// The header, if the bytes are nothing else.
fn read(bytes: &[u8]) -> Result<Header, BadHeader> {
    let (header, length) = parse(bytes)?.expect("it is whole");
    assert_eq!(length, bytes.len());
    Ok(header)
}

#[test]
fn a_name_that_was_checked() {
    let bytes = named("René M".as_bytes());
    assert_eq!(read(&bytes), Ok(client("10.0.0.7:51234", Some("René M"))));
    let with_more = [&bytes[..], b"ping\n"].concat();
    assert_eq!(parse(&with_more).unwrap().map(|(_, length)| length), Some(bytes.len()));
}

#[test]
fn a_name_counts_only_where_the_certificate_was_given_and_is_right() {
    let name = tlv(TYPE_NAME, b"a");
    for (client_bits, verify, has_name) in [
        (1 | 2, 0, true),
        (1 | 4, 0, true),
        (1 | 2 | 4, 0, true),
        (255, 0, true),
        (1, 0, false),
        (2 | 4, 0, false),
        (0, 0, false),
        (1 | 2, 1, false),
        (1 | 2, 1 << 24, false),
        (1 | 4, u32::MAX, false),
    ] {
        let expected = client("10.0.0.7:51234", has_name.then_some("a"));
        assert_eq!(read(&over_ipv4(&tls(client_bits, verify, &name))), Ok(expected), "{client_bits} {verify}");
    }
    for parts in [Vec::new(), tls(1 | 2, 0, b""), tls(1 | 2, 0, &tlv(TYPE_NAME, b"")), tlv(TYPE_NAME, b"a")] {
        assert_eq!(read(&over_ipv4(&parts)), Ok(client("10.0.0.7:51234", None)), "{parts:?}");
    }
}

#[test]
fn addresses() {
    let mut ipv6 = [0; 36];
    (ipv6[0], ipv6[15], ipv6[32], ipv6[33]) = (0xfe, 1, 1, 2);
    assert_eq!(read(&header(0x21, 0x21, &ipv6)), Ok(client("[fe00::1]:258", None)));
    let nowhere = Header::Client { address: None, name: None };
    assert_eq!(read(&header(0x21, 0x31, &[b'/'; 216])), Ok(nowhere));
    let name = CertificateName::new(b"a").unwrap();
    let unknown = header(0x21, 0, &tls(3, 0, &tlv(TYPE_NAME, b"a")));
    assert_eq!(read(&unknown), Ok(Header::Client { address: None, name: Some(name) }));
    assert_eq!(read(&over_ipv4(&tlv(4, &[0; 40]))), Ok(client("10.0.0.7:51234", None)));
    // other parts say nothing here
}

#[test]
fn the_proxy_itself() {
    for bytes in [
        header(0x20, 0, b""),
        header(0x20, 0x11, &FROM_IPV4),
        header(0x20, 0x11, b"?"),
        header(0x20, 0, &tls(3, 0, b"?")),
    ] {
        assert_eq!(read(&bytes), Ok(Header::Local), "{bytes:?}");
    }
}

#[test]
fn one_that_is_cut_is_waited_for() {
    for bytes in [named(b"build-1"), header(0x20, 0, b""), header(0x21, 0x21, &[0; 36])] {
        for length in 0..bytes.len() {
            assert_eq!(parse(&bytes[..length]), Ok(None), "{length}");
        }
        assert!(parse(&bytes).unwrap().is_some());
    }
}

#[test]
fn a_signature_that_is_wrong_in_any_byte() {
    let bytes = named(b"a");
    for at in 0..SIGNATURE.len() {
        let mut wrong = bytes.clone();
        wrong[at] ^= 1;
        assert_eq!(parse(&wrong), Err(BadHeader::Signature), "{at}");
        assert_eq!(parse(&wrong[..=at]), Err(BadHeader::Signature), "{at}"); // at once
    }
    for text in ["ping\n", "acquire deploy 1\n", "PROXY TCP4 10.0.0.7 10.0.0.1 1 2\r\n", "\r\n\r\n\0\r\nQUIT\r"] {
        assert_eq!(parse(text.as_bytes()), Err(BadHeader::Signature), "{text:?}");
    }
}

#[test]
fn each_field_that_is_wrong() {
    let with = |at: usize, byte: u8| {
        let mut bytes = named(b"a");
        bytes[at] = byte;
        parse(&bytes)
    };
    for kind in [0x01, 0x11, 0x31, 0xf1] {
        assert_eq!(with(12, kind), Err(BadHeader::Version));
    }
    for kind in 0x22..=0x2f {
        assert_eq!(with(12, kind), Err(BadHeader::Kind));
    }
    let known = [0x00, 0x11, 0x21, 0x31];
    for family in (0..=255).filter(|family| !known.contains(family)) {
        assert_eq!(with(13, family), Err(BadHeader::Kind), "{family:x}");
    }
    for (family, size) in [(0x11, 12), (0x21, 36), (0x31, 216)] {
        for length in [0, 1, size - 1] {
            assert_eq!(
                parse(&header(0x21, family, &vec![0; length])),
                Err(BadHeader::Addresses),
                "{family:x} {length}"
            );
        }
    }
    let long = header(0x21, 0x11, &[0; LONGEST_REST + 1]);
    assert_eq!(parse(&long[..HEAD]), Err(BadHeader::Length)); // at once
    let as_long_as_may_be = over_ipv4(&tlv(4, &[0; LONGEST_REST - 15]));
    assert_eq!((as_long_as_may_be.len(), read(&as_long_as_may_be).is_ok()), (LONGEST, true));
}

#[test]
fn parts_that_do_not_fit() {
    let name = tlv(TYPE_NAME, b"a");
    let whole = tls(3, 0, &name);
    for length in 1..whole.len() {
        assert_eq!(parse(&over_ipv4(&whole[..length])), Err(BadHeader::Part), "{length}");
    }
    for wrong in [
        tlv(TYPE_TLS, b""),
        tlv(TYPE_TLS, &[3, 0, 0, 0]),
        tls(3, 0, &name[..3]),
        tls(3, 0, &[0]),
        tls(0, 1, &name[..3]),
    ] {
        assert_eq!(parse(&over_ipv4(&wrong)), Err(BadHeader::Part), "{wrong:?}");
    }
    assert_eq!(parse(&over_ipv4(&[&whole[..], &[0]].concat())), Err(BadHeader::Part));
    assert_eq!(parse(&over_ipv4(&[&whole[..], &whole].concat())), Err(BadHeader::Twice));
    assert_eq!(parse(&over_ipv4(&tls(3, 0, &[&name[..], &tlv(TYPE_NAME, b"b")].concat()))), Err(BadHeader::Twice));
}

#[test]
fn names_that_do_not_fit() {
    for (name, fault) in [(&[b'a'; 257][..], NotAName::Long), (b"a\xff", NotAName::NotText)] {
        assert_eq!(parse(&named(name)), Err(BadHeader::Name(fault)));
    }
    assert!(read(&named(&[b'a'; 256])).is_ok());
    assert_eq!(BadHeader::Name(NotAName::NotText).to_string(), "a certificate whose name is not text in UTF-8");
}
