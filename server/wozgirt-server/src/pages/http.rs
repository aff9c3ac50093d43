//! As much of HTTP as is needed: the head of a request, and an answer that is closed after it.

use std::net::IpAddr;

/// The longest head.
pub const LONGEST_HEAD: usize = 8 << 10;

/// What is asked for.
#[derive(Debug, Clone, Copy, PartialEq, Eq)]
pub enum Wanted {
    /// The page.
    Page,
    /// The metrics.
    Metrics,
    /// Whether the engine answers.
    Health,
}

/// Why it is not answered.
#[derive(Debug, Clone, Copy, PartialEq, Eq)]
pub enum Refused {
    /// Not a request.
    Bad,
    /// Not a page of this server.
    NotFound,
    /// Not GET or HEAD.
    Method,
    /// The request names another host: a web page elsewhere had a name of its own point here.
    Host,
}

impl Refused {
    /// Status and reason.
    pub fn status(self) -> &'static str {
        match self {
            Refused::Bad => "400 Bad Request",
            Refused::NotFound => "404 Not Found",
            Refused::Method => "405 Method Not Allowed",
            Refused::Host => "421 Misdirected Request",
        }
    }
}

/// A request that is answered.
#[derive(Debug, Clone, Copy, PartialEq, Eq)]
pub struct Asked {
    /// What it wants.
    pub wanted: Wanted,
    /// Whether it wants more than the head of the answer.
    pub has_body: bool,
    /// Whether it knows a body that is sent in parts, each with its length; else the end of the connection ends it.
    pub takes_parts: bool,
}

/// A request, or why there is no answer to it.
pub type Request = Result<Asked, Refused>;

/// The request whose head is there, or nothing as long as it is not.
pub fn request(bytes: &[u8]) -> Option<Request> {
    let end = bytes.windows(4).position(|window| window == b"\r\n\r\n");
    match end {
        Some(end) => Some(std::str::from_utf8(&bytes[..end]).map_err(|_| Refused::Bad).and_then(read_head)),
        None if bytes.len() >= LONGEST_HEAD => Some(Err(Refused::Bad)),
        None => None,
    }
}

fn read_head(head: &str) -> Request {
    let mut lines = head.split("\r\n");
    let words: Vec<&str> = lines.next().unwrap_or("").split(' ').collect();
    let [method, target, version] = words[..] else { return Err(Refused::Bad) };
    if !version.starts_with("HTTP/1.") {
        return Err(Refused::Bad);
    }
    let mut hosts = lines.filter_map(|line| line.split_once(':')).filter(|(name, _)| name.eq_ignore_ascii_case("host"));
    // a browser always names the host: what names none, as of HTTP/1.0, shows nothing to a web page elsewhere
    if hosts.any(|(_, host)| !is_of_this_machine(host.trim())) {
        return Err(Refused::Host);
    }
    let has_body = match method {
        "GET" => true,
        "HEAD" => false,
        _ => return Err(Refused::Method),
    };
    let wanted = match target.split('?').next() {
        Some("/") => Wanted::Page,
        Some("/metrics") => Wanted::Metrics,
        Some("/healthz") => Wanted::Health,
        _ => return Err(Refused::NotFound),
    };
    Ok(Asked { wanted, has_body, takes_parts: version != "HTTP/1.0" })
}

/// An address, or `localhost`: no name that somebody else can have point here.
fn is_of_this_machine(host: &str) -> bool {
    let is_port = |text: &str| text.bytes().all(|b| b.is_ascii_digit());
    let name = match host.rsplit_once(':') {
        Some((name, port)) if is_port(port) && (!name.contains(':') || name.ends_with(']')) => name,
        _ => host,
    };
    let name = name.strip_prefix('[').and_then(|name| name.strip_suffix(']')).unwrap_or(name);
    name.eq_ignore_ascii_case("localhost") || name.parse::<IpAddr>().is_ok()
}

/// What every answer has in its head.
const HEADERS: &str = "Connection: close\r\nCache-Control: no-store\r\nX-Content-Type-Options: nosniff\r\n\
    Content-Security-Policy: default-src 'none'; style-src 'unsafe-inline'; frame-ancestors 'none'\r\n";

/// The head of an answer that is sent in parts.
pub fn head(asked: Asked) -> String {
    let kind = match asked.wanted {
        Wanted::Page => "text/html",
        Wanted::Metrics => "text/plain; version=0.0.4",
        Wanted::Health => "text/plain",
    };
    let parts = if asked.takes_parts { "Transfer-Encoding: chunked\r\n" } else { "" };
    format!("HTTP/1.1 200 OK\r\nContent-Type: {kind}; charset=utf-8\r\n{parts}{HEADERS}\r\n")
}

/// A part of an answer, with its length if the request takes that; the last one with the end.
pub fn part(asked: Asked, text: &str, is_last: bool) -> String {
    let end = if is_last { "0\r\n\r\n" } else { "" };
    match asked.takes_parts {
        true if text.is_empty() => end.into(),
        true => format!("{:x}\r\n{text}\r\n{end}", text.len()),
        false => text.into(),
    }
}

/// The answer to what is refused.
pub fn refusal(refused: Refused) -> String {
    let status = refused.status();
    short(status, status, true)
}

/// The answer about the server's health.
pub fn health(is_well: bool, has_body: bool) -> String {
    match is_well {
        true => short("200 OK", "the engine answers", has_body),
        false => short("503 Service Unavailable", "the engine does not answer", has_body),
    }
}

/// An answer of one line.
fn short(status: &str, line: &str, has_body: bool) -> String {
    let length = line.len() + 1;
    let body = if has_body { format!("{line}\n") } else { String::new() };
    format!(
        "HTTP/1.1 {status}\r\nContent-Type: text/plain; charset=utf-8\r\nContent-Length: {length}\r\n{HEADERS}\r\n{body}"
    )
}

#[cfg(test)]
mod tests {
    use super::*;

    fn asked(text: &str) -> Option<Request> {
        request(text.replace('\n', "\r\n").as_bytes())
    }

    fn right(wanted: Wanted, has_body: bool, takes_parts: bool) -> Option<Request> {
        Some(Ok(Asked { wanted, has_body, takes_parts }))
    }

    #[test]
    fn requests() {
        assert_eq!(asked("GET / HTTP/1.1\nHost: 127.0.0.1:9100\n\n"), right(Wanted::Page, true, true));
        assert_eq!(asked("HEAD /metrics?x HTTP/1.0\n\n"), right(Wanted::Metrics, false, false));
        assert_eq!(asked("GET /metrics HTTP/1.1\nhost: [::1]:9100\n\nmore"), right(Wanted::Metrics, true, true));
        assert_eq!(asked("GET /metrics HTTP/1.1\nHost: local"), None);
        for host in ["localhost", "LOCALHOST:80", "10.1.2.3", "::1", "[::1]"] {
            assert_eq!(asked(&format!("GET / HTTP/1.1\nHost: {host}\n\n")), right(Wanted::Page, true, true), "{host}");
        }
    }

    #[test]
    fn refusals() {
        let texts = [
            ("GET /x HTTP/1.1\n\n", Refused::NotFound),
            ("POST / HTTP/1.1\n\n", Refused::Method),
            ("GET /\n\n", Refused::Bad),
            ("GET / SPDY/3\n\n", Refused::Bad),
            ("GET / HTTP/1.1\nHost: evil.example:9100\n\n", Refused::Host),
            ("GET / HTTP/1.1\nHost: localhost\nHost: evil.example\n\n", Refused::Host),
        ];
        for (text, why) in texts {
            assert_eq!(asked(text), Some(Err(why)), "{text}");
        }
        assert_eq!(request(b"GET \xff / HTTP/1.1\r\n\r\n"), Some(Err(Refused::Bad)));
        assert_eq!(request(&[b'x'; LONGEST_HEAD]), Some(Err(Refused::Bad)));
    }

    #[test]
    fn parts_have_their_length_and_the_last_one_the_end() {
        let Some(Ok(new)) = asked("GET / HTTP/1.1\n\n") else { panic!() };
        assert_eq!(part(new, "0123456789abcdef", false), "10\r\n0123456789abcdef\r\n");
        assert_eq!((part(new, "", false), part(new, "x", true)), (String::new(), "1\r\nx\r\n0\r\n\r\n".into()));
        let Some(Ok(old)) = asked("GET / HTTP/1.0\n\n") else { panic!() };
        assert_eq!((part(old, "x", true), head(old).contains("chunked")), ("x".into(), false));
        assert!(refusal(Refused::NotFound).ends_with("\r\n\r\n404 Not Found\n"));
    }

    #[test]
    fn health_is_a_status() {
        assert_eq!(asked("HEAD /healthz HTTP/1.1\n\n"), right(Wanted::Health, false, true));
        let (well, ill) = (health(true, true), health(false, false));
        assert!(well.starts_with("HTTP/1.1 200 OK\r\n") && well.ends_with("\r\n\r\nthe engine answers\n"), "{well}");
        assert!(
            ill.starts_with("HTTP/1.1 503 ") && ill.contains("Content-Length: 27\r\n") && ill.ends_with("\r\n\r\n"),
            "{ill}"
        );
    }
}
