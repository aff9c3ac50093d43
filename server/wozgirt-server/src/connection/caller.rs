//! The client at the other end of a connection.

use crate::certificate_name::CertificateName;
use crate::cluster::Who;
use crate::shares::Guest;
use std::net::SocketAddr;
use wozgirt_system::Peer;

/// The door through which a connection came.
#[derive(Debug, Clone, Copy, PartialEq, Eq)]
pub enum Door {
    /// The clients' socket.
    Clients,
    /// The operators' socket.
    Operators,
    /// TCP.
    Network,
    /// The socket of a proxy, which says who its clients are.
    Proxied,
}

/// A client, as far as rules name it.
#[derive(Debug, Default, PartialEq, Eq)]
pub enum Known {
    /// Nobody says.
    #[default]
    Nobody,
    /// A process of this machine, as the system says.
    Process(Peer),
    /// Whoever has a certificate of this name, as the proxy says.
    Certificate(CertificateName),
}

/// The client at the other end.
#[derive(Debug)]
pub struct Caller {
    /// Its door.
    pub door: Door,
    /// What the rules know of it.
    pub known: Known,
    /// Where it has come from, if it came over a network.
    pub address: Option<SocketAddr>,
    /// Whose a session is that it begins.
    pub identity: Who,
    /// On whose account it is.
    pub guest: Guest,
    /// The same for a reader.
    pub who: String,
}

impl Caller {
    /// Whether it is an operator, for whom no rule and no limit of clients is.
    pub fn is_operator(&self) -> bool {
        self.door == Door::Operators
    }

    /// Whether it is the proxy itself, which looks whether the server is there.
    pub fn is_proxy(&self) -> bool {
        self.door == Door::Proxied && matches!(self.known, Known::Process(_))
    }
}
