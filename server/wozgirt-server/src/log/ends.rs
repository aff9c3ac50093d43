//! Why connections end, and what each has a part of: the words that the log, the metrics and the page have for these.

/// Why a connection ended.
#[derive(Debug, Clone, Copy, PartialEq, Eq, Hash, PartialOrd, Ord)]
pub enum End {
    /// The other end closed it, or is gone.
    Closed,
    /// It was silent for longer than its lease.
    Lease,
    /// It left its answers unread.
    Deaf,
    /// It said what no client says.
    Syntax,
    /// It said who it is as a proxy does, where that is not asked.
    Header,
    /// It sent a line that is too long.
    Line,
    /// The engine ended, and with it all that was held.
    Engine,
    /// The server ends.
    Stop,
    /// This server is cut off from the log.
    Log,
    /// The session continues at another connection.
    Moved,
    /// An operator said so.
    Kicked,
}

impl End {
    /// Each of them.
    pub const ALL: [End; 11] = [
        End::Closed,
        End::Lease,
        End::Deaf,
        End::Syntax,
        End::Header,
        End::Line,
        End::Engine,
        End::Stop,
        End::Log,
        End::Moved,
        End::Kicked,
    ];

    /// One word for it.
    pub fn word(self) -> &'static str {
        match self {
            End::Closed => "closed",
            End::Lease => "lease",
            End::Deaf => "deaf",
            End::Syntax => "syntax",
            End::Header => "header",
            End::Line => "line",
            End::Engine => "engine",
            End::Stop => "stop",
            End::Log => "log",
            End::Moved => "moved",
            End::Kicked => "kicked",
        }
    }
}

/// What each user and address has a part of.
#[derive(Debug, Clone, Copy, PartialEq, Eq, Hash, PartialOrd, Ord)]
pub enum Of {
    /// Sessions, those of clients that are away included.
    Sessions,
    /// Locks in use that are not in the list.
    Names,
}

impl Of {
    /// Each of them.
    pub const ALL: [Of; 2] = [Of::Sessions, Of::Names];

    /// One word for it.
    pub fn word(self) -> &'static str {
        match self {
            Of::Sessions => "sessions",
            Of::Names => "names",
        }
    }
}
