//! The options, in a table: the command line is read by it, and the help is made of it.

use wozgirt_words::{help as lines_of, OptionWord};

/// An option: see [`SECTIONS`].
#[derive(Debug, Clone, Copy, PartialEq, Eq)]
pub enum Name {
    Engine,
    Journal,
    Locks,
    MostNames,
    Segment,
    KeepSegments,
    NoSync,
    NoSessions,
    SessionBytes,
    EnginePatience,
    Faults,
    Socket,
    Mode,
    Group,
    Operators,
    OperatorsMode,
    OperatorsGroup,
    Proxied,
    ProxiedMode,
    ProxiedGroup,
    Tcp,
    Page,
    ListenAnywhere,
    Rules,
    LongestLease,
    LeaseForAll,
    Grace,
    Connections,
    Memory,
    Waiters,
    MostHolds,
    Deaf,
    WatchCertificate,
    LogConnections,
    Grants,
    GrantsBytes,
    /// One of a server that is one of several.
    OverEtcd(EtcdName),
}

/// An option of a server that is one of several.
#[derive(Debug, Clone, Copy, PartialEq, Eq)]
pub enum EtcdName {
    Members,
    Name,
    Prefix,
    Authority,
    Certificate,
    Key,
    User,
    PasswordFile,
    HostLease,
    Checkpoint,
    Program,
}

const fn flag(id: Name, name: &'static str, help: &'static str) -> OptionWord<Name> {
    OptionWord::flag(id, name, help)
}

const fn valued(id: Name, name: &'static str, value: &'static str, help: &'static str) -> OptionWord<Name> {
    OptionWord::valued(id, name, value, help)
}

const fn over_etcd(id: EtcdName, name: &'static str, value: &'static str, help: &'static str) -> OptionWord<Name> {
    OptionWord::valued(Name::OverEtcd(id), name, value, help)
}

/// Options of one kind.
pub struct Section {
    title: &'static str,
    options: &'static [OptionWord<Name>],
}

/// All options.
pub static SECTIONS: [Section; 5] = [
    Section {
        title: "The engine, which is run as `PROGRAM locks --journal FOLDER [--locks ..] ..`:",
        options: &[
            valued(Name::Engine, "--engine", "PROGRAM", "the program of the engine [ring_tool]"),
            valued(Name::Journal, "--journal", "FOLDER", "where the engine keeps its journal [wozgirt/journal\nin XDG_STATE_HOME or ~/.local/state, with the sockets beside it]"),
            valued(
                Name::Locks,
                "--locks",
                "NAME[:N[:K]],..[,*]",
                "the locks; without it those of FOLDER, or any; with `*` at the end also those of any other name",
            ),
            valued(
                Name::MostNames,
                "--most-names",
                "COUNT",
                "how many locks of other names may be held at once [65536]",
            ),
            valued(Name::Segment, "--segment", "LINES", "how many lines a file of the journal has"),
            valued(
                Name::KeepSegments,
                "--keep-segments",
                "COUNT",
                "how many of these files are kept; what is removed is noted in FOLDER.removed [all]",
            ),
            flag(Name::NoSync, "--no-sync", "answers do not wait for the disk"),
            flag(Name::NoSessions, "--no-sessions", "clients have no sessions, and nothing is kept in FOLDER.sessions"),
            valued(
                Name::SessionBytes,
                "--session-bytes",
                "BYTES",
                "how much is added to the file of sessions before it is written anew [16777216]",
            ),
            valued(
                Name::EnginePatience,
                "--engine-patience",
                "SECONDS",
                "an engine that does not answer within this time is ended, and started again [60]",
            ),
            flag(Name::Faults, "--faults", "operators may write faults"),
        ],
    },
    Section {
        title: "Sockets:",
        options: &[
            valued(Name::Socket, "--socket", "PATH", "for clients [/run/wozgirt/lock.sock, or beside the journal]"),
            valued(Name::Mode, "--mode", "OCTAL", "its mode [600]"),
            valued(Name::Group, "--group", "NAME", "its group"),
            valued(Name::Operators, "--operators", "PATH", "for operators; without it there is none"),
            valued(Name::OperatorsMode, "--operators-mode", "OCTAL", "its mode [600]"),
            valued(Name::OperatorsGroup, "--operators-group", "NAME", "its group"),
            valued(
                Name::Proxied,
                "--proxied",
                "PATH",
                "for a proxy that ends TLS, and says who its clients are by the PROXY protocol, version 2",
            ),
            valued(Name::ProxiedMode, "--proxied-mode", "OCTAL", "its mode [600]"),
            valued(Name::ProxiedGroup, "--proxied-group", "NAME", "its group"),
            valued(Name::Tcp, "--tcp", "ADDRESS:PORT", "for clients; not authenticated"),
            valued(Name::Page, "--page", "ADDRESS:PORT", "`GET /` is a page, `GET /metrics` is for Prometheus"),
            flag(
                Name::ListenAnywhere,
                "--listen-anywhere",
                "the last two may be other addresses than this machine's own",
            ),
        ],
    },
    Section {
        title: "Several servers, with one log in etcd (FOLDER is then one of this server, with its checkpoint and journal):",
        options: &[
            over_etcd(EtcdName::Members, "--etcd", "URL,..", "the members of etcd"),
            over_etcd(EtcdName::Name, "--name", "NAME", "this server's name, which no other has"),
            over_etcd(
                EtcdName::Prefix,
                "--prefix",
                "KEY",
                "what its keys in etcd begin with, the same for all servers [wozgirt]",
            ),
            over_etcd(EtcdName::Authority, "--cacert", "FILE", "the certificate that signed those of etcd"),
            over_etcd(EtcdName::Certificate, "--cert", "FILE", "this server's own certificate"),
            over_etcd(EtcdName::Key, "--key", "FILE", "its key"),
            over_etcd(EtcdName::User, "--etcd-user", "NAME", "a user of etcd, where it asks for one"),
            over_etcd(EtcdName::PasswordFile, "--etcd-password-file", "FILE", "the file with its password"),
            over_etcd(
                EtcdName::HostLease,
                "--host-lease",
                "SECONDS",
                "lease of this server in etcd [10]",
            ),
            over_etcd(
                EtcdName::Checkpoint,
                "--checkpoint",
                "LINES",
                "how many lines of the log lie between checkpoints, the same for all servers [100000]",
            ),
            over_etcd(EtcdName::Program, "--log-program", "PROGRAM", "what speaks to etcd [wozgirt-log]"),
        ],
    },
    Section {
        title: "Limits:",
        options: &[
            valued(Name::Rules, "--rules", "FILE", "which users may use which lock"),
            valued(
                Name::LongestLease,
                "--longest-lease",
                "SECONDS",
                "the longest lease of a client, and of each over TCP that asks for none [30]",
            ),
            flag(Name::LeaseForAll, "--lease-for-all", "clients on the Unix socket that ask for none have it too"),
            valued(
                Name::Grace,
                "--grace",
                "SECONDS",
                "how long what was held when the engine, or another server, ended stays held [the longest lease]",
            ),
            valued(
                Name::Connections,
                "--connections",
                "COUNT",
                "how many clients at once on the Unix socket, as many over TCP, and as many of a proxy [1000]",
            ),
            valued(
                Name::Memory,
                "--memory",
                "MIB",
                "how much memory all connections may take together [128, or what COUNT needs]",
            ),
            valued(Name::Waiters, "--waiters", "COUNT", "how many clients may wait for one lock at once [10000]"),
            valued(
                Name::MostHolds,
                "--most-holds",
                "COUNT",
                "how many locks one client may hold at once, with the one that it waits for [1024]",
            ),
            valued(Name::Deaf, "--deaf", "SECONDS", "how long a client may leave its answers unread [30]"),
        ],
    },
    Section {
        title: "Other:",
        options: &[
            valued(
                Name::WatchCertificate,
                "--watch-certificate",
                "FILE",
                "certificates in PEM: one that ends within a week is in the log, and its end in the metrics; may be repeated",
            ),
            valued(
                Name::Grants,
                "--grants",
                "FILE",
                "a line there for each grant and each end of a hold, which `wozgirt log` reads",
            ),
            valued(
                Name::GrantsBytes,
                "--grants-bytes",
                "BYTES",
                "how long that may be before it gets another name [67108864]",
            ),
            flag(Name::LogConnections, "--log-connections", "a line in the log for each client that comes and goes"),
        ],
    },
];

const HEAD: &str = "\
wozgirt-server [--journal FOLDER] [--locks NAME[:N[:K]],..[,*]] [OPTION ..]

Gives the locks of one engine to clients on sockets. It decides nothing about locks: the engine does.
";

/// All options, one after the other.
pub fn options() -> impl Iterator<Item = &'static OptionWord<Name>> {
    SECTIONS.iter().flat_map(|section| section.options)
}

/// The text of `--help`.
pub fn help() -> String {
    let sections = SECTIONS.iter().map(|it| format!("\n{}\n{}", it.title, lines_of(it.options, options())));
    format!("{HEAD}{}  --help, --version\n", sections.collect::<String>())
}
