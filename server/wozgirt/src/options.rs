//! The commands, orders and options, in tables: the command line is read by them, and the help is made of them.

use std::fmt::Write;
use wozgirt_words::{help as lines_of, OptionWord};

/// A command: see [`COMMANDS`].
#[derive(Debug, Clone, Copy, PartialEq, Eq)]
pub enum Verb {
    Lock,
    Try,
    Status,
    Watch,
    Log,
    Bench,
    Admin,
}

/// The word of a command.
#[derive(Debug)]
pub struct CommandWord {
    /// Which command.
    pub verb: Verb,
    /// Its name.
    pub name: &'static str,
    /// What follows it, as the help has it.
    operands: &'static str,
    /// What it does.
    help: &'static str,
    /// The options that it takes.
    options: &'static [Name],
}

impl CommandWord {
    /// Its options.
    pub fn options(&self) -> impl Iterator<Item = &'static OptionWord<Name>> + '_ {
        OPTIONS.iter().filter(|option| self.options.contains(&option.id))
    }
}

/// An order of an operator: see [`ORDERS`].
#[derive(Debug, Clone, Copy, PartialEq, Eq)]
pub enum OrderName {
    Clients,
    Cluster,
    End,
    Kick,
    Corrupt,
    Stop,
}

/// The word of an order.
#[derive(Debug)]
pub struct OrderWord {
    /// Which order.
    pub order: OrderName,
    /// Its name, and what follows it.
    pub words: &'static str,
    help: &'static str,
}

impl OrderWord {
    /// Its name.
    pub fn name(&self) -> &'static str {
        self.words.split(' ').next().unwrap_or_default()
    }
}

/// An option: see [`OPTIONS`].
#[derive(Debug, Clone, Copy, PartialEq, Eq)]
pub enum Name {
    Socket,
    ServerWait,
    Operators,
    Wait,
    NoWait,
    ConflictStatus,
    Label,
    Lease,
    KillAfter,
    Close,
    CommandOnly,
    Group,
    Every,
    Json,
    Journal,
    Grants,
    Engine,
    Since,
    Until,
}

static OF_A_LOCK: [Name; 11] = [
    Name::Socket,
    Name::ServerWait,
    Name::Wait,
    Name::NoWait,
    Name::ConflictStatus,
    Name::Label,
    Name::Lease,
    Name::KillAfter,
    Name::Close,
    Name::CommandOnly,
    Name::Group,
];

/// All commands.
pub static COMMANDS: [CommandWord; 7] = [
    CommandWord {
        verb: Verb::Lock,
        name: "lock",
        operands: " NAME [--wait SECONDS | --no-wait] [OPTION ..] -- COMMAND [WORD ..]",
        help: "runs COMMAND while the lock NAME is held; the token is in WOZGIRT_TOKEN",
        options: &OF_A_LOCK,
    },
    CommandWord {
        verb: Verb::Try,
        name: "try",
        operands: " NAME [OPTION ..] -- COMMAND [WORD ..]",
        help: "the same with --no-wait",
        options: &OF_A_LOCK,
    },
    CommandWord {
        verb: Verb::Status,
        name: "status",
        operands: " [PREFIX] [--json]",
        help: "prints each lock, or each whose name begins so: its holder, since when, how many clients wait",
        options: &[Name::Socket, Name::ServerWait, Name::Json],
    },
    CommandWord {
        verb: Verb::Watch,
        name: "watch",
        operands: " [PREFIX] [--every SECONDS] [--json]",
        help: "prints that each time that it has changed",
        options: &[Name::Socket, Name::ServerWait, Name::Every, Name::Json],
    },
    CommandWord {
        verb: Verb::Log,
        name: "log",
        operands: " [NAME] [--since WHEN] [--until WHEN] [--json]",
        help: "prints who held each lock, or this one, and when, on the machine of a server with --grants",
        options: &[Name::Journal, Name::Grants, Name::Engine, Name::Since, Name::Until, Name::Json],
    },
    CommandWord {
        verb: Verb::Bench,
        name: "bench",
        operands: " [CLIENTS [LOCKS [SECONDS]]]",
        help: "measures hand-overs of the server's first locks, which no other client should use meanwhile",
        options: &[Name::Socket],
    },
    CommandWord {
        verb: Verb::Admin,
        name: "admin",
        operands: " ORDER",
        help: "over the socket of operators:",
        options: &[Name::Operators],
    },
];

/// All orders.
pub static ORDERS: [OrderWord; 6] = [
    OrderWord {
        order: OrderName::Clients,
        words: "clients",
        help: "prints the connected clients, with what each holds and waits for",
    },
    OrderWord {
        order: OrderName::Cluster,
        words: "cluster",
        help: "prints where this server is in the log of several",
    },
    OrderWord {
        order: OrderName::End,
        words: "end NAME TOKEN",
        help: "ends the hold of the lock NAME that has this token",
    },
    OrderWord {
        order: OrderName::Kick,
        words: "kick CLIENT",
        help: "closes the connection of the client with this number",
    },
    OrderWord {
        order: OrderName::Corrupt,
        words: "corrupt NAME MACHINE VALUE",
        help: "writes a fault, if the server has --faults",
    },
    OrderWord { order: OrderName::Stop, words: "stop", help: "ends the server" },
];

/// All options.
pub static OPTIONS: [OptionWord<Name>; 19] = [
    OptionWord::valued(
        Name::Socket,
        "--socket",
        "PLACE[,PLACE ..]",
        "a path, or tcp:HOST:PORT [WOZGIRT_SOCKET, or that of a server of your own,\n\
         or /run/wozgirt/lock.sock]; of several servers over one log the nearest first: if\n\
         one is lost, the next has the same hold",
    ),
    OptionWord::valued(
        Name::ServerWait,
        "--server-wait",
        "SECONDS",
        "how long to wait for a server that is just starting; 0: not at all [5]",
    ),
    OptionWord::valued(
        Name::Operators,
        "--operators",
        "PATH",
        "the socket of operators [WOZGIRT_OPERATORS, or that of a server of\n\
         your own, or /run/wozgirt/operators.sock]",
    ),
    OptionWord::valued(
        Name::Wait,
        "--wait",
        "SECONDS",
        "give up after this time, whatever the server does; without it, wait for as long as it takes",
    )
    .short("-w")
    .others(&["--timeout"]),
    OptionWord::flag(Name::NoWait, "--no-wait", "give up at once if another holds the lock; --wait 0 is the same")
        .short("-n")
        .others(&["--nonblock", "--nb"]),
    OptionWord::valued(Name::ConflictStatus, "--conflict-status", "N", "the status of giving up [1]")
        .short("-E")
        .others(&["--conflict-exit-code"]),
    OptionWord::valued(Name::Label, "--label", "NUMBER", "what the journal keeps of this hold [the process number]"),
    OptionWord::valued(
        Name::Lease,
        "--lease",
        "SECONDS",
        "after a silence of this length the server may give the lock to another",
    ),
    OptionWord::valued(
        Name::KillAfter,
        "--kill-after",
        "SECONDS",
        "after the loss of the lock, how long COMMAND has between TERM and KILL [5]",
    ),
    OptionWord::flag(
        Name::Close,
        "--close",
        "COMMAND does not inherit the connection: the lock is free when wozgirt is gone",
    )
    .short("-o"),
    OptionWord::flag(
        Name::CommandOnly,
        "--command-only",
        "the lock is free when COMMAND has ended, even if its children still run",
    ),
    OptionWord::flag(Name::Group, "--group", "COMMAND gets a process group of its own, and signals go to all in it"),
    OptionWord::valued(Name::Every, "--every", "SECONDS", "`watch` prints at each change, and after this time [10]"),
    OptionWord::flag(
        Name::Json,
        "--json",
        "`status` and `watch` print JSON: an array, with times in milliseconds, on one line;\n\
         `log` prints an object a line",
    ),
    OptionWord::valued(
        Name::Journal,
        "--journal",
        "FOLDER",
        "the server's --journal [WOZGIRT_JOURNAL, or that of a server of your own,\n\
         or /var/lib/wozgirt/journal]",
    ),
    OptionWord::valued(
        Name::Grants,
        "--grants",
        "FILE",
        "the server's --grants; of several servers one after the other\n[WOZGIRT_GRANTS, or FOLDER.grants]",
    ),
    OptionWord::valued(Name::Engine, "--engine", "PROGRAM", "what reads the journal, by `PROGRAM holds FOLDER` [ring_tool]"),
    OptionWord::valued(
        Name::Since,
        "--since",
        "WHEN",
        "only holds that had not ended then: 2h, 2026-11-24, tuesday, 14:10,\n'tuesday 14:10', 2026-11-24T14:10:08; in UTC",
    ),
    OptionWord::valued(Name::Until, "--until", "WHEN", "only holds that began before that"),
];

const STATUSES: &str = "\
Exit status: COMMAND's; 128 and its signal; 1 timed out waiting for the lock, or standard output cannot be written;
64 usage error; 65 record and journal contradict each other, or one is damaged; 66 one of them cannot be read; 69 no
server answers, or a program cannot be run; 75 the lock was lost while COMMAND ran; 76 the server refused.
";

/// The text of `--help`.
pub fn help() -> String {
    let mut text = String::new();
    for it in &COMMANDS {
        let _ = writeln!(text, "wozgirt {}{}\n    {}", it.name, it.operands, it.help);
        // a String takes all
    }
    let width = ORDERS.iter().map(|it| it.words.len()).max().unwrap_or(0);
    text.extend(ORDERS.iter().map(|it| format!("    {:width$}  {}\n", it.words, it.help)));
    let _ = write!(text, "\nOptions:\n{}  --help, --version\n\n{STATUSES}", lines_of(&OPTIONS, &OPTIONS));
    text
}
