//! Records one process of a distributed program for `monitor`: its events in their order, one line each.
//!
//! ```no_run
//! use monitor_recorder::Recorder;
//!
//! # fn main() -> Result<(), monitor_recorder::Error> {
//! let recorder = Recorder::to_file("left", "left.stream")?;
//! recorder.event(&[("inside", 1), ("waiting", 0)])?; // these are their values from now on
//! let message = recorder.send(&[("money", 70)])?; // BEFORE the message leaves; the id travels with it
//! recorder.receive("right-1", &[("money", 80)])?; // AFTER a message has come, with the id that came too
//! recorder.end()?;
//! # Ok(())
//! # }
//! ```
//!
//! Each line is handed to the operating system before the call returns, so that nothing that was recorded is lost if
//! the process crashes. Threads and tasks may share one recorder, by reference or in an `Arc`; the calls are short and
//! don't await. What `monitor` would refuse is refused at once, and the recorder goes on as if the call hadn't been
//! made. The formats and limits are those of docs/SPECIFICATION.md.
//!
//! A recorder that is dropped before [`Recorder::end`], by `?` or by a panic, closes its file or connection and leaves
//! no end line, since nobody knows what the process would have done: `monitor` refuses the stream as `unended`.
//!
//! One recorder is one order of events. A thread or task that waits by itself gets a strand, or the order in which it
//! came is taken for a cause:
//!
//! ```no_run
//! # fn main() -> Result<(), monitor_recorder::Error> {
//! # let recorder = monitor_recorder::Recorder::to_file("left", "left.stream")?;
//! let worker = recorder.strand("worker")?; // where the thread is started; it records to worker.stream
//! std::thread::scope(|scope| {
//!     scope.spawn(|| {
//!         worker.event(&[("busy", 1)])?;
//!         worker.end() // in the thread, when it has done its work
//!     });
//! });
//! recorder.join(&worker, &[])?; // AFTER the thread has been waited for
//! # Ok(())
//! # }
//! ```
//!
//! A session has limits, and a recording that is over them is refused at the call. With [`Options::long`], or
//! `MONITOR_LONG=1` in the environment, it is a long recording, of any length, which monitor_reduce.py reduces before
//! it is judged.
//!
//! Events have no names. With [`Options::notes`] each has a note in left.notes.jsonl, of the line of the program that
//! recorded it, and of a text if one is given, as by `left.noted("the lock is ours").event(&[("inside", 1)])`.
use std::cell::Cell;
use std::collections::HashSet;
use std::env;
use std::fmt;
use std::fs::{self, File, OpenOptions};
use std::io::{self, Write};
use std::net::{Ipv4Addr, TcpStream, ToSocketAddrs};
use std::ops::{Deref, DerefMut};
use std::panic::Location;
use std::path::{Path, PathBuf};
use std::process;
use std::sync::mpsc::{self, TryRecvError};
use std::sync::{Arc, Mutex, MutexGuard, PoisonError, TryLockError};
use std::thread;
use std::time::{Duration, Instant, SystemTime, UNIX_EPOCH};

/// At most so many events has a process.
pub const EVENT_LIMIT: usize = 10_000;
/// At most so many variables has a process.
pub const VARIABLE_LIMIT: usize = 16;
/// At most so many processes has a session: a process and its strands are as many at most.
pub const PROCESS_LIMIT: usize = 16;
/// At most so many bytes has the name of a process or of a variable.
pub const NAME_BYTE_LIMIT: usize = 32;
/// At most so many bytes has the id of a message, and at least one.
pub const ID_BYTE_LIMIT: usize = 64;
/// At most so many events has a process of a long recording.
pub const LONG_EVENT_LIMIT: usize = 2_147_483_647;
/// At most so many processes are a process of a long recording and its strands.
pub const LONG_PROCESS_LIMIT: usize = 4_096;
/// At most so many bytes has the id of a message in a long recording.
pub const LONG_ID_BYTE_LIMIT: usize = 1_024;
/// At most so many bytes has a note of its text, and of its place's file: what is longer is cut.
pub const NOTE_BYTE_LIMIT: usize = 1_024;
/// At most so many bytes has a token.
pub const TOKEN_BYTE_LIMIT: usize = 1_024;

const RESERVED: [&str; 5] = ["and", "or", "not", "true", "false"];
const PATIENCE: Duration = Duration::from_secs(10);
const PORT_LIMIT: u16 = 65_534;
const SOCKET: &str = "unix:";
const SOCKET_BYTE_LIMIT: usize = 107;
const PAUSE: Duration = Duration::from_millis(50);
/// So long a machine may take to say whether anybody listens, if the time for which that is waited for is less.
const ANSWER: Duration = Duration::from_secs(1);
const AS_A_LONG_RUN: &str =
    "or record it as a long run: Options::long or MONITOR_LONG=1, and reduce it by monitor_reduce.py";
const ENDING: &str = ".stream";
const NOTES_ENDING: &str = ".notes.jsonl";

/// A variable and the value that it has from now on. For a truth write `("inside", is_inside.into())`.
pub type Setting<'a> = (&'a str, i64);

/// Why a call recorded nothing. With all but [`Error::Io`] nothing was written.
#[derive(Debug)]
#[non_exhaustive]
pub enum Error {
    /// This is no name of a process: letters, digits and `_`, at most 32, no digit first, no word of predicates.
    ProcessName(String),
    /// This is no name of a variable, or it stands twice in one call.
    VariableName(String),
    /// A process has at most 16 variables.
    Variables,
    /// A process has at most 10,000 events, or 2,147,483,647 in a long recording. The last one of a strand is kept for
    /// its end.
    Events,
    /// The id of a message has 1 to 64 bytes, or 1,024 in a long recording, and this one hasn't.
    Id(String),
    /// The process has sent or received a message with this id before. A receipt of which this is said is that of a
    /// second copy.
    IdTwice(String),
    /// The recorder belongs to the process of which this one is a fork.
    Fork,
    /// The recording has ended.
    Ended,
    /// An earlier line could not be written, so none is any more.
    Broken,
    /// This name is that of the process or of another strand of it.
    NameTwice(String),
    /// A process and its strands are at most 16, or 4,096 in a long recording.
    Processes,
    /// The recorder was made by [`Recorder::new`], so there is no place for the stream of a strand.
    NoPlace,
    /// What is to be joined, of this name, is no strand that has ended.
    NotEnded(String),
    /// `MONITOR_TO` isn't set, or is this text, which names no folder, port or socket that there can be.
    Where(String),
    /// The earlier incarnation of this name still runs.
    Running(String),
    /// No earlier incarnation can be told, for this reason: as of a connection, of a file that is replaced, or on this
    /// system.
    Again(&'static str),
    /// No long recording is made, for this reason: as of a connection, or if `MONITOR_LONG` is neither 1 nor 0.
    Long(String),
    /// There is no place for notes, since this is a port, or a file whose name doesn't end with `.stream`; or it is the
    /// text of `MONITOR_NOTES`, and is neither 1 nor 0.
    Notes(String),
    /// The token of this name, the one that is given or `MONITOR_TOKEN`, is over 1,024 bytes, or has a LF, CR or NUL.
    Token(&'static str),
    /// A thread panicked while it held the [`RecordedMutex`].
    Poisoned,
    /// There is nobody any more at the other end of a [`recorded_channel`].
    Disconnected,
    /// There is no value in a [`recorded_channel`].
    Empty,
    /// The system could not open or write the recording; a part of the line may have been written.
    Io(io::Error),
}

impl fmt::Display for Error {
    fn fmt(&self, to: &mut fmt::Formatter<'_>) -> fmt::Result {
        match self {
            Error::ProcessName(name) => write!(to, "{name:?} is not a name of a process"),
            Error::VariableName(name) => {
                write!(to, "{name:?} is not a name of a variable, or stands twice")
            }
            Error::Variables => write!(to, "a process has at most {VARIABLE_LIMIT} variables"),
            Error::Events => write!(
                to,
                "a process has at most {EVENT_LIMIT} events, of which a strand's last one is its end; record fewer, \
                 {AS_A_LONG_RUN}"
            ),
            Error::Id(id) => write!(
                to,
                "the id of a message has 1 to {ID_BYTE_LIMIT} bytes, or {LONG_ID_BYTE_LIMIT} in a long run, and \
                 {id:?} has {}",
                id.len()
            ),
            Error::IdTwice(id) => write!(to, "the process has sent or received {id:?} before"),
            Error::Fork => write!(
                to,
                "the recorder belongs to the process of which this one is a fork"
            ),
            Error::Ended => write!(to, "the recording has ended"),
            Error::Broken => write!(to, "an earlier line could not be written"),
            Error::Io(error) => write!(to, "the recording could not be opened or written: {error}"),
            Error::Poisoned => write!(to, "a thread panicked while it held the mutex"),
            Error::Disconnected => write!(to, "nobody is at the other end of the channel"),
            Error::Empty => write!(to, "the channel is empty"),
            _ => self.fmt_of_strands(to),
        }
    }
}

impl Error {
    fn fmt_of_strands(&self, to: &mut fmt::Formatter<'_>) -> fmt::Result {
        match self {
            Error::NameTwice(name) => write!(
                to,
                "{name} is another process of this recording: give each strand a name of its own"
            ),
            Error::NotEnded(name) => write!(
                to,
                "{name} is no strand that has ended: wait for it, and then join it"
            ),
            Error::Where(place) => write!(
                to,
                "MONITOR_TO is {place:?}, and names a folder, which has a slash if it has a colon, a port as :7411, \
                 host:7411 or [::1]:7411, from 1 to {PORT_LIMIT}, or a socket as unix:/run/a.sock, of at most \
                 {SOCKET_BYTE_LIMIT} bytes"
            ),
            Error::Running(name) => write!(
                to,
                "{name} still runs: what is started beside it is no later incarnation, but a process of its own"
            ),
            Error::Again(why) => write!(to, "no earlier incarnation can be told: {why}"),
            Error::Long(why) => write!(to, "no long recording is made: {why}"),
            Error::Notes(text) => write!(
                to,
                "{text:?} has no place for notes, which go beside a file whose name ends with {ENDING} and to no port; \
                 MONITOR_NOTES is 1 for notes, and else 0 or not set"
            ),
            Error::Token(name) => write!(
                to,
                "{name} is no token, which is one line of at most {TOKEN_BYTE_LIMIT} bytes, without LF, CR and NUL"
            ),
            Error::NoPlace => write!(
                to,
                "there is no place for the stream of a strand: make the recorder by to_file or to_port"
            ),
            _ => write!(
                to,
                "a session has at most {PROCESS_LIMIT} processes, and a process and its strands are as many; begin \
                 fewer strands, {AS_A_LONG_RUN}"
            ),
        }
    }
}

impl std::error::Error for Error {
    fn source(&self) -> Option<&(dyn std::error::Error + 'static)> {
        match self {
            Error::Io(error) => Some(error),
            _ => None,
        }
    }
}

impl From<io::Error> for Error {
    fn from(error: io::Error) -> Self {
        Error::Io(error)
    }
}

/// The recording of one process, or of a strand of one. It writes its first line when it is made.
///
/// Record while you hold the lock of the data, if a change of shared data and its line must stay together.
///
/// # Errors
///
/// A call that is refused writes nothing, and the recorder goes on as if it hadn't been made. With [`Error::Io`] a part
/// of the line may have been written, and each later call is [`Error::Broken`].
#[must_use = "a recorder that is dropped before its end leaves a stream that is refused"]
pub struct Recorder {
    process: String,
    owner: u32,
    recording: Arc<Mutex<Recording>>,
    /// Where it was begun, if it is a strand.
    begun: Option<Place>,
    family: Arc<Family>,
}

/// A place in the program.
type Place = &'static Location<'static>;

/// What a note says but for the process, the event and the clock.
#[derive(Clone, Copy)]
struct Note<'a> {
    text: &'a str,
    place: Place,
}

impl Note<'_> {
    fn at(place: Place) -> Self {
        Note { text: "", place }
    }
}

/// A process that is recorded and its strands.
struct Family {
    /// Where the streams of strands are, if there is room for them.
    room: Option<Room>,
    limits: Limits,
    strands: Mutex<Strands>,
}

/// So many events, processes and bytes of an id has a recording at most.
#[derive(Clone, Copy)]
struct Limits {
    events: usize,
    processes: usize,
    id_bytes: usize,
}

impl Limits {
    const SESSION: Limits = Limits {
        events: EVENT_LIMIT,
        processes: PROCESS_LIMIT,
        id_bytes: ID_BYTE_LIMIT,
    };
    const LONG: Limits = Limits {
        events: LONG_EVENT_LIMIT,
        processes: LONG_PROCESS_LIMIT,
        id_bytes: LONG_ID_BYTE_LIMIT,
    };
}

/// Where `monitor serve` listens.
#[derive(Clone)]
enum Address {
    /// A port of a host, by its name or address.
    Port(String, u16),
    /// A socket with this path.
    Socket(PathBuf),
}

impl fmt::Display for Address {
    fn fmt(&self, to: &mut fmt::Formatter<'_>) -> fmt::Result {
        match self {
            Address::Port(host, port) => write!(to, "no connection to {host}:{port}"),
            Address::Socket(path) => write!(to, "no connection to unix:{}", path.display()),
        }
    }
}

impl Address {
    /// A port of this machine.
    fn here(port: u16) -> Self {
        Address::Port(Ipv4Addr::LOCALHOST.to_string(), port)
    }

    /// The port or the socket that `MONITOR_TO` names; nothing for a folder.
    fn named(place: &str) -> Result<Option<Self>, Error> {
        let refused = || Error::Where(place.to_owned());
        if let Some(path) = place.strip_prefix(SOCKET) {
            let is_path = path.starts_with('/') && path.len() <= SOCKET_BYTE_LIMIT;
            return if is_path {
                Ok(Some(Address::Socket(path.into())))
            } else {
                Err(refused())
            };
        }
        if !place.is_empty() && (!place.contains(':') || place.contains(['/', '\\'])) {
            return Ok(None);
        }
        let (host, digits) = place.rsplit_once(':').ok_or_else(refused)?;
        let are_digits = digits.len() <= 5 && digits.bytes().all(|byte| byte.is_ascii_digit());
        match (host_named(host), digits.parse()) {
            (Some(host), Ok(port)) if are_digits && (1..=PORT_LIMIT).contains(&port) => {
                Ok(Some(Address::Port(host, port)))
            }
            _ => Err(refused()),
        }
    }
}

/// The host that stands before a port, if it is one: this machine, a name or an address. One of IPv6 is in brackets.
fn host_named(text: &str) -> Option<String> {
    let is_name = |byte: u8| byte.is_ascii_alphanumeric() || b".-_".contains(&byte);
    match text
        .strip_prefix('[')
        .and_then(|rest| rest.strip_suffix(']'))
    {
        Some(inside) => {
            let (address, zone) = inside.split_once('%').unwrap_or((inside, "0"));
            let is_address = address
                .bytes()
                .all(|byte| byte.is_ascii_hexdigit() || b":.".contains(&byte));
            let is_host = is_address && !address.is_empty() && !zone.is_empty();
            (is_host && zone.bytes().all(is_name)).then(|| inside.to_owned())
        }
        None if text.is_empty() || text == "localhost" => Some(Ipv4Addr::LOCALHOST.to_string()),
        None => text.bytes().all(is_name).then(|| text.to_owned()),
    }
}

enum Room {
    /// Beside the file of the process.
    Beside(PathBuf, Options),
    At(Listener),
}

/// Where `monitor serve` listens, for how long that is waited for, and what each connection begins with.
struct Listener {
    address: Address,
    patience: Duration,
    token_line: Vec<u8>,
}

impl Listener {
    /// A connection that has begun with the token.
    fn connection(&self) -> io::Result<Box<dyn Write + Send>> {
        let mut connection = connection_to(&self.address, self.patience)?;
        connection.write_all(&self.token_line)?;
        Ok(connection)
    }
}

/// This token or, if it is empty, that of `MONITOR_TOKEN`, with its LF; nothing if there is none.
fn token_line(given: &str) -> Result<Vec<u8>, Error> {
    let (name, mut line) = if given.is_empty() {
        ("MONITOR_TOKEN", environment_token()?)
    } else {
        ("the token", given.as_bytes().to_vec())
    };
    if line.len() > TOKEN_BYTE_LIMIT || line.iter().any(|byte| b"\n\r\0".contains(byte)) {
        return Err(Error::Token(name));
    }
    if !line.is_empty() {
        line.push(b'\n');
    }
    Ok(line)
}

#[cfg(unix)]
fn environment_token() -> Result<Vec<u8>, Error> {
    use std::os::unix::ffi::OsStringExt;
    Ok(env::var_os("MONITOR_TOKEN").unwrap_or_default().into_vec())
}

/// Elsewhere it is a text.
#[cfg(not(unix))]
fn environment_token() -> Result<Vec<u8>, Error> {
    let token = env::var_os("MONITOR_TOKEN")
        .unwrap_or_default()
        .into_string();
    Ok(token
        .map_err(|_| Error::Token("MONITOR_TOKEN"))?
        .into_bytes())
}

/// How a file is recorded to.
///
/// ```no_run
/// # fn main() -> Result<(), monitor_recorder::Error> {
/// let left = monitor_recorder::Options::new().notes(true).to_file("left", "left.stream")?;
/// # left.end()
/// # }
/// ```
#[derive(Clone, Copy, Debug, Default)]
#[must_use = "options record nothing by themselves"]
pub struct Options {
    has_notes: bool,
    replaces: bool,
    again: bool,
    is_long: bool,
}

impl Options {
    /// Those of [`Recorder::to_file`]: a new file, without notes.
    pub fn new() -> Self {
        Options::default()
    }

    /// Whether each event gets a note, in a file beside: that of `left.stream` is `left.notes.jsonl`. The path has to
    /// end with `.stream` then, or it is [`Error::Notes`]. docs/RECORDING.md has the format.
    pub fn notes(self, has_notes: bool) -> Self {
        Options { has_notes, ..self }
    }

    /// Whether a file may be there already, which is lost then, with its notes.
    pub fn replace(self, replaces: bool) -> Self {
        Options { replaces, ..self }
    }

    /// Whether a file that is there is what the process recorded before it was killed and started again. Then a
    /// further incarnation is recorded, as a process of its own and to a file beside: of `left` and `left.stream` the
    /// second one is `left_2` in `left_2.stream`. Its first event receives the message `left-ended`, by which it comes
    /// after all that the one before did; monitor_mend adds the send. It is [`Error::Running`] while the one before
    /// still runs, and [`Error::Again`] on a system other than Linux with 64 bits, whose locks aren't known here.
    pub fn again(self, again: bool) -> Self {
        Options { again, ..self }
    }

    /// Whether it is a long recording: then it may have 2,147,483,647 events, 4,096 processes with its strands, and ids
    /// of 1,024 bytes, and has to be reduced by monitor_reduce.py before it is judged. `MONITOR_LONG=1` in the
    /// environment says the same, of each recorder that is made.
    pub fn long(self, is_long: bool) -> Self {
        Options { is_long, ..self }
    }

    /// Records to a file, a connection or whatever else takes bytes, as [`Recorder::new`] does. Of the options only
    /// [`Options::long`] says anything of it.
    pub fn to_writer(
        self,
        process: &str,
        out: impl Write + Send + 'static,
    ) -> Result<Recorder, Error> {
        check_process(process)?;
        Recorder::over(process, out, None, None, self.limits()?)
    }

    /// The limits of what is recorded, as these options or the environment say.
    fn limits(self) -> Result<Limits, Error> {
        match env::var_os("MONITOR_LONG") {
            Some(text) if text == "1" => Ok(Limits::LONG),
            Some(text) if !text.is_empty() && text != "0" => Err(Error::Long(format!(
                "MONITOR_LONG is {text:?}, and is 1 for one, or else 0"
            ))),
            _ if self.is_long => Ok(Limits::LONG),
            _ => Ok(Limits::SESSION),
        }
    }

    /// Refuses a long recording to a connection, of which this is said.
    fn refuse_long(self, said: impl fmt::Display) -> Result<(), Error> {
        if self.limits()?.events > EVENT_LIMIT {
            return Err(Error::Long(format!(
                "{said}, and monitor serve judges within the limits of a session: record a long run to a folder, and \
                 reduce it by monitor_reduce.py; MONITOR_LONG is 1 for one"
            )));
        }
        Ok(())
    }

    /// Records to a file.
    #[track_caller]
    pub fn to_file(self, process: &str, path: impl AsRef<Path>) -> Result<Recorder, Error> {
        check_process(process)?;
        let path = env::current_dir().unwrap_or_default().join(path); // the working directory may change
        if self.has_notes && notes_path(&path).is_none() {
            return Err(Error::Notes(path.to_string_lossy().into_owned()));
        }
        let limits = self.limits()?;
        if self.again {
            return self.incarnation(process, path);
        }
        let (file, notes) = self.open(&path)?;
        Recorder::over(process, file, notes, Some(Room::Beside(path, self)), limits)
    }

    /// Records to the first file of the process that isn't there yet.
    #[track_caller]
    fn incarnation(self, process: &str, first: PathBuf) -> Result<Recorder, Error> {
        if self.replaces {
            return Err(Error::Again(
                "a file that is replaced has no recording of one",
            ));
        }
        if !locks::ARE_KNOWN {
            return Err(Error::Again("this system has no locks that are known"));
        }
        let mut number = 1;
        while is_there(&path_of(&first, number)) {
            number += 1;
        }
        let before = incarnation_of(process, number - 1);
        if number > 1 && locks::is_locked(&File::open(path_of(&first, number - 1))?) {
            return Err(Error::Running(before));
        }
        let name = incarnation_of(process, number);
        check_process(&name)?;
        // It gets its name once the receipt stands in it, so that it has that whenever the process is killed.
        let path = path_of(&first, number);
        let part = new_part(&path);
        let note = Note::at(Location::caller());
        let made = self.in_part(&name, &path, &part, first).and_then(|made| {
            if number > 1 {
                let id = format!("{before}-ended");
                made.ready()?.record(Some(("recv", &id)), &[], note)?;
            }
            fs::rename(&part, &path)?;
            Ok(made)
        });
        if made.is_err() {
            let _ = fs::remove_file(&part); // the error says more
        }
        made
    }

    /// Records to a new file with a lock. Notes that are there are of an incarnation that was killed before its stream
    /// had its name.
    fn in_part(
        self,
        name: &str,
        path: &Path,
        part: &Path,
        first: PathBuf,
    ) -> Result<Recorder, Error> {
        let file = Options::new().new_file(part)?;
        locks::lock(&file);
        let notes = match notes_path(path) {
            Some(notes) if self.has_notes => Some(Options::new().replace(true).new_file(&notes)?),
            _ => None,
        };
        Recorder::over(
            name,
            file,
            notes,
            Some(Room::Beside(first, self)),
            self.limits()?,
        )
    }

    /// Records to where `MONITOR_TO` says, as [`Recorder::from_environment`] does.
    #[allow(clippy::wrong_self_convention)]
    #[track_caller]
    pub fn from_environment(mut self, process: &str) -> Result<Recorder, Error> {
        check_process(process)?;
        let place = env::var_os("MONITOR_TO").unwrap_or_default();
        if place.is_empty() {
            return Err(Error::Where(String::new()));
        }
        let text = || place.to_string_lossy().into_owned();
        match env::var_os("MONITOR_NOTES") {
            Some(notes) if notes == "1" => self.has_notes = true,
            Some(notes) if !notes.is_empty() && notes != "0" => {
                return Err(Error::Notes(notes.to_string_lossy().into_owned()));
            }
            _ => (),
        }
        let only = "only a folder has the recording of one, and MONITOR_TO is a connection";
        match Address::named(&text())? {
            Some(_) if self.has_notes => Err(Error::Notes(text())),
            Some(_) if self.again => Err(Error::Again(only)),
            Some(address) => {
                self.refuse_long(format_args!("MONITOR_TO is {}", text()))?;
                Recorder::to_address(process, address, "", PATIENCE)
            }
            None => {
                self.limits()?;
                fs::create_dir_all(&place)?;
                self.to_file(
                    process,
                    Path::new(&place).join(format!("{process}{ENDING}")),
                )
            }
        }
    }

    /// Opens the files of a recording. What it replaces has no notes any more.
    fn open(self, path: &Path) -> io::Result<(File, Option<File>)> {
        let file = self.new_file(path)?;
        let notes = match notes_path(path) {
            Some(notes) if self.has_notes => self.new_file(&notes).map(Some),
            Some(notes) if self.replaces => match fs::remove_file(notes) {
                Err(error) if error.kind() != io::ErrorKind::NotFound => Err(error),
                _ => Ok(None),
            },
            _ => Ok(None),
        };
        if notes.is_err() && !self.replaces {
            let _ = fs::remove_file(path); // the error of its notes says more
        }
        Ok((file, notes?))
    }

    fn new_file(self, path: &Path) -> io::Result<File> {
        limits::are_errors();
        let mut options = OpenOptions::new();
        options.write(true);
        let opened = if self.replaces {
            options.create(true).truncate(true).open(path)
        } else {
            options.create_new(true).open(path)
        };
        opened.map_err(|error| match error.kind() {
            io::ErrorKind::AlreadyExists => already(path),
            _ => error,
        })
    }

    /// Opens the files of a strand, in the folder of its process's file, which isn't replaced.
    fn open_beside(self, first: &Path, name: &str) -> io::Result<(File, Option<File>)> {
        let path = first.with_file_name(format!("{name}{ENDING}"));
        if self.replaces {
            if let (Ok(one), Ok(other)) = (path.canonicalize(), first.canonicalize()) {
                if one == other {
                    return Err(already(&path));
                }
            }
        }
        self.open(&path)
    }
}

fn already(path: &Path) -> io::Error {
    let advice = "record to another file or folder, remove it, or say replace(true)";
    let text = format!(
        "{} is there already, and a recording isn't written over: {advice}",
        path.display()
    );
    io::Error::new(io::ErrorKind::AlreadyExists, text)
}

/// The name of this incarnation of a process.
fn incarnation_of(process: &str, number: usize) -> String {
    if number <= 1 {
        process.to_owned()
    } else {
        format!("{process}_{number}")
    }
}

/// The file of this incarnation, if that of the first one is given.
fn path_of(first: &Path, number: usize) -> PathBuf {
    if number == 1 {
        return first.to_owned();
    }
    let mut name = first.file_stem().unwrap_or_default().to_owned();
    name.push(format!("_{number}"));
    if let Some(ending) = first.extension() {
        name.push(".");
        name.push(ending);
    }
    first.with_file_name(name)
}

/// Where a file stands until it gets its name. A process that was killed before may have had the number of this one.
fn new_part(path: &Path) -> PathBuf {
    let named = |more: String| {
        let mut name = path.file_name().unwrap_or_default().to_owned();
        name.push(format!(".{}{more}.part", process::id()));
        path.with_file_name(name)
    };
    let mut part = named(String::new());
    let mut number = 2;
    while is_there(&part) {
        part = named(format!("-{number}"));
        number += 1;
    }
    part
}

/// Whether there is something by this name, be it a link that leads nowhere.
fn is_there(path: &Path) -> bool {
    path.symlink_metadata().is_ok()
}

/// The file of the notes of a stream, if that has a name by which there can be one.
fn notes_path(path: &Path) -> Option<PathBuf> {
    let stem = path.file_name()?.to_str()?.strip_suffix(ENDING)?;
    Some(path.with_file_name(format!("{stem}{NOTES_ENDING}")))
}

struct Strands {
    names: HashSet<String>,
    /// Nothing, once the process has ended.
    recordings: Option<Vec<Arc<Mutex<Recording>>>>,
}

struct Recording {
    process: String,
    limits: Limits,
    is_strand: bool,
    /// Where the notes of the events are written, if they have some.
    notes: Option<File>,
    /// The id of the message by which a strand has ended.
    last: Option<String>,
    /// Nothing, once the recording has ended.
    out: Option<Box<dyn Write + Send>>,
    is_broken: bool,
    events: usize,
    /// The number of the last id that was made.
    made: u64,
    ids: HashSet<String>,
    names: HashSet<String>,
}

impl Recorder {
    /// Records to a new file. One that is there already is [`io::ErrorKind::AlreadyExists`].
    pub fn to_file(process: &str, path: impl AsRef<Path>) -> Result<Self, Error> {
        Options::new().to_file(process, path)
    }

    /// Records to `monitor serve` on a port of this machine, which may listen up to ten seconds later; if nobody does
    /// by then, it is [`io::ErrorKind::ConnectionRefused`]. A later call waits while the monitor doesn't read. With
    /// `MONITOR_LONG=1` it is [`Error::Long`], since a long recording is reduced before it is judged.
    pub fn to_port(process: &str, port: u16) -> Result<Self, Error> {
        Recorder::to_port_within(process, port, PATIENCE)
    }

    /// The same, with another time to wait for somebody who listens.
    pub fn to_port_within(process: &str, port: u16, patience: Duration) -> Result<Self, Error> {
        Recorder::to_port_with_token(process, port, "", patience)
    }

    /// The same, with a token. Each connection begins with it, if there is one, as the line that `monitor serve
    /// --token` asks for: this text or, if it is empty, `MONITOR_TOKEN` in the environment.
    pub fn to_port_with_token(
        process: &str,
        port: u16,
        token: &str,
        patience: Duration,
    ) -> Result<Self, Error> {
        check_process(process)?;
        Options::new().refuse_long(format_args!("the port is {port}"))?;
        Recorder::to_address(process, Address::here(port), token, patience)
    }

    fn to_address(
        process: &str,
        address: Address,
        token: &str,
        patience: Duration,
    ) -> Result<Self, Error> {
        let listener = Listener {
            address,
            patience,
            token_line: token_line(token)?,
        };
        Recorder::over(
            process,
            listener.connection()?,
            None,
            Some(Room::At(listener)),
            Limits::SESSION,
        )
    }

    /// Records to where `MONITOR_TO` in the environment says, so that no code changes between a test and a live
    /// session: to a new file `NAME.stream` in a folder of this name, which is made if there is none; or to `monitor
    /// serve`, on a port of this machine, of `:7411` or `localhost:7411`, on one of another machine, of `host:7411` or
    /// `[fe80::1]:7411`, or by a Unix socket, of `unix:/run/monitor.sock`. With `MONITOR_NOTES=1` each event gets a
    /// note beside the file. A connection has no place for notes, keeps no earlier incarnation, and is judged within
    /// the limits of a session, so with one notes are [`Error::Notes`], [`Options::again`] is [`Error::Again`], and
    /// [`Options::long`] is [`Error::Long`]. It begins with the token of `MONITOR_TOKEN`, as with that of
    /// [`Recorder::to_port_with_token`]. What has a colon and no slash is no folder.
    pub fn from_environment(process: &str) -> Result<Self, Error> {
        Options::new().from_environment(process)
    }

    /// Records to a file, a connection or whatever else takes bytes; each line is flushed.
    pub fn new(process: &str, out: impl Write + Send + 'static) -> Result<Self, Error> {
        Options::new().to_writer(process, out)
    }

    fn over(
        process: &str,
        out: impl Write + Send + 'static,
        notes: Option<File>,
        room: Option<Room>,
        limits: Limits,
    ) -> Result<Self, Error> {
        let recording = Recording::begun(process, Box::new(out), notes, limits, false)?;
        let strands = Strands {
            names: HashSet::from([process.to_owned()]),
            recordings: Some(Vec::new()),
        };
        Ok(Recorder {
            process: process.to_owned(),
            owner: process::id(),
            recording: Arc::new(Mutex::new(recording)),
            begun: None,
            family: Arc::new(Family {
                room,
                limits,
                strands: Mutex::new(strands),
            }),
        })
    }

    /// The same recorder, of which the next call is given this text for the note of its event. It says nothing if events
    /// have no notes.
    pub fn noted<'a>(&'a self, text: &'a str) -> Noted<'a> {
        Noted {
            recorder: self,
            text,
        }
    }

    /// Something happened in this process; these variables have these values from now on.
    #[track_caller]
    pub fn event(&self, settings: &[Setting]) -> Result<(), Error> {
        self.noted("").event(settings)
    }

    /// This process sends a message to one other or, if the document is of version 2, to several: call it once, BEFORE
    /// the message leaves. The id that it makes, the process's name and a counter as in `left-1`, has to travel with
    /// the message.
    #[track_caller]
    pub fn send(&self, settings: &[Setting]) -> Result<String, Error> {
        self.noted("").send(settings)
    }

    /// The same, with an id that no other send of the session has.
    #[track_caller]
    pub fn send_as(&self, id: &str, settings: &[Setting]) -> Result<(), Error> {
        self.noted("").send_as(id, settings)
    }

    /// A message has come, with this id: call it AFTER that. A second copy of a message is [`Error::IdTwice`].
    #[track_caller]
    pub fn receive(&self, id: &str, settings: &[Setting]) -> Result<(), Error> {
        self.noted("").receive(id, settings)
    }

    /// Begins a strand, for a thread or task that waits by itself: a recorder which is a process of the session, of
    /// this name. It is recorded to NAME.stream beside the file of this recorder, or to the same port. This process
    /// sends it a message, so call it where the thread or task is started. A strand ends by [`Recorder::end`], or when
    /// it is dropped; then it sends a message to whoever joins it. It ends with its process at the latest.
    #[track_caller]
    pub fn strand(&self, name: &str) -> Result<Recorder, Error> {
        check_process(name)?;
        let place = Location::caller();
        let mut recording = self.ready()?;
        recording.check_room()?;
        let strand = Recorder {
            process: name.to_owned(),
            owner: self.owner,
            recording: self.family.begun(name)?,
            begun: Some(place),
            family: Arc::clone(&self.family),
        };
        let note = Note::at(place);
        let begun = recording
            .send_any(&[], note)
            .and_then(|id| strand.ready()?.record(Some(("recv", &id)), &[], note));
        if let Err(error) = begun {
            strand.locked().close();
            return Err(error);
        }
        Ok(strand)
    }

    /// This process has waited for a strand, which has ended: call it AFTER that. It receives the strand's last
    /// message; these variables have these values from now on.
    #[track_caller]
    pub fn join(&self, strand: &Recorder, settings: &[Setting]) -> Result<(), Error> {
        self.noted("").join(strand, settings)
    }

    /// How many events are recorded.
    pub fn events(&self) -> usize {
        self.locked().events
    }

    /// Nothing more happens in this process: writes the end line, and closes the file or connection; its strands that
    /// have not ended get their end lines. A strand sends its last message before. A second call does nothing.
    #[track_caller]
    pub fn end(&self) -> Result<(), Error> {
        self.end_at(Location::caller())
    }

    fn end_at(&self, place: Place) -> Result<(), Error> {
        let strands = if self.begun.is_some() || process::id() != self.owner {
            Ok(())
        } else {
            self.family.end_all(Recording::cut_off)
        };
        let mut recording = match self.ready() {
            Err(Error::Ended) => return strands,
            ready => ready?,
        };
        recording.end(place)?;
        strands
    }

    fn locked(&self) -> MutexGuard<'_, Recording> {
        locked(&self.recording)
    }

    /// The recording, if a line may be written to it.
    fn ready(&self) -> Result<MutexGuard<'_, Recording>, Error> {
        ready(self.owner, &self.recording)
    }
}

/// The recording of this process, if a line may be written to it.
fn ready(owner: u32, recording: &Mutex<Recording>) -> Result<MutexGuard<'_, Recording>, Error> {
    if process::id() != owner {
        return Err(Error::Fork);
    }
    let recording = locked(recording);
    match recording.out {
        None => Err(Error::Ended),
        Some(_) if recording.is_broken => Err(Error::Broken),
        Some(_) => Ok(recording),
    }
}

impl Drop for Recorder {
    /// Ends a strand. A process that has not ended leaves no end line, and neither do its strands.
    fn drop(&mut self) {
        if process::id() != self.owner {
            return;
        }
        if let Some(place) = self.begun {
            let _ = self.end_at(place); // who wants to know of an error calls `end` before
            self.locked().close();
        } else {
            let _ = self.family.end_all(|strand| {
                strand.close();
                Ok(())
            });
        }
    }
}

/// A recorder whose next call has a text for its note: see [`Recorder::noted`]. Its calls are those of [`Recorder`].
#[derive(Clone, Copy)]
#[must_use = "a text alone records nothing"]
pub struct Noted<'a> {
    recorder: &'a Recorder,
    text: &'a str,
}

impl Noted<'_> {
    /// Something happened in this process.
    #[track_caller]
    pub fn event(self, settings: &[Setting]) -> Result<(), Error> {
        self.record(None, settings, Location::caller())
    }

    /// This process sends a message, and its id is made: call it BEFORE the message leaves.
    #[track_caller]
    pub fn send(self, settings: &[Setting]) -> Result<String, Error> {
        let note = self.at(Location::caller());
        let mut recording = self.recorder.ready()?;
        recording.check_room()?;
        recording.send_any(settings, note)
    }

    /// This process sends a message with this id: call it BEFORE the message leaves.
    #[track_caller]
    pub fn send_as(self, id: &str, settings: &[Setting]) -> Result<(), Error> {
        self.record(Some(("send", id)), settings, Location::caller())
    }

    /// A message has come, with this id: call it AFTER that.
    #[track_caller]
    pub fn receive(self, id: &str, settings: &[Setting]) -> Result<(), Error> {
        self.record(Some(("recv", id)), settings, Location::caller())
    }

    /// This process has waited for a strand, which has ended: call it AFTER that.
    #[track_caller]
    pub fn join(self, strand: &Recorder, settings: &[Setting]) -> Result<(), Error> {
        let note = self.at(Location::caller());
        let last = strand.locked().last.clone();
        let mut recording = self.recorder.ready()?;
        recording.check_room()?;
        let last = last.ok_or_else(|| Error::NotEnded(strand.process.clone()))?;
        recording.record(Some(("recv", &last)), settings, note)
    }

    fn at(&self, place: Place) -> Note<'_> {
        Note {
            text: self.text,
            place,
        }
    }

    fn record(self, message: Message, settings: &[Setting], place: Place) -> Result<(), Error> {
        let note = self.at(place);
        self.recorder.ready()?.record(message, settings, note)
    }
}

/// The field and the id of a message, if an event has one.
type Message<'a> = Option<(&'a str, &'a str)>;

fn locked<T>(mutex: &Mutex<T>) -> MutexGuard<'_, T> {
    mutex.lock().unwrap_or_else(PoisonError::into_inner)
}

impl Family {
    /// The recording of a strand of this name, which has its first line.
    fn begun(&self, name: &str) -> Result<Arc<Mutex<Recording>>, Error> {
        let mut guard = locked(&self.strands);
        let strands = &mut *guard;
        let recordings = strands.recordings.as_mut().ok_or(Error::Ended)?;
        if strands.names.contains(name) {
            return Err(Error::NameTwice(name.to_owned()));
        }
        if strands.names.len() == self.limits.processes {
            return Err(Error::Processes);
        }
        let (out, notes): (Box<dyn Write + Send>, _) = match &self.room {
            None => return Err(Error::NoPlace),
            Some(Room::Beside(path, options)) => {
                let (file, notes) = options.open_beside(path, name)?;
                (Box::new(file), notes)
            }
            Some(Room::At(listener)) => (listener.connection()?, None),
        };
        let begun = Recording::begun(name, out, notes, self.limits, true)?;
        let recording = Arc::new(Mutex::new(begun));
        strands.names.insert(name.to_owned());
        recordings.push(Arc::clone(&recording));
        Ok(recording)
    }

    /// Ends each of the strands, and gives the first error. No lock of the process is held.
    fn end_all(&self, end: impl Fn(&mut Recording) -> Result<(), Error>) -> Result<(), Error> {
        let recordings = locked(&self.strands).recordings.take().unwrap_or_default();
        let mut ended = Ok(());
        for recording in recordings {
            ended = ended.and(end(&mut locked(&recording)));
        }
        ended
    }
}

impl fmt::Debug for Recorder {
    fn fmt(&self, to: &mut fmt::Formatter<'_>) -> fmt::Result {
        to.debug_struct("Recorder")
            .field("process", &self.process)
            .finish_non_exhaustive()
    }
}

impl Recording {
    /// A recording with its first line.
    fn begun(
        process: &str,
        out: Box<dyn Write + Send>,
        notes: Option<File>,
        limits: Limits,
        is_strand: bool,
    ) -> Result<Self, Error> {
        let mut recording = Recording {
            process: process.to_owned(),
            limits,
            is_strand,
            notes,
            last: None,
            out: Some(out),
            is_broken: false,
            events: 0,
            made: 0,
            ids: HashSet::new(),
            names: HashSet::new(),
        };
        recording.write(&format!("{{\"process\":\"{process}\"}}\n"))?;
        Ok(recording)
    }

    fn id(&self, number: u64) -> String {
        format!("{}-{number}", self.process)
    }

    /// One of a strand's events is kept for its end.
    fn check_room(&self) -> Result<(), Error> {
        if self.events >= self.limits.events - usize::from(self.is_strand) {
            return Err(Error::Events);
        }
        Ok(())
    }

    /// Records a send with an id that it makes.
    fn send_any(&mut self, settings: &[Setting], note: Note) -> Result<String, Error> {
        let mut number = self.made + 1;
        while self.ids.contains(&self.id(number)) {
            number += 1;
        }
        let id = self.id(number);
        self.put(Some(("send", &id)), settings, note)?;
        self.made = number;
        Ok(id)
    }

    /// Writes the end line and closes; a strand sends its last message before.
    fn end(&mut self, place: Place) -> Result<(), Error> {
        if self.is_strand {
            self.last = Some(self.send_any(&[], Note::at(place))?);
        }
        self.write("{\"end\":true}\n")?;
        self.close();
        Ok(())
    }

    /// The process of this strand ends before it: writes the end line alone. If an earlier line could not be written,
    /// the call has said so.
    fn cut_off(&mut self) -> Result<(), Error> {
        let ended = if self.out.is_some() && !self.is_broken {
            self.write("{\"end\":true}\n")
        } else {
            Ok(())
        };
        self.close();
        ended
    }

    /// Checks an event and writes its line; the message is its field and its id.
    fn record(&mut self, message: Message, settings: &[Setting], note: Note) -> Result<(), Error> {
        self.check_room()?;
        self.put(message, settings, note)
    }

    /// Checks the message and the variables of an event, and writes its note, if it has one, and its line.
    fn put(&mut self, message: Message, settings: &[Setting], note: Note) -> Result<(), Error> {
        if let Some((_, id)) = message {
            if id.is_empty() || id.len() > self.limits.id_bytes {
                return Err(Error::Id(id.to_owned()));
            }
            if self.ids.contains(id) {
                return Err(Error::IdTwice(id.to_owned()));
            }
        }
        self.check_settings(settings)?;
        self.note(note)?;
        self.write(&line_of(message, settings))?;
        self.events += 1;
        self.ids.extend(message.map(|(_, id)| id.to_owned()));
        self.names
            .extend(settings.iter().map(|&(name, _)| name.to_owned()));
        Ok(())
    }

    fn check_settings(&self, settings: &[Setting]) -> Result<(), Error> {
        let mut names = HashSet::new();
        for &(name, _) in settings {
            if !is_name(name) || !names.insert(name) {
                return Err(Error::VariableName(name.to_owned()));
            }
        }
        let added = names
            .iter()
            .filter(|&&name| !self.names.contains(name))
            .count();
        if self.names.len() + added > VARIABLE_LIMIT {
            return Err(Error::Variables);
        }
        Ok(())
    }

    /// Writes the note of the event whose line is written next, if the events have notes: so each event that a stream has
    /// has its note.
    fn note(&mut self, note: Note) -> Result<(), Error> {
        if let Some(notes) = &mut self.notes {
            self.is_broken = true;
            notes.write_all(note_line(&self.process, self.events + 1, note).as_bytes())?;
            self.is_broken = false;
        }
        Ok(())
    }

    /// Closes what is written to.
    fn close(&mut self) {
        self.out = None;
        self.notes = None;
    }

    /// Hands the line to the system. If that fails, or panics, nothing more is written later.
    fn write(&mut self, line: &str) -> Result<(), Error> {
        // With the limits above no line has over 1,400 bytes, and no stream over 14,000,000: monitor takes more. A line
        // of a long recording has at most 7,200.
        let out = self.out.as_mut().ok_or(Error::Ended)?;
        self.is_broken = true;
        out.write_all(line.as_bytes())?;
        flush(out)?;
        self.is_broken = false;
        Ok(())
    }
}

/// The line of a note, with its LF.
fn note_line(process: &str, event: usize, note: Note) -> String {
    let now = SystemTime::now()
        .duration_since(UNIX_EPOCH)
        .unwrap_or_default();
    let (seconds, microseconds) = (now.as_secs(), now.subsec_micros());
    let text = escaped(bounded(note.text));
    let place = format!("{}:{}", bounded(note.place.file()), note.place.line());
    format!(
        "{{\"process\": \"{process}\", \"event\": {event}, \"text\": {text}, \"place\": {}, \
         \"clock\": {seconds}.{microseconds:06}}}\n",
        escaped(&place)
    )
}

/// The text, cut if it is too long.
fn bounded(text: &str) -> &str {
    let mut size = text.len().min(NOTE_BYTE_LIMIT);
    while !text.is_char_boundary(size) {
        size -= 1;
    }
    &text[..size]
}

/// The text as JSON has it between quotes. Besides what JSON escapes these are: a terminal takes some for commands, and
/// what reads lines others for their ends.
fn escaped(text: &str) -> String {
    let mut escaped = String::new();
    for character in quoted(text).chars() {
        match character {
            '\u{7f}'..='\u{9f}' | '\u{2028}' | '\u{2029}' => {
                escaped.push_str(&format!("\\u{:04x}", u32::from(character)));
            }
            _ => escaped.push(character),
        }
    }
    escaped
}

/// Flushes; again if a signal comes meanwhile, as `write_all` writes again.
fn flush(out: &mut dyn Write) -> io::Result<()> {
    loop {
        match out.flush() {
            Err(error) if error.kind() == io::ErrorKind::Interrupted => (),
            flushed => return flushed,
        }
    }
}

/// The line of an event, with its LF.
fn line_of(message: Message, settings: &[Setting]) -> String {
    let mut fields = Vec::new();
    if let Some((field, id)) = message {
        fields.push(format!("{}:{}", quoted(field), quoted(id)));
    }
    if !settings.is_empty() {
        let pairs: Vec<_> = settings
            .iter()
            .map(|(name, value)| format!("{}:{value}", quoted(name)))
            .collect();
        fields.push(format!("\"set\":{{{}}}", pairs.join(",")));
    }
    format!("{{{}}}\n", fields.join(","))
}

/// The text as JSON has it between quotes: as short as it can be.
fn quoted(text: &str) -> String {
    let mut quoted = String::from("\"");
    for character in text.chars() {
        match character {
            '"' | '\\' => quoted.extend(['\\', character]),
            '\u{8}' => quoted.push_str("\\b"),
            '\u{c}' => quoted.push_str("\\f"),
            '\n' => quoted.push_str("\\n"),
            '\r' => quoted.push_str("\\r"),
            '\t' => quoted.push_str("\\t"),
            '\0'..='\u{1f}' => quoted.push_str(&format!("\\u{:04x}", u32::from(character))),
            _ => quoted.push(character),
        }
    }
    quoted.push('"');
    quoted
}

/// What the system does at the limit of a file's size: a write fails, and SIGXFSZ ends the process unless that signal is
/// ignored or handled.
#[cfg(all(
    target_os = "linux",
    not(any(target_arch = "mips", target_arch = "mips64"))
))]
mod limits {
    use std::os::raw::c_int;
    use std::ptr;
    use std::sync::Once;

    const SIGXFSZ: c_int = 25;
    const DEFAULT: usize = 0;
    const IGNORED: usize = 1;
    /// A `struct sigaction` of C has 152 bytes at most, of which the first are the handler.
    type Action = [usize; 64];

    extern "C" {
        fn sigaction(number: c_int, action: *const Action, before: *mut Action) -> c_int;
        fn signal(number: c_int, handler: usize) -> usize;
    }

    /// Has SIGXFSZ ignored in the whole process, so that a write over the limit is an error and no more, unless the
    /// program handles the signal. The standard library does so with SIGPIPE.
    pub fn are_errors() {
        static ONCE: Once = Once::new();
        ONCE.call_once(|| {
            let mut action = [0; 64];
            // SAFETY: there is room for what is asked for, and a signal that is ignored runs nothing.
            unsafe {
                if sigaction(SIGXFSZ, ptr::null(), &mut action) == 0 && action[0] == DEFAULT {
                    signal(SIGXFSZ, IGNORED);
                }
            }
        });
    }
}

/// Elsewhere nothing is done: a write over the limit does there what the system does.
#[cfg(not(all(
    target_os = "linux",
    not(any(target_arch = "mips", target_arch = "mips64"))
)))]
mod limits {
    pub fn are_errors() {}
}

fn check_process(name: &str) -> Result<(), Error> {
    if is_name(name) {
        Ok(())
    } else {
        Err(Error::ProcessName(name.to_owned()))
    }
}

fn is_name(name: &str) -> bool {
    let is_letter = |byte: u8| byte.is_ascii_alphabetic() || byte == b'_';
    name.bytes().next().map_or(false, is_letter)
        && name
            .bytes()
            .all(|byte| is_letter(byte) || byte.is_ascii_digit())
        && name.len() <= NAME_BYTE_LIMIT
        && !RESERVED.contains(&name)
}

/// A connection to a port or a socket, where nobody may listen yet.
fn connection_to(address: &Address, patience: Duration) -> io::Result<Box<dyn Write + Send>> {
    let begin = Instant::now();
    loop {
        let connected = match address {
            Address::Port(host, port) => connection_now(host, *port, patience),
            Address::Socket(path) => socket_at(path),
        };
        let comes_later = |error: &io::Error| match address {
            Address::Port(..) => error.kind() == io::ErrorKind::ConnectionRefused,
            Address::Socket(_) => matches!(
                error.kind(),
                io::ErrorKind::ConnectionRefused | io::ErrorKind::NotFound
            ),
        };
        match connected {
            Err(error) if comes_later(&error) && begin.elapsed() < patience => {
                thread::sleep(PAUSE);
            }
            Err(error) => return Err(io::Error::new(error.kind(), format!("{address}: {error}"))),
            connected => return connected,
        }
    }
}

fn connection_now(host: &str, port: u16, patience: Duration) -> io::Result<Box<dyn Write + Send>> {
    let mut refused = io::Error::from(io::ErrorKind::ConnectionRefused);
    for address in (host, port).to_socket_addrs()? {
        match TcpStream::connect_timeout(&address, patience.max(ANSWER)) {
            // A connection to a port that nobody has bound can come to be with itself.
            Ok(connection) if connection.local_addr()? != connection.peer_addr()? => {
                connection.set_nodelay(true)?;
                return Ok(Box::new(connection));
            }
            Ok(_) => (),
            Err(error) => refused = error,
        }
    }
    Err(refused)
}

#[cfg(unix)]
fn socket_at(path: &Path) -> io::Result<Box<dyn Write + Send>> {
    Ok(Box::new(std::os::unix::net::UnixStream::connect(path)?))
}

#[cfg(not(unix))]
fn socket_at(_path: &Path) -> io::Result<Box<dyn Write + Send>> {
    let text = "this system has no sockets with a path: let MONITOR_TO name a port";
    Err(io::Error::new(io::ErrorKind::Unsupported, text))
}

/// Locks of POSIX, by which a process is seen to run: those of the standard library are others than the recorders of
/// other languages have.
#[cfg(all(
    target_os = "linux",
    target_pointer_width = "64",
    not(target_arch = "mips64")
))]
mod locks {
    use std::fs::File;
    use std::io;
    use std::os::raw::{c_int, c_short};
    use std::os::unix::io::AsRawFd;

    const F_SETLK: c_int = 6;
    const F_RDLCK: c_short = 0;
    const F_WRLCK: c_short = 1;

    /// The `struct flock` of C. Nothing but a kind says the whole file.
    #[repr(C)]
    #[derive(Default)]
    struct Flock {
        kind: c_short,
        whence: c_short,
        start: i64,
        size: i64,
        process: c_int,
    }

    extern "C" {
        fn fcntl(descriptor: c_int, command: c_int, ...) -> c_int;
    }

    pub const ARE_KNOWN: bool = true;

    /// Has this process hold a lock on the file for as long as it runs, if its folder can have locks.
    pub fn lock(file: &File) {
        set(file, F_WRLCK);
    }

    /// Whether another process holds a lock on the file.
    pub fn is_locked(file: &File) -> bool {
        let is_set = set(file, F_RDLCK);
        let error = io::Error::last_os_error().raw_os_error();
        !is_set && matches!(error, Some(11 | 13)) // EAGAIN or EACCES
    }

    fn set(file: &File, kind: c_short) -> bool {
        let lock = Flock {
            kind,
            ..Flock::default()
        };
        // SAFETY: the lock is there for as long as it is read.
        unsafe { fcntl(file.as_raw_fd(), F_SETLK, &lock) == 0 }
    }
}

/// Elsewhere nothing is known of them.
#[cfg(not(all(
    target_os = "linux",
    target_pointer_width = "64",
    not(target_arch = "mips64")
)))]
mod locks {
    pub const ARE_KNOWN: bool = false;

    pub fn lock(_file: &std::fs::File) {}

    pub fn is_locked(_file: &std::fs::File) -> bool {
        false
    }
}

/// A message that goes with what threads share.
struct Sent {
    process: String,
    id: String,
}

impl Recorder {
    /// Records the receipt of what another process has sent, if it has; then it is gone.
    fn receive_sent(&self, sent: &mut Option<Sent>, place: Place) -> Result<(), Error> {
        match sent {
            Some(message) if message.process != self.process => {
                let message = Some(("recv", &*message.id));
                self.ready()?.record(message, &[], Note::at(place))?;
                *sent = None;
                Ok(())
            }
            _ => Ok(()),
        }
    }
}

/// A lock between threads, whose release is a message to whoever locks it next: a send of the recorder by which it was
/// locked and a receipt, if that is by another one. So what the lock keeps apart is kept apart in the recording. But the
/// order in which it was locked is a cause then, and no other order is judged.
///
/// ```no_run
/// # fn work(worker: &monitor_recorder::Recorder) -> Result<(), monitor_recorder::Error> {
/// let money = monitor_recorder::RecordedMutex::new(100);
/// let mut guard = money.lock(worker)?; // a receipt, if another one has unlocked it
/// *guard -= 30;
/// guard.unlock() // a send; so does a guard that is dropped
/// # }
/// ```
#[derive(Default)]
pub struct RecordedMutex<T> {
    held: Mutex<Held<T>>,
}

#[derive(Default)]
struct Held<T> {
    sent: Option<Sent>,
    value: T,
}

impl<T> RecordedMutex<T> {
    /// A lock that is free.
    pub fn new(value: T) -> Self {
        let held = Mutex::new(Held { sent: None, value });
        RecordedMutex { held }
    }

    /// Waits until the lock is free, holds it, and records the receipt. With an error it isn't held.
    #[track_caller]
    pub fn lock(&self, recorder: &Recorder) -> Result<RecordedGuard<'_, T>, Error> {
        let held = self.held.lock().map_err(|_| Error::Poisoned)?;
        RecordedGuard::new(held, recorder, Location::caller())
    }

    /// The same, or nothing if the lock isn't free.
    #[track_caller]
    pub fn try_lock(&self, recorder: &Recorder) -> Result<Option<RecordedGuard<'_, T>>, Error> {
        match self.held.try_lock() {
            Ok(held) => RecordedGuard::new(held, recorder, Location::caller()).map(Some),
            Err(TryLockError::WouldBlock) => Ok(None),
            Err(TryLockError::Poisoned(_)) => Err(Error::Poisoned),
        }
    }
}

impl<T> fmt::Debug for RecordedMutex<T> {
    fn fmt(&self, to: &mut fmt::Formatter<'_>) -> fmt::Result {
        to.debug_struct("RecordedMutex").finish_non_exhaustive()
    }
}

/// A [`RecordedMutex`] that is held, and what it keeps. It is released when this is dropped, with the send; its note has
/// the place at which it was locked then.
#[must_use = "a lock is released when its guard is dropped"]
pub struct RecordedGuard<'a, T> {
    held: MutexGuard<'a, Held<T>>,
    process: String,
    owner: u32,
    recording: Arc<Mutex<Recording>>,
    locked_at: Place,
    is_sent: bool,
}

impl<'a, T> RecordedGuard<'a, T> {
    fn new(
        mut held: MutexGuard<'a, Held<T>>,
        recorder: &Recorder,
        place: Place,
    ) -> Result<Self, Error> {
        recorder.receive_sent(&mut held.sent, place)?;
        Ok(RecordedGuard {
            held,
            process: recorder.process.clone(),
            owner: recorder.owner,
            recording: Arc::clone(&recorder.recording),
            locked_at: place,
            is_sent: false,
        })
    }

    /// Records the send, and releases the lock, whatever becomes of the send. What is refused here is refused when the
    /// guard is dropped too, but nobody is told then.
    #[track_caller]
    pub fn unlock(mut self) -> Result<(), Error> {
        self.send(Location::caller())
    }

    fn send(&mut self, place: Place) -> Result<(), Error> {
        self.is_sent = true;
        let mut recording = ready(self.owner, &self.recording)?;
        recording.check_room()?;
        let id = recording.send_any(&[], Note::at(place))?;
        self.held.sent = Some(Sent {
            process: self.process.clone(),
            id,
        });
        Ok(())
    }
}

impl<T> Deref for RecordedGuard<'_, T> {
    type Target = T;

    fn deref(&self) -> &T {
        &self.held.value
    }
}

impl<T> DerefMut for RecordedGuard<'_, T> {
    fn deref_mut(&mut self) -> &mut T {
        &mut self.held.value
    }
}

impl<T> Drop for RecordedGuard<'_, T> {
    fn drop(&mut self) {
        if !self.is_sent {
            let _ = self.send(self.locked_at); // each later call of the recorder says what went wrong
        }
    }
}

impl<T: fmt::Debug> fmt::Debug for RecordedGuard<'_, T> {
    fn fmt(&self, to: &mut fmt::Formatter<'_>) -> fmt::Result {
        self.held.value.fmt(to)
    }
}

/// A channel between threads, whose values are messages: to send one is a send of the recorder that is given, and to
/// receive it a receipt, if that is by another one. What a channel tells who sends, as that another thread has the value,
/// isn't recorded, and neither is that an end is gone: if that is to order anything, send a value for it.
#[must_use]
pub fn recorded_channel<T>() -> (RecordedSender<T>, RecordedReceiver<T>) {
    let (sender, receiver) = mpsc::channel();
    let returned = Cell::new(None);
    (
        RecordedSender { sender },
        RecordedReceiver { receiver, returned },
    )
}

/// The end of a [`recorded_channel`] into which values go. It can be cloned, for other threads.
#[derive(Debug)]
pub struct RecordedSender<T> {
    sender: mpsc::Sender<Carried<T>>,
}

/// A value and its message.
struct Carried<T> {
    sent: Option<Sent>,
    value: T,
}

/// A value that wasn't sent, and why.
#[derive(Debug)]
pub struct Unsent<T> {
    /// The value.
    pub value: T,
    /// Why it wasn't sent: [`Error::Disconnected`], or why the recorder refused it.
    pub error: Error,
}

impl<T> From<Unsent<T>> for Error {
    fn from(unsent: Unsent<T>) -> Self {
        unsent.error
    }
}

impl<T> Clone for RecordedSender<T> {
    fn clone(&self) -> Self {
        let sender = self.sender.clone();
        RecordedSender { sender }
    }
}

impl<T> RecordedSender<T> {
    /// Records the send, and sends the value. If nobody receives any more, the message was lost.
    #[track_caller]
    pub fn send(&self, recorder: &Recorder, value: T) -> Result<(), Unsent<T>> {
        let id = match recorder.send(&[]) {
            Ok(id) => id,
            Err(error) => return Err(Unsent { value, error }),
        };
        let process = recorder.process.clone();
        let sent = Some(Sent { process, id });
        self.sender
            .send(Carried { sent, value })
            .map_err(|unsent| Unsent {
                value: unsent.0.value,
                error: Error::Disconnected,
            })
    }
}

/// The end of a [`recorded_channel`] from which values come.
pub struct RecordedReceiver<T> {
    receiver: mpsc::Receiver<Carried<T>>,
    /// A value whose receipt was refused.
    returned: Cell<Option<Carried<T>>>,
}

impl<T> fmt::Debug for RecordedReceiver<T> {
    fn fmt(&self, to: &mut fmt::Formatter<'_>) -> fmt::Result {
        to.debug_struct("RecordedReceiver").finish_non_exhaustive()
    }
}

impl<T> RecordedReceiver<T> {
    /// Waits for a value, and records the receipt. If that is refused, the next call gives the value.
    #[track_caller]
    pub fn recv(&self, recorder: &Recorder) -> Result<T, Error> {
        let carried = match self.returned.take() {
            Some(carried) => carried,
            None => self.receiver.recv().map_err(|_| Error::Disconnected)?,
        };
        self.received(recorder, carried, Location::caller())
    }

    /// The same, but if there is no value it is [`Error::Empty`].
    #[track_caller]
    pub fn try_recv(&self, recorder: &Recorder) -> Result<T, Error> {
        let carried = match self.returned.take() {
            Some(carried) => carried,
            None => self.receiver.try_recv().map_err(|error| match error {
                TryRecvError::Empty => Error::Empty,
                TryRecvError::Disconnected => Error::Disconnected,
            })?,
        };
        self.received(recorder, carried, Location::caller())
    }

    fn received(
        &self,
        recorder: &Recorder,
        mut carried: Carried<T>,
        place: Place,
    ) -> Result<T, Error> {
        match recorder.receive_sent(&mut carried.sent, place) {
            Ok(()) => Ok(carried.value),
            Err(error) => {
                self.returned.set(Some(carried));
                Err(error)
            }
        }
    }
}
