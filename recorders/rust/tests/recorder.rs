//! Tests of the recorder that the shared cases can't say.
use monitor_recorder::{
    recorded_channel, Error, Options, RecordedMutex, Recorder, LONG_ID_BYTE_LIMIT,
};
use std::fs;
use std::io::{self, BufWriter, ErrorKind, Read, Write};
use std::net::{TcpListener, TcpStream};
use std::panic::{self, AssertUnwindSafe};
use std::path::{Path, PathBuf};
use std::sync::{Arc, Mutex};
use std::thread;
use std::time::Duration;

const JOIN: &str = "{\"process\":\"left\"}\n";
const END: &str = "{\"end\":true}\n";

/// A file in memory that takes at most three bytes at a time, and none once it has so many.
#[derive(Clone)]
struct Parts {
    bytes: Arc<Mutex<Vec<u8>>>,
    room: Arc<Mutex<usize>>,
}

impl Parts {
    fn new(room: usize) -> Self {
        Parts {
            bytes: Arc::default(),
            room: Arc::new(Mutex::new(room)),
        }
    }

    fn text(&self) -> String {
        String::from_utf8(self.bytes.lock().unwrap().clone()).unwrap()
    }
}

impl Write for Parts {
    fn write(&mut self, text: &[u8]) -> io::Result<usize> {
        let mut bytes = self.bytes.lock().unwrap();
        let taken = text
            .len()
            .min(3)
            .min(*self.room.lock().unwrap() - bytes.len());
        bytes.extend(&text[..taken]);
        Ok(taken)
    }

    fn flush(&mut self) -> io::Result<()> {
        Ok(())
    }
}

/// A folder of a test's own, which is gone with it.
struct Folder(PathBuf);

impl Folder {
    fn new(name: &str) -> Self {
        let path = std::env::temp_dir().join(format!("recorder-{}-{name}", std::process::id()));
        fs::create_dir(&path).unwrap();
        Folder(path)
    }
}

impl Drop for Folder {
    fn drop(&mut self) {
        fs::remove_dir_all(&self.0).unwrap();
    }
}

#[test]
fn a_file_that_takes_bytes_in_parts() {
    let out = Parts::new(1000);
    let recorder = Recorder::new("left", out.clone()).unwrap();
    recorder.event(&[("inside", true.into())]).unwrap();
    recorder.send_as("a\0b", &[]).unwrap();
    assert_eq!(
        out.text(),
        format!("{JOIN}{{\"set\":{{\"inside\":1}}}}\n{{\"send\":\"a\\u0000b\"}}\n")
    );
}

#[test]
fn a_buffer_is_flushed() {
    let out = Parts::new(1000);
    let recorder = Recorder::new("left", BufWriter::new(out.clone())).unwrap();
    recorder.event(&[]).unwrap();
    assert_eq!(out.text(), format!("{JOIN}{{}}\n"));
}

#[test]
fn a_long_recording() {
    let id = "x".repeat(LONG_ID_BYTE_LIMIT);
    let out = Parts::new(10_000);
    let options = Options::new().long(true);
    let recorder = options.to_writer("left", out.clone()).unwrap();
    recorder.receive(&id, &[]).unwrap();
    assert!(matches!(
        recorder.send_as(&format!("{id}x"), &[]),
        Err(Error::Id(_))
    ));
    recorder.end().unwrap();
    assert_eq!(out.text(), format!("{JOIN}{{\"recv\":\"{id}\"}}\n{END}"));
}

#[test]
fn a_variable_twice_in_one_call() {
    let recorder = Recorder::new("left", io::sink()).unwrap();
    assert!(
        matches!(recorder.event(&[("x", 1), ("x", 1)]), Err(Error::VariableName(name)) if name == "x")
    );
    recorder.event(&[("x", 1)]).unwrap();
}

#[test]
fn after_a_line_that_could_not_be_written_nothing_is() {
    let out = Parts::new(JOIN.len() + 5);
    let recorder = Recorder::new("left", out.clone()).unwrap();
    recorder.event(&[]).unwrap();
    assert!(
        matches!(recorder.event(&[]), Err(Error::Io(error)) if error.kind() == ErrorKind::WriteZero)
    );
    *out.room.lock().unwrap() = 1000;
    assert!(matches!(recorder.event(&[]), Err(Error::Broken)));
    assert!(matches!(recorder.end(), Err(Error::Broken)));
    assert_eq!(recorder.events(), 1);
    assert_eq!(out.text(), format!("{JOIN}{{}}\n{{}}"));
}

#[test]
fn a_recorder_that_is_dropped_leaves_no_end_line() {
    fn fails(out: Parts) -> Result<(), Error> {
        let recorder = Recorder::new("left", out)?;
        recorder.event(&[])?;
        recorder.event(&[("and", 1)])?;
        recorder.end()
    }
    let out = Parts::new(1000);
    assert!(fails(out.clone()).is_err());
    assert_eq!(out.text(), format!("{JOIN}{{}}\n"));
    assert_eq!(Arc::strong_count(&out.bytes), 1, "the file is closed");
}

#[test]
fn a_panic_leaves_no_end_line() {
    let out = Parts::new(1000);
    let recorder = Recorder::new("left", out.clone()).unwrap();
    let panicked = panic::catch_unwind(AssertUnwindSafe(|| {
        let recorder = recorder;
        recorder.event(&[]).unwrap();
        panic::resume_unwind(Box::new("something went wrong"));
    }));
    assert!(panicked.is_err());
    assert_eq!(out.text(), format!("{JOIN}{{}}\n"));
}

/// A file that panics once it has its first line.
struct Panics(usize);

impl Write for Panics {
    fn write(&mut self, text: &[u8]) -> io::Result<usize> {
        self.0 += 1;
        if self.0 == 2 {
            panic::resume_unwind(Box::new("the file panics"));
        }
        Ok(text.len())
    }

    fn flush(&mut self) -> io::Result<()> {
        Ok(())
    }
}

#[test]
fn after_a_file_that_panics_nothing_is_written() {
    let recorder = Recorder::new("left", Panics(0)).unwrap();
    assert!(panic::catch_unwind(AssertUnwindSafe(|| recorder.event(&[]))).is_err());
    assert!(matches!(recorder.event(&[]), Err(Error::Broken)));
}

#[test]
fn threads_share_a_recorder() {
    let out = Parts::new(100_000);
    let recorder = Arc::new(Recorder::new("left", out.clone()).unwrap());
    let threads: Vec<_> = (0..4)
        .map(|_| {
            let recorder = Arc::clone(&recorder);
            thread::spawn(move || (0..100).try_for_each(|_| recorder.event(&[])))
        })
        .collect();
    for thread in threads {
        thread.join().unwrap().unwrap();
    }
    recorder.end().unwrap();
    recorder.end().unwrap();
    assert!(matches!(recorder.event(&[]), Err(Error::Ended)));
    assert_eq!(out.text(), format!("{JOIN}{}{END}", "{}\n".repeat(400)));
}

#[test]
fn files() {
    let folder = Folder::new("files");
    let path = folder.0.join("left.stream");
    assert!(
        matches!(Recorder::to_file("and", &path), Err(Error::ProcessName(name)) if name == "and")
    );
    assert!(!path.exists());
    Recorder::to_file("left", &path).unwrap().end().unwrap();
    let again = Recorder::to_file("left", &path);
    assert!(matches!(again, Err(Error::Io(error)) if error.kind() == ErrorKind::AlreadyExists));
    assert_eq!(fs::read_to_string(&path).unwrap(), format!("{JOIN}{END}"));
    let none = Recorder::to_file("left", folder.0.join("none").join("left.stream"));
    assert!(matches!(none, Err(Error::Io(error)) if error.kind() == ErrorKind::NotFound));
}

#[test]
fn a_port_on_which_nobody_listens() {
    let listener = TcpListener::bind("127.0.0.1:0").unwrap();
    let connection = TcpStream::connect(listener.local_addr().unwrap()).unwrap();
    // Nobody can listen on a port that is the end of a connection.
    let port = connection.local_addr().unwrap().port();
    let _alone = TOKENS.lock();
    let nobody = Recorder::to_port_within("left", port, Duration::from_millis(1));
    let said = format!("no connection to 127.0.0.1:{port}: ");
    assert!(
        matches!(nobody, Err(Error::Io(error)) if error.kind() == ErrorKind::ConnectionRefused
            && error.to_string().starts_with(&said))
    );
    assert!(matches!(
        Recorder::to_port("and", port),
        Err(Error::ProcessName(_))
    ));
}

#[test]
fn a_place_that_the_environment_names() {
    let at = |place: &str, name: &str| {
        std::env::set_var("MONITOR_TO", place); // no other test reads it
        Recorder::from_environment(name)
    };
    let folder = std::env::temp_dir().join(format!("recorder-{}-to", std::process::id()));
    let into = folder.join("new");
    let place = into.to_str().unwrap();
    at(place, "left").unwrap().end().unwrap();
    let text = fs::read_to_string(into.join("left.stream")).unwrap();
    assert_eq!(text, format!("{JOIN}{END}"));
    let again = at(place, "left");
    assert!(matches!(again, Err(Error::Io(error)) if error.kind() == ErrorKind::AlreadyExists));
    fs::remove_dir_all(&folder).unwrap();
    let listener = TcpListener::bind("127.0.0.1:0").unwrap();
    let port = listener.local_addr().unwrap().port();
    for host in ["", "localhost", "127.0.0.1"] {
        let recorder = at(&format!("{host}:{port}"), "left").unwrap();
        let (mut accepted, _) = listener.accept().unwrap();
        recorder.end().unwrap();
        let mut text = String::new();
        accepted.read_to_string(&mut text).unwrap();
        assert_eq!(text, format!("{JOIN}{END}"));
    }
    for place in ["", ":0", ":65535", "localhost:99999"] {
        assert!(matches!(at(place, "left"), Err(Error::Where(_))));
    }
    assert!(matches!(at(place, "and"), Err(Error::ProcessName(_))));
    notes_that_the_environment_names(&into);
    tokens_that_the_environment_has(&listener);
    fs::remove_dir_all(&folder).unwrap();
}

/// Held by who connects while the environment may have a token, and by who gives it one.
static TOKENS: Mutex<()> = Mutex::new(());

fn tokens_that_the_environment_has(listener: &TcpListener) {
    let _alone = TOKENS.lock();
    let port = listener.local_addr().unwrap().port();
    for token in ["a secret\rof two", "a secret\n"] {
        std::env::set_var("MONITOR_TOKEN", token);
        let refused = Recorder::to_port("left", port).unwrap_err();
        assert!(matches!(refused, Error::Token("MONITOR_TOKEN")));
        assert!(!format!("{refused} {refused:?}").contains("secret"));
    }
    #[cfg(unix)]
    {
        use std::os::unix::ffi::OsStrExt;
        std::env::set_var("MONITOR_TOKEN", std::ffi::OsStr::from_bytes(b"\xff"));
        let recorder = Recorder::to_port("left", port).unwrap();
        let (mut accepted, _) = listener.accept().unwrap();
        recorder.end().unwrap();
        let mut bytes = Vec::new();
        accepted.read_to_end(&mut bytes).unwrap();
        assert_eq!(bytes, [b"\xff\n", JOIN.as_bytes(), END.as_bytes()].concat());
    }
    std::env::remove_var("MONITOR_TOKEN");
}

#[test]
fn tokens_that_are_none() {
    for token in ["a\0b", "a\n", &"x".repeat(1025)] {
        let refused = Recorder::to_port_with_token("left", 1, token, Duration::ZERO);
        assert!(matches!(refused, Err(Error::Token("the token"))));
    }
}

fn notes_that_the_environment_names(into: &Path) {
    for (notes, names) in [("1", 2), ("0", 1), ("", 1)] {
        std::env::set_var("MONITOR_NOTES", notes);
        std::env::set_var("MONITOR_TO", into);
        let recorder = Options::new()
            .replace(true)
            .from_environment("left")
            .unwrap();
        recorder.event(&[]).unwrap();
        recorder.end().unwrap();
        assert_eq!(fs::read_dir(into).unwrap().count(), names);
    }
    for (notes, place) in [("1", ":7411"), ("yes", "into"), ("yes", ":7411")] {
        std::env::set_var("MONITOR_NOTES", notes);
        std::env::set_var("MONITOR_TO", place);
        assert!(matches!(
            Recorder::from_environment("left"),
            Err(Error::Notes(_))
        ));
    }
    std::env::remove_var("MONITOR_NOTES");
}

/// The notes of a process, without their clocks, each with the line of this file that is its place.
fn notes_of(folder: &Folder, name: &str) -> Vec<(String, String)> {
    let source = include_str!("recorder.rs");
    let text = fs::read_to_string(folder.0.join(format!("{name}.notes.jsonl"))).unwrap();
    assert!(text.ends_with('\n'));
    let notes = text.lines().enumerate().map(|(number, line)| {
        let head = format!(
            "{{\"process\": \"{name}\", \"event\": {}, \"text\": \"",
            number + 1
        );
        let (text, rest) = line
            .strip_prefix(&head)
            .and_then(|rest| rest.split_once("\", \"place\": \""))
            .unwrap();
        let (place, clock) = rest.split_once("\", \"clock\": ").unwrap();
        let (seconds, microseconds) = clock.trim_end_matches('}').split_once('.').unwrap();
        assert!(seconds.parse::<u64>().unwrap() > 1_700_000_000);
        assert_eq!(microseconds.len(), 6);
        let (file, line) = place.rsplit_once(':').unwrap();
        assert!(file.ends_with("recorder.rs"), "{place}");
        let there = source.lines().nth(line.parse::<usize>().unwrap() - 1);
        (text.to_owned(), there.unwrap().trim().to_owned())
    });
    notes.collect()
}

fn noted(text: &str, line: &str) -> (String, String) {
    (text.to_owned(), line.to_owned())
}

#[test]
fn notes() {
    let folder = Folder::new("notes");
    let path = folder.0.join("left.stream");
    let left = Options::new().notes(true).to_file("left", path).unwrap();
    left.noted("said").event(&[("x", 1)]).unwrap();
    let worker = left.strand("worker").unwrap();
    drop(worker);
    let other = left.strand("other").unwrap();
    other.end().unwrap();
    left.noted("joined").join(&other, &[]).unwrap();
    ["a"].iter().for_each(|id| left.send_as(id, &[]).unwrap());
    left.end().unwrap();
    let begins = "let worker = left.strand(\"worker\").unwrap();";
    let sends = "[\"a\"].iter().for_each(|id| left.send_as(id, &[]).unwrap());";
    assert_eq!(
        notes_of(&folder, "left"),
        [
            noted(
                "said",
                "left.noted(\"said\").event(&[(\"x\", 1)]).unwrap();"
            ),
            noted("", begins),
            noted("", "let other = left.strand(\"other\").unwrap();"),
            noted(
                "joined",
                "left.noted(\"joined\").join(&other, &[]).unwrap();"
            ),
            noted("", sends),
        ]
    );
    assert_eq!(
        notes_of(&folder, "worker"),
        [noted("", begins), noted("", begins)]
    );
    assert_eq!(
        notes_of(&folder, "other")[1],
        noted("", "other.end().unwrap();")
    );
}

#[test]
fn notes_of_what_threads_share() {
    let folder = Folder::new("shared-notes");
    let path = folder.0.join("left.stream");
    let left = Options::new().notes(true).to_file("left", path).unwrap();
    let (a, b) = (left.strand("a").unwrap(), left.strand("b").unwrap());
    let mutex = RecordedMutex::new(());
    drop(mutex.lock(&a)); // of a
    mutex.lock(&b).unwrap().unlock().unwrap(); // of b
    let (sender, receiver) = recorded_channel();
    sender.send(&a, 7).unwrap();
    receiver.recv(&b).unwrap();
    left.end().unwrap();
    let of_b = noted("", "mutex.lock(&b).unwrap().unlock().unwrap(); // of b");
    assert_eq!(
        notes_of(&folder, "a")[1..],
        [
            noted("", "drop(mutex.lock(&a)); // of a"),
            noted("", "sender.send(&a, 7).unwrap();"),
        ]
    );
    assert_eq!(
        notes_of(&folder, "b")[1..],
        [of_b.clone(), of_b, noted("", "receiver.recv(&b).unwrap();")]
    );
}

fn names_in(folder: &Folder) -> Vec<String> {
    let entries = fs::read_dir(&folder.0).unwrap();
    let mut names: Vec<_> = entries
        .map(|entry| entry.unwrap().file_name().into_string().unwrap())
        .collect();
    names.sort();
    names
}

#[test]
fn files_that_are_replaced_and_that_are_not() {
    let folder = Folder::new("replaced");
    let path = folder.0.join("left.stream");
    for name in ["left", "left.stream.txt"] {
        let made = Options::new()
            .notes(true)
            .to_file("left", folder.0.join(name));
        assert!(matches!(made, Err(Error::Notes(_))));
    }
    fs::write(folder.0.join("left.notes.jsonl"), "mine").unwrap();
    let made = Options::new().notes(true).to_file("left", &path);
    assert!(matches!(made, Err(Error::Io(error)) if error.kind() == ErrorKind::AlreadyExists));
    assert_eq!(names_in(&folder), ["left.notes.jsonl"]);
    for _ in 0..2 {
        let options = Options::new().notes(true).replace(true);
        let left = options.to_file("left", &path).unwrap();
        left.strand("worker").unwrap().end().unwrap();
        left.end().unwrap();
    }
    assert_eq!(
        stream_of(&folder, "left"),
        format!("{JOIN}{{\"send\":\"left-1\"}}\n{END}")
    );
    let options = Options::new().replace(true);
    options.to_file("left", &path).unwrap().end().unwrap();
    assert_eq!(
        names_in(&folder),
        ["left.stream", "worker.notes.jsonl", "worker.stream"]
    );
    let other = options.to_file("other", &path).unwrap();
    let error = other.strand("left").unwrap_err();
    assert!(
        error.to_string().contains("a recording isn't written over"),
        "{error}"
    );
    other.end().unwrap();
}

#[cfg(unix)]
#[test]
fn after_a_note_that_could_not_be_written_nothing_is() {
    let folder = Folder::new("full");
    std::os::unix::fs::symlink("/dev/full", folder.0.join("left.notes.jsonl")).unwrap();
    let options = Options::new().notes(true).replace(true);
    let left = options
        .to_file("left", folder.0.join("left.stream"))
        .unwrap();
    assert!(matches!(left.event(&[]), Err(Error::Io(_))));
    assert!(matches!(left.event(&[]), Err(Error::Broken)));
    drop(left);
    assert_eq!(stream_of(&folder, "left"), JOIN);
}

#[test]
fn a_mutex_and_what_it_keeps() {
    let folder = Folder::new("mutex");
    let left = opened_in(&folder);
    let (a, b) = (left.strand("a").unwrap(), left.strand("b").unwrap());
    let mutex = RecordedMutex::new(1);
    let mut guard = mutex.lock(&a).unwrap();
    *guard += 1;
    assert!(mutex.try_lock(&b).unwrap().is_none());
    assert_eq!(format!("{guard:?}"), "2");
    guard.unlock().unwrap();
    *mutex.lock(&a).unwrap() += 1; // no receipt of its own
    b.end().unwrap();
    assert!(matches!(mutex.lock(&b), Err(Error::Ended)));
    let guard = mutex.try_lock(&left).unwrap().expect("it is free"); // the message is there still
    assert_eq!(*guard, 3);
    left.end().unwrap();
    assert!(matches!(guard.unlock(), Err(Error::Ended)));
    let poisoned = panic::catch_unwind(AssertUnwindSafe(|| {
        let a = Recorder::new("a", io::sink()).unwrap();
        let _guard = mutex.lock(&a).unwrap();
        panic!("it is poisoned by this");
    }));
    assert!(poisoned.is_err());
    let other = Recorder::new("other", io::sink()).unwrap();
    assert!(matches!(mutex.lock(&other), Err(Error::Poisoned)));
    assert!(matches!(mutex.try_lock(&other), Err(Error::Poisoned)));
    let sends = "{\"send\":\"a-1\"}\n{\"send\":\"a-2\"}\n";
    assert_eq!(
        stream_of(&folder, "a"),
        format!("{}{sends}{END}", begun("a", 1))
    );
    assert!(stream_of(&folder, "left").ends_with(&format!("\n{{\"recv\":\"a-2\"}}\n{END}")));
}

#[test]
fn values_of_a_channel() {
    let folder = Folder::new("channel");
    let left = opened_in(&folder);
    let (a, b) = (left.strand("a").unwrap(), left.strand("b").unwrap());
    let (sender, receiver) = recorded_channel();
    assert!(matches!(receiver.try_recv(&b), Err(Error::Empty)));
    thread::scope(|scope| {
        let sender = sender.clone();
        let a = &a;
        scope.spawn(move || (1..=3).for_each(|value| sender.send(a, value).unwrap()));
        assert_eq!(receiver.recv(&b).unwrap(), 1);
    });
    b.end().unwrap();
    for _ in 0..2 {
        assert!(matches!(receiver.recv(&b), Err(Error::Ended)));
    }
    assert_eq!(receiver.try_recv(&left).unwrap(), 2); // which b has not received
    assert_eq!(receiver.recv(&a).unwrap(), 3); // no receipt of its own
    let unsent = sender.send(&b, 4).unwrap_err();
    assert!(matches!((unsent.value, unsent.error), (4, Error::Ended)));
    drop(receiver);
    let unsent = sender.send(&a, 5).unwrap_err();
    assert_eq!(unsent.value, 5);
    assert!(matches!(Error::from(unsent), Error::Disconnected));
    let (sender, receiver) = recorded_channel::<()>();
    drop(sender);
    assert!(matches!(receiver.recv(&left), Err(Error::Disconnected)));
    assert!(matches!(receiver.try_recv(&left), Err(Error::Disconnected)));
    left.end().unwrap();
    let sends: String = (1..=4)
        .map(|id| format!("{{\"send\":\"a-{id}\"}}\n"))
        .collect();
    assert_eq!(
        stream_of(&folder, "a"),
        format!("{}{sends}{END}", begun("a", 1))
    );
    assert!(stream_of(&folder, "left").ends_with(&format!("\n{{\"recv\":\"a-2\"}}\n{END}")));
}

#[test]
fn errors_say_what_is_wrong() {
    let recorder = Recorder::new("left", io::sink()).unwrap();
    let text = recorder.event(&[("a b", 1)]).unwrap_err().to_string();
    assert_eq!(text, "\"a b\" is not a name of a variable, or stands twice");
    let text = recorder
        .receive(&"x".repeat(65), &[])
        .unwrap_err()
        .to_string();
    assert!(text.ends_with("has 65"), "{text}");
    assert!(format!("{recorder:?}").contains("left"));
}

/// A recorder in a folder of its own, and the streams there.
fn opened_in(folder: &Folder) -> Recorder {
    Recorder::to_file("left", folder.0.join("left.stream")).unwrap()
}

fn stream_of(folder: &Folder, name: &str) -> String {
    fs::read_to_string(folder.0.join(format!("{name}.stream"))).unwrap()
}

/// What a strand writes at its begin.
fn begun(name: &str, number: u32) -> String {
    format!("{{\"process\":\"{name}\"}}\n{{\"recv\":\"left-{number}\"}}\n")
}

#[test]
fn threads_with_a_strand_each() {
    let folder = Folder::new("threads");
    let left = opened_in(&folder);
    let threads: Vec<_> = (0..8)
        .map(|number| {
            let strand = left.strand(&format!("s{number}")).unwrap();
            thread::spawn(move || {
                (0..100).try_for_each(|_| strand.event(&[]))?;
                strand.end()?;
                Ok::<_, Error>(strand)
            })
        })
        .collect();
    let mut joins = String::new();
    for (number, thread) in (0..).zip(threads) {
        let strand = thread.join().unwrap().unwrap();
        left.join(&strand, &[("x", number)]).unwrap();
        joins += &format!("{{\"recv\":\"s{number}-1\",\"set\":{{\"x\":{number}}}}}\n");
    }
    left.end().unwrap();
    assert!(stream_of(&folder, "left").ends_with(&format!("left-8\"}}\n{joins}{END}")));
    for number in 0..8 {
        let name = format!("s{number}");
        let begin = begun(&name, number + 1);
        let events = "{}\n".repeat(100);
        let wanted = format!("{begin}{events}{{\"send\":\"{name}-1\"}}\n{END}");
        assert_eq!(stream_of(&folder, &name), wanted);
    }
}

#[test]
fn a_strand_that_is_dropped_has_ended() {
    let folder = Folder::new("dropped");
    let left = opened_in(&folder);
    let strand = left.strand("worker").unwrap();
    let panicked = panic::catch_unwind(AssertUnwindSafe(|| {
        let _strand = strand;
        panic::resume_unwind(Box::new("something went wrong"));
    }));
    assert!(panicked.is_err());
    left.end().unwrap();
    let wanted = format!("{}{{\"send\":\"worker-1\"}}\n{END}", begun("worker", 1));
    assert_eq!(stream_of(&folder, "worker"), wanted);
}

#[test]
fn strands_end_with_their_process() {
    let folder = Folder::new("with");
    let left = opened_in(&folder);
    let outer = left.strand("outer").unwrap();
    let inner = outer.strand("inner").unwrap();
    assert!(matches!(outer.join(&inner, &[]), Err(Error::NotEnded(name)) if name == "inner"));
    assert!(matches!(outer.join(&outer, &[]), Err(Error::NotEnded(name)) if name == "outer"));
    left.end().unwrap();
    assert!(matches!(inner.event(&[]), Err(Error::Ended)));
    assert!(matches!(outer.strand("more"), Err(Error::Ended)));
    outer.end().unwrap();
    drop((outer, inner));
    assert!(stream_of(&folder, "outer").ends_with(&format!("outer-1\"}}\n{END}")));
    assert!(stream_of(&folder, "inner").ends_with(&format!("{{\"recv\":\"outer-1\"}}\n{END}")));
}

#[test]
fn strands_are_closed_with_their_process() {
    let folder = Folder::new("closed");
    let left = opened_in(&folder);
    let strand = left.strand("worker").unwrap();
    drop(left);
    assert!(matches!(strand.event(&[]), Err(Error::Ended)));
    drop(strand);
    assert_eq!(stream_of(&folder, "worker"), begun("worker", 1));
}

#[test]
fn a_process_that_ends_while_its_strands_record() {
    let folder = Folder::new("races");
    let left = opened_in(&folder);
    thread::scope(|scope| {
        for number in 0..4 {
            let (left, strand) = (&left, left.strand(&format!("s{number}")).unwrap());
            scope.spawn(move || loop {
                let recorded = strand.event(&[]).and_then(|()| left.event(&[]));
                if let Err(error) = recorded {
                    assert!(matches!(error, Error::Ended), "{error}");
                    break;
                }
                thread::sleep(Duration::from_millis(1)); // or there are no more events before the end
            });
        }
        thread::sleep(Duration::from_millis(5));
        left.end().unwrap();
    });
    for number in 0..4 {
        let text = stream_of(&folder, &format!("s{number}"));
        assert_eq!(text.find(END), Some(text.len() - END.len()));
    }
}

#[test]
fn strands_that_are_refused() {
    let folder = Folder::new("refused");
    let given = Recorder::new("left", io::sink()).unwrap();
    assert!(matches!(given.strand("worker"), Err(Error::NoPlace)));
    assert!(matches!(given.strand("left"), Err(Error::NameTwice(name)) if name == "left"));
    let left = opened_in(&folder);
    fs::write(folder.0.join("worker.stream"), "").unwrap();
    let there = left.strand("worker");
    assert!(matches!(there, Err(Error::Io(error)) if error.kind() == ErrorKind::AlreadyExists));
    fs::remove_file(folder.0.join("worker.stream")).unwrap();
    left.strand("worker").unwrap().end().unwrap();
    left.end().unwrap();
    assert_eq!(
        stream_of(&folder, "left"),
        format!("{JOIN}{{\"send\":\"left-1\"}}\n{END}")
    );
}

#[cfg(unix)]
#[test]
fn a_fork_does_not_record() {
    extern "C" {
        fn fork() -> i32;
        fn waitpid(process: i32, status: *mut i32, options: i32) -> i32;
        fn _exit(status: i32) -> !;
    }
    let out = Parts::new(1000);
    let recorder = Recorder::new("left", out.clone()).unwrap();
    let mut status = 0;
    // SAFETY: the child calls nothing but the recorder, which refuses before it locks anything, and `_exit`.
    unsafe {
        let child = fork();
        if child == 0 {
            let refused = [
                recorder.event(&[]),
                recorder.receive("m", &[]),
                recorder.end(),
            ];
            _exit(
                refused
                    .iter()
                    .filter(|result| matches!(result, Err(Error::Fork)))
                    .count() as i32,
            );
        }
        assert_eq!(waitpid(child, &mut status, 0), child);
    }
    assert_eq!(status >> 8, 3);
    recorder.event(&[]).unwrap();
    recorder.end().unwrap();
    assert_eq!(out.text(), format!("{JOIN}{{}}\n{END}"));
}
