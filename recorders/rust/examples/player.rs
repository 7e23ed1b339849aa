//! Makes the calls that it is told on its standard input, with the recorder for Rust: see recorders/cases/README.md.
use monitor_recorder::{
    recorded_channel, Error, Options, RecordedGuard, RecordedMutex, RecordedReceiver,
    RecordedSender, Recorder, Setting,
};
use std::collections::HashMap;
use std::io::{self, BufRead, Write};
use std::sync::Mutex;
use std::thread;
use std::time::Duration;

/// The strands of the process and what they share, by their names, and the text of the call's note.
#[derive(Default)]
struct Strands {
    recorders: HashMap<String, Recorder>,
    said: String,
    held: HashMap<String, RecordedGuard<'static, ()>>,
    locks: HashMap<String, &'static RecordedMutex<()>>,
    channels: HashMap<String, (RecordedSender<()>, RecordedReceiver<()>)>,
}

/// What a call came to: an answer that begins with `recorded`, or an error.
type Made = Result<String, Error>;

fn main() -> io::Result<()> {
    let mut recorder = None;
    let mut strands = Strands::default();
    let mut refusal = String::new(); // the text of the last one
    for line in io::stdin().lock().lines() {
        let line = line?;
        let words: Vec<&str> = line.split(' ').collect();
        if words[0] == "said" {
            say(&format!("recorded {refusal}"));
            continue;
        }
        let answer = match make(&mut recorder, &mut strands, words[0], &words[1..]) {
            None => "cannot".to_owned(),
            Some(Ok(given)) => format!("recorded {given}").trim_end().to_owned(),
            Some(Err(error)) => {
                refusal = error.to_string();
                word_of(&error)
            }
        };
        say(&answer);
    }
    Ok(())
}

fn say(answer: &str) {
    let mut out = io::stdout().lock();
    out.write_all(format!("{answer}\n").as_bytes())
        .and_then(|()| out.flush())
        .expect("the answer is written");
}

fn word_of(error: &Error) -> String {
    match error {
        Error::ProcessName(_) => "refused process-name",
        Error::VariableName(_) => "refused variable-name",
        Error::Variables => "refused variables",
        Error::Events => "refused events",
        Error::Id(_) => "refused id",
        Error::IdTwice(_) => "refused id-twice",
        Error::Ended => "refused ended",
        Error::Broken => "refused broken",
        Error::NameTwice(_) => "refused name-twice",
        Error::Processes => "refused processes",
        Error::NotEnded(_) => "refused not-ended",
        Error::Running(_) => "refused running",
        Error::Again(_) => "refused again",
        Error::Long(_) => "refused long",
        Error::Where(_) => "refused place",
        Error::Token(_) => "refused token",
        _ => "failed",
    }
    .to_owned()
}

#[cfg(unix)]
mod signals {
    use std::os::raw::c_int;

    const SIGWINCH: c_int = 28;

    extern "C" {
        fn signal(number: c_int, handler: extern "C" fn(c_int)) -> usize;
        fn siginterrupt(number: c_int, flag: c_int) -> c_int;
    }

    extern "C" fn do_nothing(_number: c_int) {}

    /// Has SIGWINCH interrupt calls of the system: none is made again by the system.
    pub fn handle() {
        // SAFETY: the handler does nothing.
        unsafe {
            signal(SIGWINCH, do_nothing);
            siginterrupt(SIGWINCH, 1);
        }
    }
}

/// Makes a call; nothing, if Rust has no such call.
fn make(
    recorder: &mut Option<Recorder>,
    strands: &mut Strands,
    call: &str,
    words: &[&str],
) -> Option<Made> {
    match call {
        "file" | "noted" | "replaced" | "again" | "noted-again" | "long" => {
            *strands = Strands::default();
            let options = Options::new()
                .notes(call.starts_with("noted"))
                .replace(call == "replaced")
                .again(call.ends_with("again"))
                .long(call == "long");
            return Some(opened(
                recorder,
                options.to_file(&text_of(words[0]), text_of(words[1])),
            ));
        }
        "place" | "again-at" | "long-at" => {
            std::env::set_var("MONITOR_TO", text_of(words[1])); // no other thread runs
            let options = Options::new()
                .again(call == "again-at")
                .long(call == "long-at");
            return Some(opened(
                recorder,
                options.from_environment(&text_of(words[0])),
            ));
        }
        "port" | "token-port" => {
            let patience = Duration::from_secs_f64(words[2].parse().expect("a number of seconds"));
            let port = words[1].parse().expect("a port");
            let made = match words.get(3) {
                Some(token) => {
                    let token = text_of(token);
                    Recorder::to_port_with_token(&text_of(words[0]), port, &token, patience)
                }
                None => Recorder::to_port_within(&text_of(words[0]), port, patience),
            };
            return Some(opened(recorder, made));
        }
        #[cfg(unix)]
        "signals" => {
            signals::handle();
            return Some(Ok(String::new()));
        }
        "close" => {
            *recorder = None;
            return Some(Ok(String::new()));
        }
        "in" => {
            let strand = strands.recorders.remove(words[0])?;
            let made = make_open(&strand, strands, words[1], &words[2..]);
            strands.recorders.insert(words[0].to_owned(), strand);
            return made;
        }
        _ => (),
    }
    make_open(recorder.as_ref()?, strands, call, words) // with close it is gone
}

/// Makes a call by a recorder that there is.
fn make_open(
    recorder: &Recorder,
    strands: &mut Strands,
    call: &str,
    words: &[&str],
) -> Option<Made> {
    match call {
        "note" => {
            strands.said = text_of(words[0]);
            let made = make_open(recorder, strands, words[1], &words[2..]);
            strands.said.clear();
            made
        }
        "strand" => Some(recorder.strand(&text_of(words[0])).map(|strand| {
            strands.recorders.insert(words[0].to_owned(), strand);
            String::new()
        })),
        "lock" | "unlock" | "put" | "take" => {
            Some(share(recorder, strands, call, words[0]).map(nothing))
        }
        "locked" | "unlocked" => {
            let mutex = RecordedMutex::new(());
            let mutex = (call == "locked").then_some(&mutex);
            Some(contend(recorder, mutex, number(words[0]), number(words[1])).map(nothing))
        }
        "join" => Some(join(recorder, strands, words).map(nothing)),
        "strands" => Some(take_strands(recorder, number(words[0]), number(words[1])).map(nothing)),
        "events" => Some(Ok(recorder.events().to_string())),
        "end" => Some(recorder.end().map(nothing)),
        "threads" => Some(threads(recorder, number(words[0]), number(words[1])).map(nothing)),
        "flood" => Some(flood(recorder, number(words[0])).map(nothing)),
        _ => record(recorder, &strands.said, call, words),
    }
}

/// Makes a call of what threads share.
fn share(recorder: &Recorder, strands: &mut Strands, call: &str, name: &str) -> Result<(), Error> {
    let name = name.to_owned();
    match call {
        "lock" => {
            let lock = *strands
                .locks
                .entry(name.clone())
                .or_insert_with(|| Box::leak(Box::default()));
            let guard = lock.lock(recorder)?;
            strands.held.insert(name, guard);
            Ok(())
        }
        "unlock" => strands
            .held
            .remove(&name)
            .expect("a lock that is held")
            .unlock(),
        _ => {
            let (sender, receiver) = strands
                .channels
                .entry(name)
                .or_insert_with(recorded_channel);
            if call == "take" {
                return receiver.try_recv(recorder);
            }
            sender.send(recorder, ())?; // put
            Ok(())
        }
    }
}

fn join(recorder: &Recorder, strands: &Strands, words: &[&str]) -> Result<(), Error> {
    let settings = settings_of(&words[1..]).unwrap_or_default();
    let settings: Vec<Setting> = settings
        .iter()
        .map(|(name, value)| (name.as_str(), *value))
        .collect();
    let strand = strands.recorders.get(words[0]).unwrap_or(recorder);
    if strands.said.is_empty() {
        return recorder.join(strand, &settings);
    }
    recorder.noted(&strands.said).join(strand, &settings)
}

fn nothing((): ()) -> String {
    String::new()
}

fn number(word: &str) -> i64 {
    word.parse().expect("a number")
}

fn opened(place: &mut Option<Recorder>, made: Result<Recorder, Error>) -> Made {
    *place = Some(made?);
    Ok(String::new())
}

fn record(recorder: &Recorder, said: &str, call: &str, words: &[&str]) -> Option<Made> {
    if call == "send-text" {
        return None; // `send` takes settings alone
    }
    let has_id = matches!(call, "send-as" | "receive");
    let id = if has_id {
        text_of(words[0])
    } else {
        String::new()
    };
    let settings = settings_of(&words[usize::from(has_id)..])?;
    let settings: Vec<Setting> = settings
        .iter()
        .map(|(name, value)| (name.as_str(), *value))
        .collect();
    if !said.is_empty() {
        let noted = recorder.noted(said);
        return Some(match call {
            "event" => noted.event(&settings).map(nothing),
            "send" => noted.send(&settings),
            "send-as" => noted.send_as(&id, &settings).map(nothing),
            _ => noted.receive(&id, &settings).map(nothing),
        });
    }
    Some(match call {
        "event" => recorder.event(&settings).map(nothing),
        "send" => recorder.send(&settings),
        "send-as" => recorder.send_as(&id, &settings).map(nothing),
        _ => recorder.receive(&id, &settings).map(nothing),
    })
}

/// The settings, if Rust can say them.
fn settings_of(words: &[&str]) -> Option<Vec<(String, i64)>> {
    let mut settings = Vec::new();
    for word in words {
        let (name, value) = word.rsplit_once('=').expect("a setting");
        settings.push((text_of(name), value_of(value)?));
    }
    Some(settings)
}

/// The value, if Rust can say it as one of 64 bits.
fn value_of(word: &str) -> Option<i64> {
    match word.parse::<bool>() {
        Ok(truth) => Some(truth.into()),
        Err(_) => word.parse().ok(),
    }
}

/// The text for which a word stands: `%` and two digits are a byte, and `%` alone is no text at all.
fn text_of(word: &str) -> String {
    let mut parts = word.split('%');
    let mut bytes = parts.next().unwrap_or_default().as_bytes().to_vec();
    for part in parts.filter(|part| !part.is_empty()) {
        bytes.push(u8::from_str_radix(&part[..2], 16).expect("two digits"));
        bytes.extend(part[2..].bytes());
    }
    String::from_utf8(bytes).expect("a text in UTF-8")
}

fn threads(recorder: &Recorder, count: i64, turns: i64) -> Result<(), Error> {
    let total = Mutex::new(0);
    run(count, |thread| {
        for turn in 0..turns {
            let id = recorder.send(&[(&format!("x{thread}"), turn)])?;
            let sent = id.rsplit_once('-').map_or(0, |(_, sent)| number(sent));
            recorder.event(&[(&format!("y{thread}"), sent)])?;
            recorder.receive(&format!("m{thread}-{turn}"), &[])?;
            let mut total = total.lock().expect("no thread panics");
            *total += 1;
            recorder.event(&[("total", *total)])?;
        }
        Ok(())
    })
}

fn take_strands(recorder: &Recorder, count: i64, turns: i64) -> Result<(), Error> {
    with_strands(recorder, count, |strand| {
        (0..turns).try_for_each(|turn| strand.event(&[("x", turn)]))
    })
}

/// Has strands go inside by turns, by a lock if there is one.
fn contend(
    recorder: &Recorder,
    mutex: Option<&RecordedMutex<()>>,
    count: i64,
    turns: i64,
) -> Result<(), Error> {
    with_strands(recorder, count, |strand| {
        (0..turns).try_for_each(|_| {
            let _guard = mutex.map(|mutex| mutex.lock(strand)).transpose()?;
            strand.event(&[("x", 1)])?;
            strand.event(&[("x", 0)])
        })
    })
}

/// Runs a thread for each of so many strands, and joins them.
fn with_strands(
    recorder: &Recorder,
    count: i64,
    work: impl Fn(&Recorder) -> Result<(), Error> + Sync,
) -> Result<(), Error> {
    let strands = (0..count)
        .map(|number| recorder.strand(&format!("strand{number}")))
        .collect::<Result<Vec<_>, _>>()?;
    run(count, |thread| {
        let strand = &strands[usize::try_from(thread).expect("a thread's number")];
        work(strand)?;
        strand.end()
    })?;
    strands
        .iter()
        .try_for_each(|strand| recorder.join(strand, &[]))
}

fn flood(recorder: &Recorder, count: i64) -> Result<(), Error> {
    run(count, |_| loop {
        match recorder.send(&[]) {
            Ok(id) => say(&format!("sent {id}")),
            Err(Error::Events) => return Ok(()),
            Err(error) => return Err(error),
        }
    })
}

/// Runs so many threads, and gives the first error of one.
fn run(count: i64, work: impl Fn(i64) -> Result<(), Error> + Sync) -> Result<(), Error> {
    thread::scope(|scope| {
        let work = &work;
        let threads: Vec<_> = (0..count)
            .map(|thread| scope.spawn(move || work(thread)))
            .collect();
        threads
            .into_iter()
            .try_for_each(|thread| thread.join().expect("no thread panics"))
    })
}
