package monitor;

import java.io.File;
import java.io.FileOutputStream;
import java.io.IOException;
import java.io.InterruptedIOException;
import java.io.OutputStream;
import java.io.UncheckedIOException;
import java.net.ConnectException;
import java.net.InetAddress;
import java.net.InetSocketAddress;
import java.net.Socket;
import java.net.StandardProtocolFamily;
import java.net.UnixDomainSocketAddress;
import java.nio.ByteBuffer;
import java.nio.CharBuffer;
import java.nio.channels.FileChannel;
import java.nio.channels.OverlappingFileLockException;
import java.nio.channels.SocketChannel;
import java.nio.charset.CharacterCodingException;
import java.nio.charset.StandardCharsets;
import java.nio.file.FileAlreadyExistsException;
import java.nio.file.Files;
import java.nio.file.LinkOption;
import java.nio.file.Path;
import java.nio.file.StandardCopyOption;
import java.nio.file.StandardOpenOption;
import java.time.Duration;
import java.time.Instant;
import java.util.ArrayList;
import java.util.Collection;
import java.util.HashSet;
import java.util.List;
import java.util.Locale;
import java.util.Set;
import java.util.StringJoiner;
import java.util.concurrent.Callable;
import java.util.regex.Matcher;
import java.util.regex.Pattern;

/**
 * Records one process of a distributed program for {@code monitor}: its events in their order, one line each.
 *
 * <pre>{@code
 * import static monitor.Recorder.set;
 *
 * try (Recorder recorder = Recorder.toFile("left", Path.of("left.stream"))) {
 *     recorder.event(set("inside", 1), set("waiting", 0));  // these are their values from now on
 *     String message = recorder.send(set("money", 70));     // BEFORE the message leaves; the id travels with it
 *     recorder.receive("right-1", set("money", 80));        // AFTER a message has come, with the id that came too
 *     recorder.end();
 * }
 * }</pre>
 *
 * <p>Each line is handed to the operating system before the call returns, so that nothing that was recorded is lost if
 * the process crashes. Several threads may use one recorder: hold its lock, by {@code synchronized (recorder)}, if an
 * event and its line must stay together. What {@code monitor} would refuse is refused at once, by a
 * {@link NotRecordedException}, and the recorder goes on as if the call hadn't been made. The formats and limits are
 * those of docs/SPECIFICATION.md.
 *
 * <p>A block that is left before {@link #end}, by an exception or a {@code return}, closes the recorder and leaves no
 * end line, since nobody knows what the process would have done: {@code monitor} refuses the stream as
 * {@code unended}.
 *
 * <p>One recorder is one order of events. A thread that waits by itself gets a strand, or the order in which it came is
 * taken for a cause:
 *
 * <pre>{@code
 * Recorder worker = recorder.strand("worker");          // where the thread is started; it records to worker.stream
 * Thread thread = new Thread(() -> {
 *     try (worker) {                                    // in the thread: its end is the strand's end
 *         worker.event(set("busy", 1));
 *     }
 * });
 * thread.start();
 * thread.join();
 * recorder.join(worker);                                // AFTER the thread has been waited for
 * }</pre>
 *
 * <p>A session has limits, and a recording that is over them is refused at the call. With {@link Option#LONG}, or
 * MONITOR_LONG=1 in the environment, it is a long recording, of any length, which monitor_reduce.py reduces before it
 * is judged.
 *
 * <p>Events have no names. With {@link Option#NOTES} each has a note in left.notes.jsonl, of the line of the program that
 * recorded it, and of a text if one is given, as by
 * {@code recorder.event(set("inside", 1), note("the lock is ours"))}.
 *
 * <p>Opening a recording throws {@link IOException}. A line that can't be written throws {@link UncheckedIOException},
 * so that a method needs no other signature to record.
 */
public final class Recorder implements AutoCloseable {
    /** At most so many events has a process. */
    public static final int EVENT_LIMIT = 10_000;
    /** At most so many variables has a process. */
    public static final int VARIABLE_LIMIT = 16;
    /** At most so many processes has a session: a process and its strands are as many at most. */
    public static final int PROCESS_LIMIT = 16;
    /** At most so many bytes has the name of a process or of a variable. */
    public static final int NAME_BYTE_LIMIT = 32;
    /** At most so many bytes of UTF-8 has the id of a message, and at least one. */
    public static final int ID_BYTE_LIMIT = 64;
    /** At most so many events has a process of a long recording. */
    public static final int LONG_EVENT_LIMIT = 2_147_483_647;
    /** At most so many processes are a process of a long recording and its strands. */
    public static final int LONG_PROCESS_LIMIT = 4_096;
    /** At most so many bytes of UTF-8 has the id of a message in a long recording. */
    public static final int LONG_ID_BYTE_LIMIT = 1_024;
    /** At most so many bytes of UTF-8 has a note of its text, and of its place's file: what is longer is cut. */
    public static final int NOTE_BYTE_LIMIT = 1_024;
    /** At most so many bytes of UTF-8 has a token. */
    public static final int TOKEN_BYTE_LIMIT = 1_024;

    private static final Pattern NAME = Pattern.compile("[A-Za-z_][A-Za-z0-9_]*");
    private static final Set<String> RESERVED = Set.of("and", "or", "not", "true", "false");
    private static final Duration PATIENCE = Duration.ofSeconds(10);
    private static final long PAUSE_MILLISECONDS = 50;
    /** So long a machine may take to say whether anybody listens, if the time for which that is waited for is less. */
    private static final long ANSWER_MILLISECONDS = 1_000;
    /** A port: of this machine, or of another one by its name or address. One of IPv6 stands in brackets. */
    private static final Pattern PORT = Pattern.compile(
            "(?:\\[([0-9A-Fa-f:.]+(?:%[A-Za-z0-9._-]+)?)\\]|([A-Za-z0-9._-]*)):([0-9]{1,5})");
    private static final int PORT_LIMIT = 65_534;
    private static final String SOCKET = "unix:";
    private static final int SOCKET_BYTE_LIMIT = 107;
    private static final String HERE = "127.0.0.1";
    private static final String PLACES = "a folder, a port as :7411, host:7411 or [::1]:7411, from 1 to " + PORT_LIMIT
            + ", or a socket as unix:/run/a.sock";
    private static final String ENDING = ".stream";
    private static final String NOTES_ENDING = ".notes.jsonl";
    private static final ThreadLocal<Recorder> CURRENT = new ThreadLocal<>();
    private static final Limits SESSION = new Limits(EVENT_LIMIT, PROCESS_LIMIT, ID_BYTE_LIMIT);
    private static final Limits LONG = new Limits(LONG_EVENT_LIMIT, LONG_PROCESS_LIMIT, LONG_ID_BYTE_LIMIT);
    private static final String AS_A_LONG_RUN =
            "or record it as a long run: Option.LONG or MONITOR_LONG=1, and reduce it by monitor_reduce.py";
    private static final String OWN = Recorder.class.getPackageName() + ".Record";

    /** How a file is recorded to. */
    public enum Option {
        /**
         * Each event gets a note, in a file beside: that of {@code left.stream} is {@code left.notes.jsonl}. The path
         * has to end with {@code .stream} then. docs/RECORDING.md has the format.
         */
        NOTES,
        /** A file that is there already is lost, with its notes. */
        REPLACE,
        /**
         * A file that is there is what the process recorded before it was killed and started again. Then a further
         * incarnation is recorded, as a process of its own and to a file beside: of {@code left} and
         * {@code left.stream} the second one is {@code left_2} in {@code left_2.stream}. Its first event receives the
         * message {@code left-ended}, by which it comes after all that the one before did; monitor_mend adds the send.
         * It is refused while the one before still runs.
         */
        AGAIN,
        /**
         * It is a long recording: it may have 2,147,483,647 events, 4,096 processes with its strands, and ids of 1,024
         * bytes, and has to be reduced by monitor_reduce.py before it is judged. MONITOR_LONG=1 in the environment says
         * the same, of each recorder that is made.
         */
        LONG
    }

    /** Why a call was refused. */
    public enum Reason {
        /** No name of a process: letters, digits and _, at most 32, no digit first, no word of predicates. */
        PROCESS_NAME,
        /** No name of a variable, or one that stands twice in one call. */
        VARIABLE_NAME,
        /** A process has at most 16 variables. */
        VARIABLES,
        /**
         * A process has at most 10,000 events, or 2,147,483,647 in a long recording. The last one of a strand is kept
         * for its end.
         */
        EVENTS,
        /** The id of a message has 1 to 64 bytes of UTF-8, or 1,024 in a long recording. */
        ID,
        /** The process has sent or received a message with this id before, so a receipt is that of a second copy. */
        ID_TWICE,
        /** The recording has ended, or was closed. */
        ENDED,
        /** An earlier line could not be written, so none is any more. */
        BROKEN,
        /** The name is that of the process or of another strand of it. */
        NAME_TWICE,
        /** A process and its strands are at most 16, or 4,096 in a long recording. */
        PROCESSES,
        /** The recorder was made for an open stream, so there is no place for the stream of a strand. */
        NO_PLACE,
        /** What is to be joined is no strand that has ended. */
        NOT_ENDED,
        /** MONITOR_TO isn't set, or names no folder, port or socket that there can be. */
        PLACE,
        /** An earlier incarnation of the process still runs. */
        RUNNING,
        /** No earlier incarnation can be told, as of a connection or of a file that is replaced. */
        AGAIN,
        /** A long recording goes to no connection, or MONITOR_LONG is neither 1 nor 0. */
        LONG,
        /** The token that is given, or MONITOR_TOKEN, is over 1,024 bytes of UTF-8, or has a LF, CR, NUL or U+FFFD. */
        TOKEN,
        /** There is no place for notes, as at a port, or MONITOR_NOTES is neither 1 nor 0. */
        NOTES
    }

    /** A call was refused and wrote nothing: its message says why. */
    public static final class NotRecordedException extends RuntimeException {
        private static final long serialVersionUID = 1;
        private final Reason reason;

        NotRecordedException(Reason reason, String message) {
            super(message);
            this.reason = reason;
        }

        /** Why the call was refused. */
        public Reason reason() {
            return reason;
        }
    }

    /** What is said of an event. */
    public sealed interface Detail permits Setting, Note {
    }

    /** A variable and the value that it has from now on. */
    public record Setting(String name, long value) implements Detail {
    }

    /** The text of the event's note, if the events have notes; of several the last one. */
    public record Note(String text) implements Detail {
    }

    /** So many events, processes and bytes of an id has a recording at most. */
    private record Limits(int events, int processes, int idBytes) {
    }

    /** What is written to; the notes are null if events have none. */
    private record Opened(OutputStream out, OutputStream notes) {
        void close() throws IOException {
            try (out) {
                if (notes != null) {
                    notes.close();
                }
            }
        }
    }

    private interface Place {
        Opened opened(String name) throws IOException;
    }

    private interface Ending {
        void end(Recorder strand);
    }

    private final String process;
    private final OutputStream out;
    /** Where the notes of the events are written; null if they have none. */
    private final OutputStream notes;
    private final Family family;
    private final Limits limits;
    private final boolean isStrand;
    private final Set<String> ids = new HashSet<>();
    private final Set<String> names = new HashSet<>();
    private boolean ended;
    private boolean broken;
    private int events;
    private int made;
    /** The id of the message by which a strand has ended. */
    private volatile String last;

    /**
     * Records to a file, a connection or whatever else takes bytes. Each line is flushed, and the stream is closed with
     * the recorder. Of the options only {@link Option#LONG} says anything of it.
     */
    public Recorder(String process, OutputStream out, Option... options) throws IOException {
        this(process, new Opened(out, null), limitsOf(List.of(options)), null);
    }

    private Recorder(String process, Opened opened, Limits limits, Family family) throws IOException {
        this.process = checkedProcess(process);
        this.limits = limits;
        this.out = opened.out();
        this.notes = opened.notes();
        this.isStrand = family != null;
        this.family = isStrand ? family : new Family(process, limits);
        out.write(bytesOf("{\"process\":" + quoted(process) + "}"));
        out.flush();
    }

    /**
     * Records to a new file. One that is there already is a {@link FileAlreadyExistsException}, unless it is to be
     * replaced.
     */
    public static Recorder toFile(String process, Path path, Option... options) throws IOException {
        checkedProcess(process);
        Set<Option> all = Set.copyOf(List.of(options));
        Path first = path.toAbsolutePath();
        if (all.contains(Option.NOTES) && !first.toString().endsWith(ENDING)) {
            throw refused(Reason.NOTES, path + " doesn't end with " + ENDING + ": notes of left" + ENDING
                    + " are in left" + NOTES_ENDING);
        }
        Limits limits = limitsOf(all);
        Recorder recorder = all.contains(Option.AGAIN) ? incarnation(process, first, limits, all)
                : over(process, newFiles(first, all), limits, null);
        recorder.family.place = name -> newFiles(checkedBeside(first, name, all), all);
        return recorder;
    }

    /** Records to the first file of the process that isn't there yet. */
    private static Recorder incarnation(String process, Path first, Limits limits, Set<Option> options)
            throws IOException {
        if (options.contains(Option.REPLACE)) {
            throw refused(Reason.AGAIN, "a file that is replaced has no recording of an earlier incarnation");
        }
        int number = 1;
        while (Files.exists(pathOf(first, number), LinkOption.NOFOLLOW_LINKS)) {
            number++;
        }
        String before = incarnationOf(process, number - 1);
        if (number > 1) {
            refuseRunning(before, pathOf(first, number - 1));
        }
        String name = checkedProcess(incarnationOf(process, number));
        Path path = pathOf(first, number);
        // It gets its name once the receipt stands in it, so that it has that whenever the process is killed.
        Path part = newPart(path);
        Recorder recorder = null;
        try {
            recorder = over(name, inPart(path, part, options), limits, null);
            if (number > 1) {
                recorder.receive(before + "-ended");
            }
            Files.move(part, path, StandardCopyOption.ATOMIC_MOVE);
            return recorder;
        } catch (Throwable error) {
            if (recorder != null) {
                recorder.closeOut();
            }
            Files.deleteIfExists(part);
            throw error;
        }
    }

    /**
     * A new file with a lock that this process has on it for as long as it runs, if its folder can have locks. Notes
     * that are there are of an incarnation that was killed before its stream had its name.
     */
    private static Opened inPart(Path path, Path part, Set<Option> options) throws IOException {
        FileOutputStream out = (FileOutputStream) newFile(part, false);
        try {
            try {
                out.getChannel().tryLock();
            } catch (IOException error) {
                // without a lock it isn't seen that this process runs
            }
            String name = path.getFileName().toString();
            return new Opened(out, !options.contains(Option.NOTES) ? null : newFile(path.resolveSibling(
                    name.substring(0, name.length() - ENDING.length()) + NOTES_ENDING), true));
        } catch (Throwable error) {
            out.close();
            throw error;
        }
    }

    /** Refuses what is started while the earlier incarnation with this file still runs, if a lock shows that. */
    private static void refuseRunning(String process, Path path) throws IOException {
        boolean isFree;
        try (FileChannel channel = FileChannel.open(path, StandardOpenOption.READ)) {
            isFree = channel.tryLock(0, Long.MAX_VALUE, true) != null;
        } catch (OverlappingFileLockException error) {
            isFree = false; // it is in this process
        }
        if (!isFree) {
            throw refused(Reason.RUNNING, process + " still runs and records to " + path
                    + ": what is started beside it is no later incarnation, but a process of its own");
        }
    }

    private static String incarnationOf(String process, int number) {
        return number == 1 ? process : process + "_" + number;
    }

    /** The file of this incarnation, if that of the first one is given. */
    private static Path pathOf(Path first, int number) {
        String name = first.getFileName().toString();
        int dot = name.lastIndexOf('.');
        int stem = dot > 0 ? dot : name.length();
        return first.resolveSibling(incarnationOf(name.substring(0, stem), number) + name.substring(stem));
    }

    /**
     * Where a file stands until it gets its name. A process that was killed before may have had the number of this one.
     */
    private static Path newPart(Path path) {
        String begin = path.getFileName() + "." + ProcessHandle.current().pid();
        Path part = path.resolveSibling(begin + ".part");
        for (int number = 2; Files.exists(part, LinkOption.NOFOLLOW_LINKS); number++) {
            part = path.resolveSibling(begin + "-" + number + ".part");
        }
        return part;
    }

    /** The file of a strand, in the folder of its process's file, which isn't replaced. */
    private static Path checkedBeside(Path first, String name, Set<Option> options) throws IOException {
        Path path = first.resolveSibling(name + ENDING);
        if (options.contains(Option.REPLACE) && Files.exists(path) && Files.isSameFile(path, first)) {
            throw already(path);
        }
        return path;
    }

    /** Opens the files of a recording. What it replaces has no notes any more. */
    private static Opened newFiles(Path path, Set<Option> options) throws IOException {
        boolean replaces = options.contains(Option.REPLACE);
        String name = path.getFileName().toString();
        OutputStream out = newFile(path, replaces);
        try {
            if (!name.endsWith(ENDING)) {
                return new Opened(out, null);
            }
            String stem = name.substring(0, name.length() - ENDING.length());
            Path beside = path.resolveSibling(stem + NOTES_ENDING);
            if (options.contains(Option.NOTES)) {
                return new Opened(out, newFile(beside, replaces));
            }
            if (replaces) {
                Files.deleteIfExists(beside);
            }
            return new Opened(out, null);
        } catch (Throwable error) {
            out.close();
            if (!replaces) {
                Files.delete(path);
            }
            throw error;
        }
    }

    private static FileAlreadyExistsException already(Path path) {
        return new FileAlreadyExistsException(path.toString(), null, "a recording isn't written over: record to "
                + "another file or folder, remove it, or give Option.REPLACE");
    }

    private static OutputStream newFile(Path path, boolean replaces) throws IOException {
        File file = path.toFile();
        if (!replaces && !file.createNewFile()) {
            throw already(path);
        }
        // A channel would be closed if a thread is interrupted while it records.
        return new FileOutputStream(file);
    }

    /**
     * Records to {@code monitor serve} on a port of this machine, 1 to 65,534, which may listen up to ten seconds
     * later; if nobody does by then, it is a {@link ConnectException}. A later call waits while the monitor doesn't
     * read. It is refused with MONITOR_LONG=1, since a long recording is reduced before it is judged.
     */
    public static Recorder toPort(String process, int port) throws IOException {
        return toPort(process, port, PATIENCE);
    }

    /** The same, with another time to wait for somebody who listens. */
    public static Recorder toPort(String process, int port, Duration patience) throws IOException {
        return toPort(process, port, patience, "");
    }

    /**
     * The same, with a token. Each connection begins with it, if there is one, as the line that {@code monitor serve
     * --token} asks for: this text or, if it is empty, MONITOR_TOKEN in the environment.
     */
    public static Recorder toPort(String process, int port, Duration patience, String token) throws IOException {
        return toAddress(process, new Address(HERE, port), patience, "the port is " + port, token, List.of());
    }

    private static Recorder toAddress(String process, Address address, Duration patience, String said, String token,
            List<Option> options) throws IOException {
        checkedProcess(process);
        if (limitsOf(options) == LONG) {
            throw refused(Reason.LONG, said + ", and monitor serve judges within the limits of a session: record a "
                    + "long run to a folder, and reduce it by monitor_reduce.py; MONITOR_LONG is 1 for one");
        }
        byte[] line = tokenLine(token);
        Place place = name -> new Opened(begun(connectionTo(address, patience), line), null);
        Recorder recorder = over(process, place.opened(process), SESSION, null);
        recorder.family.place = place;
        return recorder;
    }

    /**
     * Records to where MONITOR_TO in the environment says, so that no code changes between a test and a live session:
     * to a new file {@code NAME.stream} in a folder of this name, which is made if there is none; or to {@code monitor
     * serve}, on a port of this machine, of {@code :7411} or {@code localhost:7411}, on one of another machine, of
     * {@code host:7411} or {@code [fe80::1]:7411}, or by a Unix socket, of {@code unix:/run/monitor.sock}. With
     * MONITOR_NOTES=1 each event gets a note beside the file. A connection has no place for notes, keeps no earlier
     * incarnation, and is judged within the limits of a session, so with one {@link Option#NOTES}, {@link Option#AGAIN}
     * and {@link Option#LONG} are refused. It begins with the token of MONITOR_TOKEN, as with that of
     * {@link #toPort(String, int, Duration, String)}. What has a colon and no slash is no folder.
     */
    public static Recorder fromEnvironment(String process, Option... options) throws IOException {
        String place = System.getenv().getOrDefault("MONITOR_TO", "");
        String notes = System.getenv().getOrDefault("MONITOR_NOTES", "");
        if (!Set.of("", "0", "1").contains(notes)) {
            throw refused(Reason.NOTES,
                    "MONITOR_NOTES is \"" + notes + "\", and is 1 if events are to have notes, or else 0");
        }
        List<Option> all = new ArrayList<>(List.of(options));
        if (notes.equals("1")) {
            all.add(Option.NOTES);
        }
        return toPlace(process, place, all.toArray(Option[]::new));
    }

    /** The same, of a place that is given. */
    public static Recorder toPlace(String process, String place, Option... options) throws IOException {
        return toPlace(process, place, "", options);
    }

    /** The same, with a token in place of that of MONITOR_TOKEN, if it isn't empty. */
    public static Recorder toPlace(String process, String place, String token, Option... options) throws IOException {
        checkedProcess(process);
        Address address = addressOf(place);
        limitsOf(List.of(options));
        if (address == null) {
            Path folder = Files.createDirectories(Path.of(place));
            return toFile(process, folder.resolve(process + ENDING), options);
        }
        if (List.of(options).contains(Option.NOTES)) {
            throw refused(Reason.NOTES, "notes go to a file beside the stream, but MONITOR_TO is the connection "
                    + place + ": unset MONITOR_NOTES, or let MONITOR_TO name a folder");
        }
        if (List.of(options).contains(Option.AGAIN)) {
            throw refused(Reason.AGAIN, "MONITOR_TO is the connection " + place
                    + ", and only a folder has the recording of an earlier incarnation");
        }
        return toAddress(process, address, PATIENCE, "MONITOR_TO is " + place, token, List.of(options));
    }

    /** Where {@code monitor serve} listens: on the port of a host, or by a socket with a path, which has port 0. */
    private record Address(String host, int port) {
        @Override
        public String toString() {
            return port == 0 ? host : host + ":" + port;
        }
    }

    /** The port or the socket that MONITOR_TO names; null for a folder. */
    private static Address addressOf(String place) {
        if (place.startsWith(SOCKET)) {
            String path = place.substring(SOCKET.length());
            if (!path.startsWith("/") || path.getBytes(StandardCharsets.UTF_8).length > SOCKET_BYTE_LIMIT) {
                throw refused(Reason.PLACE, "MONITOR_TO is " + place + ", and the path of a socket begins with / and "
                        + "has at most " + SOCKET_BYTE_LIMIT + " bytes");
            }
            return new Address(path, 0);
        }
        boolean isFolder = !place.contains(":") || place.contains("/") || place.contains("\\");
        if (!place.isEmpty() && isFolder) {
            return null;
        }
        Matcher matcher = PORT.matcher(place);
        int port = matcher.matches() ? Integer.parseInt(matcher.group(3)) : 0;
        if (port < 1 || port > PORT_LIMIT) {
            throw refused(Reason.PLACE, "MONITOR_TO is \"" + place + "\", and names " + PLACES
                    + "; a folder with a colon has a slash too, as ./a:b");
        }
        String host = matcher.group(1) != null ? matcher.group(1) : matcher.group(2);
        return new Address(Set.of("", "localhost").contains(host) ? HERE : host, port);
    }

    private static Recorder over(String process, Opened opened, Limits limits, Family family) throws IOException {
        try {
            return new Recorder(process, opened, limits, family);
        } catch (Throwable error) {
            opened.close();
            throw error;
        }
    }

    /** A variable and the value that it has from now on, for {@code import static}. */
    public static Setting set(String name, long value) {
        return new Setting(name, value);
    }

    /** The same, with 1 for true and 0 for false. */
    public static Setting set(String name, boolean value) {
        return new Setting(name, value ? 1 : 0);
    }

    /** The text of the event's note, for {@code import static}. */
    public static Note note(String text) {
        return new Note(text);
    }

    /**
     * Something happened in this process; these variables have these values from now on.
     *
     * @throws NotRecordedException if it is refused: nothing is written then
     * @throws UncheckedIOException if the line can't be written: a part of it may have been
     */
    public synchronized void event(Detail... details) {
        record(null, null, details);
    }

    /**
     * This process sends a message to one other or, if the document is of version 2, to several: call it once, BEFORE
     * the message leaves. The id that it makes, the process's name and a counter as in {@code left-1}, has to travel
     * with the message.
     *
     * @return the id
     * @throws NotRecordedException if it is refused: nothing is written then
     * @throws UncheckedIOException if the line can't be written: a part of it may have been
     */
    public synchronized String send(Detail... details) {
        checkRoom();
        return sendAny(details);
    }

    /**
     * The same, with an id that no other send of the session has.
     *
     * @throws NotRecordedException if it is refused: nothing is written then
     * @throws UncheckedIOException if the line can't be written: a part of it may have been
     */
    public synchronized void sendAs(String id, Detail... details) {
        record("send", checkedId(id), details);
    }

    /**
     * A message has come, with this id: call it AFTER that.
     *
     * @throws NotRecordedException if it is refused, as {@link Reason#ID_TWICE} for a second copy of a message: nothing
     *     is written then
     * @throws UncheckedIOException if the line can't be written: a part of it may have been
     */
    public synchronized void receive(String id, Detail... details) {
        record("recv", checkedId(id), details);
    }

    /**
     * Begins a strand, for a thread that waits by itself: a recorder which is a process of the session, of this name.
     * It is recorded to NAME.stream beside the file of this recorder, or to the same port. This process sends it a
     * message, so call it where the thread is started. A strand ends by {@link #end} or {@link #close}; then it sends a
     * message to whoever joins it. It ends with its process at the latest.
     *
     * @throws NotRecordedException if it is refused: nothing is written then
     * @throws IOException if the strand's stream can't be opened: nothing is written then
     * @throws UncheckedIOException if the line can't be written: a part of it may have been
     */
    public synchronized Recorder strand(String name) throws IOException {
        checkedProcess(name);
        checkRoom();
        Recorder strand = family.begun(name);
        try {
            strand.receive(send());
            return strand;
        } catch (Throwable error) {
            strand.closeOut();
            throw error;
        }
    }

    /**
     * This process has waited for a strand, which has ended: call it AFTER that. It receives the strand's last message;
     * these variables have these values from now on.
     *
     * @throws NotRecordedException if it is refused, as {@link Reason#NOT_ENDED}: nothing is written then
     * @throws UncheckedIOException if the line can't be written: a part of it may have been
     */
    public synchronized void join(Recorder strand, Detail... details) {
        checkRoom();
        if (strand == null || strand.last == null) {
            throw refused(Reason.NOT_ENDED, (strand == null ? "null" : strand.process)
                    + " is no strand that has ended: wait for it, and then join it");
        }
        record("recv", strand.last, details);
    }

    /** The name of the process, or of the strand, that is recorded. */
    public String process() {
        return process;
    }

    /** The recorder within which this thread works, by which what threads share records; null if there is none. */
    public static Recorder current() {
        return CURRENT.get();
    }

    /** Does the work in this thread, of which this is the current recorder meanwhile. */
    public void within(Runnable work) {
        Recorder before = CURRENT.get();
        CURRENT.set(this);
        try {
            work.run();
        } finally {
            CURRENT.set(before);
        }
    }

    /** The same for work that gives something, or throws something else. */
    public <T> T call(Callable<T> work) throws Exception {
        Recorder before = CURRENT.get();
        CURRENT.set(this);
        try {
            return work.call();
        } finally {
            CURRENT.set(before);
        }
    }

    /** How many events are recorded. */
    public synchronized int events() {
        return events;
    }

    /**
     * Nothing more happens in this process: writes the end line, and closes the file or connection; its strands that
     * have not ended get their end lines. A strand sends its last message before. A second call does nothing.
     *
     * @throws NotRecordedException if an earlier line could not be written: nothing is written then
     * @throws UncheckedIOException if the line can't be written: a part of it may have been
     */
    public void end() {
        try {
            if (!isStrand) {
                family.endAll(Recorder::cutOff);
            }
        } finally {
            endOut(isStrand);
        }
    }

    /**
     * Closes the file or connection. Without {@link #end} before, the stream has no end line, and neither have those of
     * its strands that have not ended. A strand ends by it, as by {@link #end}.
     */
    @Override
    public void close() {
        try {
            if (!isStrand) {
                family.endAll(Recorder::closeOut);
            } else if (!isBroken()) {
                endOut(true);
            }
        } finally {
            closeOut();
        }
    }

    private synchronized boolean isBroken() {
        return broken;
    }

    private synchronized void endOut(boolean sendsLast) {
        if (ended) {
            return;
        }
        checkOpen();
        if (sendsLast) {
            last = sendAny();
        }
        write(out, "{\"end\":true}");
        closeOut();
    }

    /** The process of this strand ends before it: writes the end line alone. */
    private synchronized void cutOff() {
        try {
            if (!broken) {
                endOut(false);
            }
        } finally {
            closeOut();
        }
    }

    private synchronized void closeOut() {
        ended = true;
        try {
            new Opened(out, notes).close();
        } catch (IOException error) {
            throw new UncheckedIOException(error);
        }
    }

    /** A process that is recorded, and its strands. */
    private static final class Family {
        private final String process;
        private final Limits limits;
        private final Set<String> names = new HashSet<>();
        private final List<Recorder> strands = new ArrayList<>();
        /** Opens the stream of a strand, if there is a place for it. */
        private volatile Place place;
        private boolean ended;

        Family(String process, Limits limits) {
            this.process = process;
            this.limits = limits;
            names.add(process);
        }

        /** A strand of this name, which has written its first line. */
        synchronized Recorder begun(String name) throws IOException {
            if (ended) {
                throw refused(Reason.ENDED, "the recording of " + process + " has ended");
            }
            if (names.contains(name)) {
                throw refused(Reason.NAME_TWICE,
                        name + " is another process of this recording: give each strand a name of its own");
            }
            if (names.size() == limits.processes()) {
                throw refused(Reason.PROCESSES, process + " and its strands are " + names.size() + " processes, and "
                        + (limits == LONG ? "there can be no more"
                                : "a session has at most as many; begin fewer strands, " + AS_A_LONG_RUN));
            }
            if (place == null) {
                throw refused(Reason.NO_PLACE,
                        process + " has no place for the stream of a strand: make its recorder by toFile or toPort");
            }
            Recorder strand = over(name, place.opened(name), limits, this);
            names.add(name);
            strands.add(strand);
            return strand;
        }

        private synchronized List<Recorder> all() {
            ended = true;
            return List.copyOf(strands);
        }

        /** Ends each of the strands; if one can't be ended, the others are. No lock of the process is held. */
        void endAll(Ending ending) {
            UncheckedIOException failure = null;
            for (Recorder strand : all()) {
                try {
                    ending.end(strand);
                } catch (UncheckedIOException error) {
                    failure = error;
                }
            }
            if (failure != null) {
                throw failure;
            }
        }
    }

    private String sendAny(Detail... details) {
        int number = made + 1;
        while (ids.contains(process + "-" + number)) {
            number++;
        }
        put("send", process + "-" + number, details);
        made = number;
        return process + "-" + number;
    }

    /** Checks an event and writes its line; the field is null for an event without a message. */
    private void record(String field, String id, Detail... details) {
        checkRoom();
        put(field, id, details);
    }

    /** One of a strand's events is kept for its end. */
    private void checkRoom() {
        checkOpen();
        if (events >= (isStrand ? limits.events() - 1 : limits.events())) {
            throw refused(Reason.EVENTS, process + " has " + events + " events, and no process may have more than "
                    + limits.events() + ", of which the last one of a strand is its end"
                    + (limits == LONG ? "" : "; record fewer, " + AS_A_LONG_RUN));
        }
    }

    /** Checks the message and the variables of an event, and writes its note, if it has one, and its line. */
    private void put(String field, String id, Detail... details) {
        if (id != null && ids.contains(id)) {
            throw refused(Reason.ID_TWICE, process + " has sent or received " + quoted(id) + " before");
        }
        Set<String> added = checkedNames(details);
        if (notes != null) {
            write(notes, noteOf(details));
        }
        write(out, lineOf(field, id, details));
        events++;
        names.addAll(added);
        if (id != null) {
            ids.add(id);
        }
    }

    private void checkOpen() {
        if (ended) {
            throw refused(Reason.ENDED, "the recording of " + process + " has ended");
        }
        if (broken) {
            throw refused(Reason.BROKEN, "an earlier line of " + process + " could not be written");
        }
    }

    private Set<String> checkedNames(Detail... details) {
        Set<String> added = new HashSet<>();
        for (Detail detail : details) {
            if (detail instanceof Note) {
                continue;
            }
            Setting setting = (Setting) detail;
            if (!isName(setting.name()) || !added.add(setting.name())) {
                throw refused(Reason.VARIABLE_NAME, setting.name() + " is no name of a variable, or stands twice");
            }
        }
        Set<String> all = new HashSet<>(names);
        all.addAll(added);
        if (all.size() > VARIABLE_LIMIT) {
            throw refused(Reason.VARIABLES, process + " has at most " + VARIABLE_LIMIT + " variables");
        }
        return added;
    }

    /** Hands the line to the system. If that fails, nothing more is written later. */
    private void write(OutputStream to, String line) {
        // With the limits above no line has over 1,400 bytes, and no stream over 14,000,000: monitor takes more. A line
        // of a long recording has at most 7,200.
        broken = true;
        try {
            to.write(bytesOf(line));
            to.flush();
        } catch (IOException error) {
            throw new UncheckedIOException(error);
        }
        broken = false;
    }

    private static byte[] bytesOf(String line) {
        return (line + "\n").getBytes(StandardCharsets.UTF_8);
    }

    private static String lineOf(String field, String id, Detail... details) {
        StringJoiner fields = new StringJoiner(",", "{", "}");
        if (field != null) {
            fields.add(quoted(field) + ":" + quoted(id));
        }
        StringJoiner pairs = new StringJoiner(",", "\"set\":{", "}").setEmptyValue("");
        for (Detail detail : details) {
            if (detail instanceof Setting setting) {
                pairs.add(quoted(setting.name()) + ":" + setting.value());
            }
        }
        if (pairs.length() > 0) {
            fields.add(pairs.toString());
        }
        return fields.toString();
    }

    /** The note of the event whose line is written next: so each event that a stream has has its note. */
    private String noteOf(Detail... details) {
        String text = "";
        for (Detail detail : details) {
            text = detail instanceof Note note ? note.text() : text;
        }
        Instant now = Instant.now();
        return "{\"process\": \"" + process + "\", \"event\": " + (events + 1) + ", \"text\": " + escaped(bounded(text))
                + ", \"place\": " + escaped(placeOfCaller())
                + String.format(Locale.ROOT, ", \"clock\": %d.%06d}", now.getEpochSecond(), now.getNano() / 1000);
    }

    /** FILE:LINE of the code that has called into this package, or no text. */
    private static String placeOfCaller() {
        return StackWalker.getInstance().walk(frames -> frames.filter(Recorder::isOfOthers).findFirst())
                .map(frame -> bounded(String.valueOf(frame.getFileName())) + ":" + frame.getLineNumber()).orElse("");
    }

    private static boolean isOfOthers(StackWalker.StackFrame frame) {
        String name = frame.getClassName();
        return !name.startsWith(OWN) && !name.startsWith("java.") && !name.startsWith("jdk.");
    }

    /** The text with U+FFFD for each half of a pair of surrogates, and cut if it is too long. */
    private static String bounded(String text) {
        StringBuilder kept = new StringBuilder();
        int bytes = 0;
        int place = 0;
        while (place < text.length()) {
            int found = text.codePointAt(place);
            int point = Character.getType(found) == Character.SURROGATE ? 0xfffd : found;
            bytes += point < 0x80 ? 1 : point < 0x800 ? 2 : point < 0x10000 ? 3 : 4;
            if (bytes > NOTE_BYTE_LIMIT) {
                break;
            }
            kept.appendCodePoint(point);
            place += Character.charCount(found);
        }
        return kept.toString();
    }

    /**
     * The text as JSON has it between quotes. Besides what JSON escapes these are: a terminal takes some for commands,
     * and what reads lines others for their ends.
     */
    private static String escaped(String text) {
        StringBuilder escaped = new StringBuilder();
        for (char character : quoted(text).toCharArray()) {
            boolean isControl = character >= 0x7f && character <= 0x9f;
            if (isControl || character == '\u2028' || character == '\u2029') {
                escaped.append(String.format("\\u%04x", (int) character));
            } else {
                escaped.append(character);
            }
        }
        return escaped.toString();
    }

    /** The text as JSON has it between quotes: as short as it can be. */
    private static String quoted(String text) {
        StringBuilder quoted = new StringBuilder("\"");
        for (char character : text.toCharArray()) {
            int place = "\"\\\b\f\n\r\t".indexOf(character);
            if (place >= 0) {
                quoted.append('\\').append("\"\\bfnrt".charAt(place));
            } else if (character < ' ') {
                quoted.append(String.format("\\u%04x", (int) character));
            } else {
                quoted.append(character);
            }
        }
        return quoted.append('"').toString();
    }

    private static boolean isName(String name) {
        return name != null && NAME.matcher(name).matches() && name.length() <= NAME_BYTE_LIMIT
                && !RESERVED.contains(name);
    }

    private static String checkedProcess(String name) {
        if (!isName(name)) {
            throw refused(Reason.PROCESS_NAME, name + " is no name of a process: letters, digits and _, at most "
                    + NAME_BYTE_LIMIT + ", none of them a digit at first, and none of " + RESERVED);
        }
        return name;
    }

    private String checkedId(String id) {
        try {
            int size = id == null ? 0 : StandardCharsets.UTF_8.newEncoder().encode(CharBuffer.wrap(id)).remaining();
            if (size >= 1 && size <= limits.idBytes()) {
                return id;
            }
            throw refused(Reason.ID,
                    "the id of a message has 1 to " + limits.idBytes() + " bytes, and this one " + size);
        } catch (CharacterCodingException error) {
            throw refused(Reason.ID, "this id can't be written in UTF-8");
        }
    }

    /** The limits of a recording that is a long one if the options or MONITOR_LONG say so. */
    private static Limits limitsOf(Collection<Option> options) {
        String text = System.getenv().getOrDefault("MONITOR_LONG", "");
        if (!Set.of("", "0", "1").contains(text)) {
            throw refused(Reason.LONG, "MONITOR_LONG is \"" + text + "\", and is 1 for a long recording, or else 0");
        }
        return options.contains(Option.LONG) || text.equals("1") ? LONG : SESSION;
    }

    private static NotRecordedException refused(Reason reason, String message) {
        return new NotRecordedException(reason, message);
    }

    /**
     * What a connection begins with: this token or, if it is empty, that of MONITOR_TOKEN, and a LF; nothing if there
     * is none. No error shows it. What the environment has and the locale can't say comes as U+FFFD.
     */
    private static byte[] tokenLine(String given) {
        String token = given.isEmpty() ? System.getenv().getOrDefault("MONITOR_TOKEN", "") : given;
        try {
            ByteBuffer bytes = StandardCharsets.UTF_8.newEncoder().encode(CharBuffer.wrap(token));
            boolean isLine = token.chars().noneMatch(letter -> "\n\r\0\uFFFD".indexOf(letter) >= 0);
            if (isLine && bytes.remaining() <= TOKEN_BYTE_LIMIT) {
                return token.isEmpty() ? new byte[0] : (token + "\n").getBytes(StandardCharsets.UTF_8);
            }
        } catch (CharacterCodingException error) {
            // it is half a pair of surrogates
        }
        throw refused(Reason.TOKEN, (given.isEmpty() ? "MONITOR_TOKEN" : "the token") + " is no token, which is one "
                + "line of at most " + TOKEN_BYTE_LIMIT + " bytes of UTF-8, without LF, CR, NUL and U+FFFD");
    }

    /** The same connection, once this is written to it. */
    private static OutputStream begun(OutputStream connection, byte[] line) throws IOException {
        try {
            connection.write(line);
            return connection;
        } catch (Throwable error) {
            connection.close();
            throw error;
        }
    }

    /** A connection to an address, where nobody may listen yet. */
    private static OutputStream connectionTo(Address address, Duration patience) throws IOException {
        long begin = System.nanoTime();
        while (true) {
            try {
                return address.port() == 0 ? new SocketOutput(address.host()) : connectionNow(address, patience);
            } catch (ConnectException error) {
                if (System.nanoTime() - begin >= patience.toNanos()) {
                    throw (IOException) new ConnectException("nobody listens at " + address).initCause(error);
                }
            }
            try {
                Thread.sleep(PAUSE_MILLISECONDS);
            } catch (InterruptedException error) {
                Thread.currentThread().interrupt();
                throw new InterruptedIOException("interrupted while nobody listens at " + address);
            }
        }
    }

    private static OutputStream connectionNow(Address address, Duration patience) throws IOException {
        Socket socket = new Socket();
        try {
            int milliseconds = (int) Math.min(Math.max(patience.toMillis(), ANSWER_MILLISECONDS), Integer.MAX_VALUE);
            socket.connect(new InetSocketAddress(InetAddress.getByName(address.host()), address.port()), milliseconds);
            // A connection to a port that nobody has bound can come to be with itself.
            if (socket.getLocalSocketAddress().equals(socket.getRemoteSocketAddress())) {
                throw new ConnectException("nobody listens at " + address);
            }
            socket.setTcpNoDelay(true);
            return socket.getOutputStream();
        } catch (IOException error) {
            socket.close();
            throw error;
        }
    }

    /** A connection by a Unix socket. Its channel would be closed if a thread is interrupted that waits for it. */
    private static final class SocketOutput extends OutputStream {
        private final SocketChannel channel = SocketChannel.open(StandardProtocolFamily.UNIX);

        SocketOutput(String path) throws IOException {
            try {
                channel.connect(UnixDomainSocketAddress.of(path));
                channel.configureBlocking(false);
            } catch (IOException error) {
                channel.close();
                if (Files.exists(Path.of(path)) && !"Connection refused".equals(error.getMessage())) {
                    throw error;
                }
                // A socket that isn't there yet is as one at which nobody listens yet.
                throw (IOException) new ConnectException("nobody listens at " + path).initCause(error);
            }
        }

        @Override
        public void write(int value) throws IOException {
            write(new byte[] {(byte) value}, 0, 1);
        }

        @Override
        public void write(byte[] bytes, int offset, int size) throws IOException {
            ByteBuffer rest = ByteBuffer.wrap(bytes, offset, size);
            boolean isInterrupted = Thread.interrupted();
            try {
                while (rest.hasRemaining()) {
                    isInterrupted |= channel.write(rest) == 0 && isInterruptedMeanwhile(); // the monitor doesn't read
                }
            } finally {
                if (isInterrupted) {
                    Thread.currentThread().interrupt();
                }
            }
        }

        private static boolean isInterruptedMeanwhile() {
            try {
                Thread.sleep(1);
                return false;
            } catch (InterruptedException error) {
                return true;
            }
        }

        @Override
        public void close() throws IOException {
            channel.close();
        }
    }
}
