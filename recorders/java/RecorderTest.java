import static monitor.Recorder.note;
import static monitor.Recorder.set;

import java.io.BufferedOutputStream;
import java.io.ByteArrayOutputStream;
import java.io.IOException;
import java.io.InterruptedIOException;
import java.io.OutputStream;
import java.io.UncheckedIOException;
import java.net.ConnectException;
import java.net.InetAddress;
import java.net.ServerSocket;
import java.net.Socket;
import java.net.StandardProtocolFamily;
import java.net.UnixDomainSocketAddress;
import java.nio.channels.Channels;
import java.nio.channels.ServerSocketChannel;
import java.nio.channels.SocketChannel;
import java.nio.charset.StandardCharsets;
import java.nio.file.FileAlreadyExistsException;
import java.nio.file.Files;
import java.nio.file.Path;
import java.time.Duration;
import java.util.ArrayList;
import java.util.List;
import java.util.concurrent.Callable;
import java.util.concurrent.TimeUnit;
import java.util.concurrent.locks.Condition;
import java.util.concurrent.locks.LockSupport;
import java.util.stream.Stream;
import monitor.RecordedLock;
import monitor.RecordedQueue;
import monitor.Recorder;
import monitor.Recorder.NotRecordedException;
import monitor.Recorder.Option;
import monitor.Recorder.Reason;

/** Tests of monitor.Recorder that the shared cases can't say, in the folder that the argument names: see test.sh. */
final class RecorderTest {
    private static final String JOIN = "{\"process\":\"left\"}\n";
    private static final String END = "{\"end\":true}\n";
    private static int wrong;

    private RecorderTest() {
    }

    public static void main(String[] arguments) throws Exception {
        if (arguments[0].equals("environment")) {
            recordByTheEnvironment();
            return;
        }
        Path folder = Path.of(arguments[0]);
        textsThatAreNotUnicode();
        namesThatAreMissingOrStandTwice();
        afterALineThatCouldNotBeWrittenNothingIs();
        aBufferIsFlushed();
        aBlockThatIsLeftByAnExceptionLeavesNoEndLine();
        anInterruptedThreadRecords(folder);
        files(folder);
        aPortOnWhichNobodyListens();
        tokens();
        aPlaceThatTheEnvironmentNames();
        interruptedAtASocket();
        threadsWithAStrandEach(folder);
        aStrandThatIsLeftByAnExceptionHasEnded(folder);
        strandsAreClosedWithTheirProcess(folder);
        aProcessThatEndsWhileItsStrandsRecord(folder);
        strandsThatAreRefused(folder);
        aLongRecording();
        notes(folder.resolve("notes"));
        whereThereIsNoPlaceForNotes(folder.resolve("no-place"));
        filesThatAreReplaced(folder.resolve("replaced"));
        afterANoteThatCouldNotBeWrittenNothingIs(folder.resolve("full"));
        aLockIsReentrant(folder.resolve("reentrant"));
        aLockThatIsRefusedIsNotHeld(folder.resolve("not-held"));
        aLockIsReleasedWhileAConditionIsWaitedFor(folder.resolve("condition"));
        elementsOfAQueue(folder.resolve("queue"));
        System.out.println("java: " + wrong + " wrong");
        System.exit(wrong == 0 ? 0 : 1);
    }

    private static void see(Object found, Object wanted) {
        if (!wanted.equals(found)) {
            wrong++;
            new AssertionError("there is\n" + found + "\nand not\n" + wanted).printStackTrace(System.out);
        }
    }

    private static void seeRefused(Reason reason, Runnable call) {
        try {
            call.run();
            see("recorded", reason);
        } catch (NotRecordedException error) {
            see(error.reason(), reason);
            see(error.getMessage().isEmpty(), false);
        }
    }

    private static void seeThrown(Class<? extends Exception> kind, Callable<?> call) {
        try {
            see(call.call(), kind);
        } catch (Exception error) {
            see(error.getClass(), kind);
        }
    }

    private static void textsThatAreNotUnicode() throws IOException {
        ByteArrayOutputStream out = new ByteArrayOutputStream();
        Recorder recorder = new Recorder("left", out);
        for (String id : new String[] {"\ud800", "a\udc00", "\udc00\ud800", null}) {
            seeRefused(Reason.ID, () -> recorder.sendAs(id));
            seeRefused(Reason.ID, () -> recorder.receive(id));
        }
        recorder.sendAs("a\0b");
        see(out.toString(StandardCharsets.UTF_8), JOIN + "{\"send\":\"a\\u0000b\"}\n");
    }

    private static void aLongRecording() throws IOException {
        String id = "x".repeat(Recorder.LONG_ID_BYTE_LIMIT);
        ByteArrayOutputStream out = new ByteArrayOutputStream();
        Recorder recorder = new Recorder("left", out, Option.LONG);
        recorder.receive(id);
        seeRefused(Reason.ID, () -> recorder.sendAs(id + "x"));
        recorder.end();
        see(out.toString(StandardCharsets.UTF_8), JOIN + "{\"recv\":\"" + id + "\"}\n" + END);
    }

    private static void namesThatAreMissingOrStandTwice() throws IOException {
        Recorder recorder = new Recorder("left", new ByteArrayOutputStream());
        seeRefused(Reason.VARIABLE_NAME, () -> recorder.event(set(null, 1)));
        seeRefused(Reason.VARIABLE_NAME, () -> recorder.event(set("x", 1), set("x", true)));
        recorder.event(set("x", 1));
        seeThrown(NotRecordedException.class, () -> new Recorder(null, new ByteArrayOutputStream()));
    }

    /** A file that takes so many bytes. */
    private static final class Narrow extends OutputStream {
        private final ByteArrayOutputStream bytes = new ByteArrayOutputStream();
        private int room;
        private boolean isClosed;

        @Override
        public void write(int oneByte) throws IOException {
            if (bytes.size() == room) {
                throw new IOException("no space is left");
            }
            bytes.write(oneByte);
        }

        @Override
        public void close() {
            isClosed = true;
        }
    }

    private static void afterALineThatCouldNotBeWrittenNothingIs() throws IOException {
        Narrow out = new Narrow();
        seeThrown(IOException.class, () -> new Recorder("left", out));
        out.bytes.reset();
        out.room = 25;
        Recorder recorder = new Recorder("left", out);
        recorder.event();
        seeThrown(UncheckedIOException.class, () -> recorder.send(set("x", 1)));
        out.room = 1000;
        seeRefused(Reason.BROKEN, recorder::event);
        seeRefused(Reason.BROKEN, recorder::end);
        see(recorder.events(), 1);
        recorder.close();
        see(out.bytes.toString(StandardCharsets.UTF_8), JOIN + "{}\n{\"s");
        see(out.isClosed, true);
    }

    private static void aBufferIsFlushed() throws IOException {
        ByteArrayOutputStream out = new ByteArrayOutputStream();
        try (Recorder recorder = new Recorder("left", new BufferedOutputStream(out))) {
            recorder.event();
            see(out.toString(StandardCharsets.UTF_8), JOIN + "{}\n");
        }
    }

    private static void aBlockThatIsLeftByAnExceptionLeavesNoEndLine() throws IOException {
        ByteArrayOutputStream out = new ByteArrayOutputStream();
        try (Recorder recorder = new Recorder("left", out)) {
            recorder.event();
            throw new IllegalStateException("something went wrong");
        } catch (IllegalStateException error) {
            see(out.toString(StandardCharsets.UTF_8), JOIN + "{}\n");
        }
    }

    private static void anInterruptedThreadRecords(Path folder) throws IOException {
        Path path = folder.resolve("interrupted.stream");
        try (Recorder recorder = Recorder.toFile("left", path)) {
            Thread.currentThread().interrupt();
            recorder.event();
            see(Thread.interrupted(), true);
            recorder.end();
        }
        see(Files.readString(path), JOIN + "{}\n" + END);
    }

    private static void files(Path folder) throws IOException {
        Path path = folder.resolve("left.stream");
        seeThrown(NotRecordedException.class, () -> Recorder.toFile("and", path));
        see(Files.exists(path), false);
        Recorder.toFile("left", path).end();
        seeThrown(FileAlreadyExistsException.class, () -> Recorder.toFile("left", path));
        see(Files.readString(path), JOIN + END);
        seeThrown(IOException.class, () -> Recorder.toFile("left", folder.resolve("none").resolve("left.stream")));
    }

    private static void interruptedAtASocket() throws IOException {
        Path path = Files.createTempDirectory("recorder").resolve("monitor.sock");
        try (ServerSocketChannel server = ServerSocketChannel.open(StandardProtocolFamily.UNIX)) {
            server.bind(UnixDomainSocketAddress.of(path));
            Recorder recorder = Recorder.toPlace("left", "unix:" + path);
            try (SocketChannel accepted = server.accept()) {
                Thread.currentThread().interrupt();
                recorder.event();
                see(Thread.interrupted(), true);
                recorder.end();
                see(new String(Channels.newInputStream(accepted).readAllBytes()), JOIN + "{}\n" + END);
            }
        }
        Files.delete(path);
    }

    private static void aPlaceThatTheEnvironmentNames() throws IOException {
        Path into = Files.createTempDirectory("recorder").resolve("new").resolve("folder");
        Recorder.toPlace("left", into.toString()).end();
        see(Files.readString(into.resolve("left.stream")), JOIN + END);
        seeThrown(FileAlreadyExistsException.class, () -> Recorder.toPlace("left", into.toString()));
        try (ServerSocket server = new ServerSocket(0, 4, InetAddress.getLoopbackAddress())) {
            for (String host : new String[] {"", "localhost", "127.0.0.1"}) {
                Recorder recorder = Recorder.toPlace("left", host + ":" + server.getLocalPort());
                try (Socket accepted = server.accept()) {
                    recorder.end();
                    see(new String(accepted.getInputStream().readAllBytes()), JOIN + END);
                }
            }
        }
        for (String place : new String[] {"", ":0", ":65535", "localhost:99999"}) {
            seeThrown(NotRecordedException.class, () -> Recorder.toPlace("left", place));
        }
        seeThrown(NotRecordedException.class, () -> Recorder.toPlace("and", into.toString()));
        if (System.getenv("MONITOR_TO") == null) {
            seeThrown(NotRecordedException.class, () -> Recorder.fromEnvironment("left"));
        }
    }

    private static void aPortOnWhichNobodyListens() throws IOException {
        try (ServerSocket server = new ServerSocket(0, 1, InetAddress.getLoopbackAddress());
                Socket ours = new Socket(server.getInetAddress(), server.getLocalPort())) {
            int port = ours.getLocalPort(); // nobody can listen there while it is the end of a connection
            seeThrown(ConnectException.class, () -> Recorder.toPort("left", port, Duration.ofMillis(1)));
            try {
                Recorder.toPort("left", port, Duration.ofMillis(1));
            } catch (ConnectException error) {
                see(error.getMessage(), "nobody listens at 127.0.0.1:" + port);
            }
            Thread.currentThread().interrupt();
            seeThrown(InterruptedIOException.class, () -> Recorder.toPort("left", port));
            see(Thread.interrupted(), true);
        }
    }

    private static void tokens() throws IOException {
        for (String token : new String[] {"a\0b", "\ud800", "\ufffd", "a\n", "x".repeat(1025)}) {
            seeThrown(NotRecordedException.class, () -> Recorder.toPort("left", 1, Duration.ZERO, token));
            seeThrown(NotRecordedException.class, () -> Recorder.toPlace("left", ":1", token));
        }
        try (ServerSocket server = new ServerSocket(0, 1, InetAddress.getLoopbackAddress());
                Recorder left = Recorder.toPlace("left", ":" + server.getLocalPort(), "a token");
                Socket accepted = server.accept()) {
            left.end();
            see(new String(accepted.getInputStream().readAllBytes(), StandardCharsets.UTF_8),
                    "a token\n{\"process\":\"left\"}\n{\"end\":true}\n");
        }
    }

    private static Recorder leftIn(Path folder) throws IOException {
        return Recorder.toFile("left", Files.createDirectory(folder).resolve("left.stream"));
    }

    private static String textOf(Path folder, String name) throws IOException {
        return Files.readString(folder.resolve(name + ".stream"));
    }

    private static void threadsWithAStrandEach(Path folder) throws Exception {
        Path mine = folder.resolve("threads");
        Recorder left = leftIn(mine);
        Recorder[] strands = new Recorder[8];
        Thread[] threads = new Thread[8];
        for (int number = 0; number < 8; number++) {
            Recorder strand = left.strand("s" + number);
            strands[number] = strand;
            threads[number] = new Thread(() -> {
                try (strand) {
                    for (int turn = 0; turn < 100; turn++) {
                        strand.event();
                    }
                }
            });
            threads[number].start();
        }
        StringBuilder joins = new StringBuilder();
        for (int number = 0; number < 8; number++) {
            threads[number].join();
            left.join(strands[number], set("x", number));
            joins.append("{\"recv\":\"s" + number + "-1\",\"set\":{\"x\":" + number + "}}\n");
            see(textOf(mine, "s" + number), "{\"process\":\"s" + number + "\"}\n{\"recv\":\"left-" + (number + 1)
                    + "\"}\n" + "{}\n".repeat(100) + "{\"send\":\"s" + number + "-1\"}\n" + END);
        }
        left.end();
        see(textOf(mine, "left").endsWith("{\"send\":\"left-8\"}\n" + joins + END), true);
    }

    private static void aStrandThatIsLeftByAnExceptionHasEnded(Path folder) throws IOException {
        Path mine = folder.resolve("exception");
        Recorder left = leftIn(mine);
        Recorder strand = left.strand("worker");
        try (strand) {
            throw new IllegalStateException("something went wrong");
        } catch (IllegalStateException error) {
            left.join(strand);
        }
        left.end();
        see(textOf(mine, "worker"), "{\"process\":\"worker\"}\n{\"recv\":\"left-1\"}\n{\"send\":\"worker-1\"}\n" + END);
    }

    private static void strandsAreClosedWithTheirProcess(Path folder) throws IOException {
        Path mine = folder.resolve("closed");
        Recorder left = leftIn(mine);
        Recorder strand = left.strand("worker");
        left.close();
        strand.close();
        strand.end();
        seeRefused(Reason.ENDED, strand::event);
        see(textOf(mine, "worker"), "{\"process\":\"worker\"}\n{\"recv\":\"left-1\"}\n");
        see(textOf(mine, "left"), JOIN + "{\"send\":\"left-1\"}\n");
    }

    private static void aProcessThatEndsWhileItsStrandsRecord(Path folder) throws Exception {
        Path mine = folder.resolve("races");
        Recorder left = leftIn(mine);
        Thread[] threads = new Thread[4];
        for (int number = 0; number < 4; number++) {
            Recorder strand = left.strand("s" + number);
            threads[number] = new Thread(() -> seeRefused(Reason.ENDED, () -> {
                while (true) {
                    synchronized (strand) {
                        strand.event();
                        left.event();
                    }
                    LockSupport.parkNanos(1_000_000); // or there are no more events before the end
                }
            }));
            threads[number].start();
        }
        Thread.sleep(5);
        left.end();
        for (int number = 0; number < 4; number++) {
            threads[number].join();
            String text = textOf(mine, "s" + number);
            see(text.indexOf(END), text.length() - END.length());
        }
    }

    private static void strandsThatAreRefused(Path folder) throws IOException {
        Recorder given = new Recorder("left", new ByteArrayOutputStream());
        seeRefused(Reason.NO_PLACE, () -> strandOf(given, "worker"));
        seeRefused(Reason.NAME_TWICE, () -> strandOf(given, "left"));
        seeRefused(Reason.PROCESS_NAME, () -> strandOf(given, null));
        seeRefused(Reason.NOT_ENDED, () -> given.join(null));
        seeRefused(Reason.NOT_ENDED, () -> given.join(given));
        Path mine = folder.resolve("refused");
        Recorder left = leftIn(mine);
        Files.createFile(mine.resolve("worker.stream"));
        seeThrown(FileAlreadyExistsException.class, () -> left.strand("worker"));
        Files.delete(mine.resolve("worker.stream"));
        left.strand("worker").end();
        left.end();
        see(textOf(mine, "left"), JOIN + "{\"send\":\"left-1\"}\n" + END);
    }

    /** The notes of a process, without their clocks, and each place as a line of this file, counted from the first. */
    private static List<String> notesIn(Path folder, String name, int first) throws IOException {
        List<String> notes = new ArrayList<>();
        for (String line : Files.readAllLines(folder.resolve(name + ".notes.jsonl"))) {
            String[] parts = line.split(", \"clock\": ");
            see(parts[1].matches("[0-9]{10}\\.[0-9]{6}\\}"), true);
            int place = parts[0].lastIndexOf(':');
            int number = Integer.parseInt(parts[0].substring(place + 1, parts[0].length() - 1)) - first;
            notes.add(parts[0].substring(0, place + 1) + number);
        }
        return notes;
    }

    private static String noteOf(String process, int event, String text, int line) {
        return String.format("{\"process\": \"%s\", \"event\": %d, \"text\": \"%s\", \"place\": \"RecorderTest.java:%d",
                process, event, text, line);
    }

    private static void notes(Path folder) throws IOException {
        Path path = Files.createDirectory(folder).resolve("left.stream");
        int first = new Throwable().getStackTrace()[0].getLineNumber();
        try (Recorder left = Recorder.toFile("left", path, Option.NOTES)) {
            left.event(note("first"), set("x", 1), note("said \ud800"), set("y", 2));
            Recorder worker = left.strand("worker");
            try (worker) {
                Stream.of(1).forEach(value -> worker.event(set("x", value)));
            }
            left.join(worker, note("joined"));
            left.end();
        }
        see(Files.readString(path),
                JOIN + "{\"set\":{\"x\":1,\"y\":2}}\n{\"send\":\"left-1\"}\n{\"recv\":\"worker-1\"}\n" + END);
        see(notesIn(folder, "left", first), List.of(noteOf("left", 1, "said \ufffd", 2), noteOf("left", 2, "", 3),
                noteOf("left", 3, "joined", 7)));
        List<String> worker = notesIn(folder, "worker", first);
        see(worker.subList(0, 2), List.of(noteOf("worker", 1, "", 3), noteOf("worker", 2, "", 5)));
        see(worker.size(), 3); // of which the last one is where the block of try begins or ends
    }

    private static void recordByTheEnvironment() throws IOException {
        try (Recorder recorder = Recorder.fromEnvironment("left", Option.REPLACE)) {
            recorder.event();
            recorder.end();
        } catch (NotRecordedException error) {
            System.out.print(error.reason());
        }
    }

    /** What a program says that records by this environment. */
    private static String saidBy(String place, String notes) throws IOException {
        ProcessBuilder builder = new ProcessBuilder(Path.of(System.getProperty("java.home"), "bin", "java").toString(),
                "-cp", System.getProperty("java.class.path"), "RecorderTest", "environment");
        builder.environment().put("MONITOR_TO", place);
        builder.environment().put("MONITOR_NOTES", notes);
        Process program = builder.redirectError(ProcessBuilder.Redirect.DISCARD).start();
        return new String(program.getInputStream().readAllBytes(), StandardCharsets.UTF_8);
    }

    private static List<String> namesIn(Path folder) throws IOException {
        try (Stream<Path> paths = Files.list(folder)) {
            return paths.map(path -> path.getFileName().toString()).sorted().toList();
        }
    }

    private static void whereThereIsNoPlaceForNotes(Path folder) throws IOException {
        Files.createDirectory(folder);
        for (String name : new String[] {"left", "left.stream.txt"}) {
            seeThrown(NotRecordedException.class, () -> Recorder.toFile("left", folder.resolve(name), Option.NOTES));
        }
        seeThrown(NotRecordedException.class, () -> Recorder.toPlace("left", ":7411", Option.NOTES));
        see(namesIn(folder), List.of());
        see(saidBy(folder.toString(), "1"), "");
        see(namesIn(folder), List.of("left.notes.jsonl", "left.stream"));
        see(saidBy(folder.toString(), "0"), "");
        see(namesIn(folder), List.of("left.stream"));
        see(saidBy(folder.toString(), "yes"), "NOTES");
        see(saidBy(":7411", "1"), "NOTES");
    }

    private static void filesThatAreReplaced(Path folder) throws IOException {
        Path path = Files.createDirectory(folder).resolve("left.stream");
        Files.createFile(folder.resolve("left.notes.jsonl"));
        seeThrown(FileAlreadyExistsException.class, () -> Recorder.toFile("left", path, Option.NOTES));
        see(namesIn(folder), List.of("left.notes.jsonl"));
        for (int turn = 0; turn < 2; turn++) {
            Recorder left = Recorder.toFile("left", path, Option.NOTES, Option.REPLACE);
            left.strand("worker").end();
            left.end();
        }
        see(Files.readString(path), JOIN + "{\"send\":\"left-1\"}\n" + END);
        Recorder.toFile("left", path, Option.REPLACE, Option.REPLACE).end();
        see(namesIn(folder), List.of("left.stream", "worker.notes.jsonl", "worker.stream"));
        Recorder other = Recorder.toFile("other", path, Option.REPLACE);
        seeThrown(FileAlreadyExistsException.class, () -> other.strand("left"));
        other.end();
    }

    private static void afterANoteThatCouldNotBeWrittenNothingIs(Path folder) throws IOException {
        Path path = Files.createDirectory(folder).resolve("left.stream");
        Files.createSymbolicLink(folder.resolve("left.notes.jsonl"), Path.of("/dev/full"));
        try (Recorder left = Recorder.toFile("left", path, Option.NOTES, Option.REPLACE)) {
            seeThrown(UncheckedIOException.class, () -> left.send());
            seeRefused(Reason.BROKEN, left::event);
        }
        see(Files.readString(path), JOIN);
    }

    private static void aLockIsReentrant(Path folder) throws IOException {
        Recorder left = leftIn(folder);
        Recorder a = left.strand("a");
        RecordedLock lock = new RecordedLock(true);
        lock.lock(); // nobody records this
        lock.unlock();
        a.within(() -> {
            lock.lock();
            see(lock.tryLock(), true);
            lock.unlock();
            see(lock.isHeldByCurrentThread(), true);
            left.within(() -> see(Recorder.current(), left));
            see(Recorder.current(), a);
            lock.unlock();
            see(lock.isLocked(), false);
        });
        see(Recorder.current() == null, true);
        seeThrown(IllegalMonitorStateException.class, () -> a.call(() -> {
            lock.unlock();
            return "released";
        }));
        left.end();
        see(textOf(folder, "a"), "{\"process\":\"a\"}\n{\"recv\":\"left-1\"}\n{\"send\":\"a-1\"}\n" + END);
    }

    private static void aLockThatIsRefusedIsNotHeld(Path folder) throws Exception {
        Recorder left = leftIn(folder);
        Recorder a = left.strand("a");
        Recorder b = left.strand("b");
        RecordedLock lock = new RecordedLock();
        a.within(lock::lock);
        a.within(lock::unlock);
        b.end();
        seeRefused(Reason.ENDED, () -> b.within(lock::lock));
        seeRefused(Reason.ENDED, () -> b.within(lock::tryLock));
        see(lock.isLocked(), false);
        see(lock.tryLock(1, TimeUnit.SECONDS), true);
        seeRefused(Reason.ENDED, () -> b.within(lock::unlock));
        see(lock.isLocked(), false);
        left.within(lock::lock); // what nobody could receive is there still
        left.end();
        see(textOf(folder, "left").endsWith("{\"recv\":\"a-1\"}\n" + END), true);
    }

    private static void aLockIsReleasedWhileAConditionIsWaitedFor(Path folder) throws Exception {
        Recorder left = leftIn(folder);
        Recorder a = left.strand("a");
        Recorder b = left.strand("b");
        RecordedLock lock = new RecordedLock();
        Condition changed = lock.newCondition();
        boolean[] isThere = {false};
        Thread waiting = new Thread(() -> b.within(() -> {
            lock.lock();
            while (!isThere[0]) {
                changed.awaitUninterruptibly();
            }
            b.event(set("x", 1));
            lock.unlock();
        }));
        waiting.start();
        while (b.events() < 2) { // it waits once it has sent
            Thread.sleep(1);
        }
        a.within(() -> {
            lock.lock();
            isThere[0] = true;
            changed.signalAll();
            lock.unlock();
        });
        waiting.join();
        seeThrown(IllegalMonitorStateException.class, () -> a.call(() -> changed.awaitNanos(1)));
        left.end();
        see(textOf(folder, "a").endsWith("\n{\"recv\":\"b-1\"}\n{\"send\":\"a-1\"}\n" + END), true);
        see(textOf(folder, "b").endsWith("\n{\"send\":\"b-1\"}\n{\"recv\":\"a-1\"}\n{\"set\":{\"x\":1}}\n{\"send\":\"b-2\"}\n"
                + END), true);
    }

    private static void elementsOfAQueue(Path folder) throws Exception {
        Recorder left = leftIn(folder);
        Recorder a = left.strand("a");
        Recorder b = left.strand("b");
        RecordedQueue<String> queue = new RecordedQueue<>(3);
        a.call(() -> {
            queue.put("1");
            see(queue.offer("2", 1, TimeUnit.SECONDS), true);
            see(queue.add("3"), true);
            see(queue.offer("lost"), false);
            see(queue.remainingCapacity(), 0);
            see(queue.toString(), "[1, 2, 3]");
            see(queue.remove("2"), true);
            return null;
        });
        seeThrown(NullPointerException.class, () -> a.call(() -> queue.offer(null)));
        b.call(() -> {
            see(queue.peek(), "1");
            see(queue.take(), "1");
            List<String> rest = new ArrayList<>();
            see(queue.drainTo(rest), 1);
            see(rest, List.of("3"));
            see(queue.poll() == null, true);
            see(queue.poll(1, TimeUnit.MILLISECONDS) == null, true);
            queue.put("mine");
            return null;
        });
        see(b.call(queue::take), "mine"); // which is no receipt of its own
        queue.put("nobody's");
        see(a.call(queue::take), "nobody's");
        left.end();
        String sends = "{\"send\":\"a-1\"}\n{\"send\":\"a-2\"}\n{\"send\":\"a-3\"}\n{\"send\":\"a-4\"}\n";
        see(textOf(folder, "a").endsWith("\"left-1\"}\n" + sends + END), true);
        see(textOf(folder, "b").endsWith(
                "\"left-2\"}\n{\"recv\":\"a-1\"}\n{\"recv\":\"a-3\"}\n{\"send\":\"b-1\"}\n" + END), true);
    }

    private static Recorder strandOf(Recorder recorder, String name) {
        try {
            return recorder.strand(name);
        } catch (IOException error) {
            throw new UncheckedIOException(error);
        }
    }
}
