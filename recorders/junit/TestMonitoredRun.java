import java.io.IOException;
import java.nio.file.Files;
import java.nio.file.Path;
import java.util.ArrayList;
import java.util.Arrays;
import java.util.HashMap;
import java.util.List;
import java.util.Map;
import java.util.TreeSet;
import java.util.stream.Stream;

/** Tests of MonitoredRun without JUnit: `java TestMonitoredRun FOLDER PROGRAM`. FOLDER is empty; see test.sh. */
public final class TestMonitoredRun {
    /** The document without its last brace. */
    private static final String DOCUMENT = "{\"processes\":[{\"name\":\"left\",\"vars\":{\"inside\":0}},"
            + "{\"name\":\"right\",\"vars\":{\"inside\":0}}],\"predicates\":[{\"name\":\"both\",\"text\":"
            + "\"left.inside == 1 and right.inside == 1\"},{\"name\":\"left_in\",\"text\":\"left.inside == 1\"}]";
    private static final String[] EARLY = {
        "{\"set\":{\"inside\":1}}\n{\"send\":\"m\"}\n{\"set\":{\"inside\":0}}\n{\"end\":true}\n",
        "{\"recv\":\"m\",\"set\":{\"inside\":1}}\n{\"end\":true}\n"};
    private static final String[] LATE = {
        "{\"set\":{\"inside\":1}}\n{\"set\":{\"inside\":0}}\n{\"send\":\"m\"}\n{\"end\":true}\n", EARLY[1]};

    private final Path runs;
    private final Map<String, String> environment = new HashMap<>();
    private int passed;

    private TestMonitoredRun(Path folder, String program) {
        runs = folder.toAbsolutePath().resolve("runs");
        environment.put("MONITOR", program);
        environment.put("MONITOR_RUNS", runs.toString());
    }

    private interface Test {
        void run() throws Exception;
    }

    private void same(Object wanted, Object found) {
        if (!wanted.equals(found)) {
            throw new IllegalStateException("wanted\n" + wanted + "\nand found\n" + found);
        }
        passed++;
    }

    private static String thrown(Class<? extends Throwable> kind, Test test) throws Exception {
        try {
            test.run();
        } catch (Exception | AssertionError thrown) {
            if (kind.isInstance(thrown)) {
                return thrown.getMessage();
            }
            throw thrown;
        }
        throw new IllegalStateException("nothing was thrown");
    }

    private MonitoredRun run(String document) throws IOException {
        return new MonitoredRun("turns", document, environment);
    }

    /** A run with the streams of left and right, as far as there are so many, without their first lines. */
    private MonitoredRun recorded(String document, String... streams) throws IOException {
        MonitoredRun run = run(document);
        String[] names = {"left", "right"};
        for (int each = 0; each < streams.length; each++) {
            String head = "{\"process\":\"" + names[each] + "\"}\n";
            Files.writeString(run.stream(names[each]), head + streams[each]);
        }
        return run;
    }

    /** What the failure says, in which RUN stands for the folder, and then deletes the folder. */
    private String failure(MonitoredRun run, String... never) throws Exception {
        String text = thrown(AssertionError.class, () -> run.judge(never));
        try (Stream<Path> files = Files.list(run.folder())) {
            for (Path file : (Iterable<Path>) files::iterator) {
                Files.delete(file);
            }
        }
        Files.delete(run.folder());
        return text.replace(run.folder().toString(), "RUN");
    }

    private TreeSet<String> names(Path folder) throws IOException {
        TreeSet<String> names = new TreeSet<>();
        try (Stream<Path> files = Files.list(folder)) {
            files.forEach(file -> names.add(file.getFileName().toString()));
        }
        return names;
    }

    private void runsThatAreJudged() throws Exception {
        String document = DOCUMENT + "}";
        recorded(document, LATE).judge("both");
        same(new TreeSet<>(), names(runs));
        MonitoredRun run = recorded(document, EARLY);
        same("what must never hold may have held:\n  both possibly yes 2,1\n  picture: " + runs
                + "/turns-1/both.svg\n  all of the run: " + runs + "/turns-1",
                thrown(AssertionError.class, () -> run.judge("both")));
        same(new TreeSet<>(Arrays.asList("both.svg", "left.stream", "report", "right.stream", "session.json")),
                names(run.folder()));
        same(true, Files.readString(run.folder().resolve("both.svg")).contains(">both possibly yes, definitely "));
        MonitoredRun left = recorded(document, LATE);
        thrown(AssertionError.class, () -> left.judge());
        same(true, Files.readString(left.folder().resolve("left_in.svg")).contains(">left_in possibly yes, "));
        same("both possibly yes 2,1", Files.readAllLines(run.folder().resolve("report")).get(1));
        same("what must never hold may have held:\n  both possibly yes 2,1\n  picture: RUN/both.svg\n"
                + "  left_in possibly yes 1,0\n  picture: RUN/left_in.svg\n  all of the run: RUN",
                failure(recorded(document, EARLY)));
        recorded(document, LATE).judge("both");
        same(new TreeSet<>(List.of("turns-1", "turns-2")), names(runs));
        same("not settled, since the document's width is too small:\n  both possibly unknown 3\n  all of the run: RUN",
                failure(recorded(DOCUMENT + ",\"width\":1}", EARLY), "both"));
        same("the document has no predicate bot, which must never hold\n  all of the run: RUN",
                failure(recorded(document, EARLY), "bot"));
    }

    private void runsThatAreNot() throws Exception {
        String document = DOCUMENT + "}";
        same("the recordings are refused:\n  refused stream 2 line 2 unended (right.stream)\n  all of the run: RUN",
                failure(recorded(document, EARLY[0], "")));
        same("the recordings are refused:\n  refused absent right\n  all of the run: RUN",
                failure(recorded(document, EARLY[0])));
        same("the recordings are refused:\n  refused spec json\n  all of the run: RUN",
                failure(recorded(DOCUMENT, EARLY)));
        same("nothing was recorded: there is no stream\n  all of the run: RUN", failure(run(document)));
        same("nothing was recorded:\n  session 2 processes 0 events 0 messages\n  all of the run: RUN",
                failure(recorded(document, "{\"end\":true}\n", "{\"end\":true}\n")));
    }

    /** A program of the shell in place of the monitor. */
    private void program(Path folder, String text) throws IOException {
        Path path = folder.resolve("monitor");
        Files.writeString(path, "#!/bin/sh\n" + text + "\n");
        path.toFile().setExecutable(true);
        environment.put("MONITOR", path.toString());
    }

    private void otherPrograms(Path folder) throws Exception {
        program(folder, "echo monitor: memory >&2; exit 4");
        same("judging ended with status 4: monitor: memory\n  all of the run: RUN", failure(recorded(DOCUMENT, EARLY)));
        program(folder, "[ $1 = draw ] && { echo monitor: memory >&2; exit 4; }\n"
                + "echo session 1 processes 1 events 0 messages; echo both possibly yes 1");
        same("what must never hold may have held:\n  both possibly yes 1\n  no picture: monitor: memory\n"
                + "  all of the run: RUN", failure(recorded(DOCUMENT, EARLY)));
        program(folder, "[ $1 = draw ] && exit 0\n"
                + "echo session 1 processes 1 events 0 messages; echo both possibly yes 1; echo explained >&2");
        same("what must never hold may have held:\n  both possibly yes 1\n  picture: RUN/both.svg\n  explained\n"
                + "  all of the run: RUN", failure(recorded(DOCUMENT, EARLY)));
        environment.put("MONITOR", "");
        environment.put("PATH", "/nowhere:" + folder.toAbsolutePath());
        same(true, failure(recorded(DOCUMENT, EARLY)).contains("both possibly yes 1\n"));
        environment.put("PATH", "/nowhere");
        same("there is no program monitor on the path: set MONITOR to the path of monitor",
                thrown(IOException.class, () -> run(DOCUMENT)));
        environment.put("MONITOR", "/nowhere/monitor");
        same("MONITOR is /nowhere/monitor, which is no program: set MONITOR to the path of monitor",
                thrown(IOException.class, () -> run(DOCUMENT)));
    }

    private void names() throws Exception {
        List<String> found = new ArrayList<>();
        for (String name : new String[] {"test turns(3)", "../\u00e9", "", "a/b"}) {
            found.add(runs.relativize(new MonitoredRun(name, DOCUMENT, environment).folder()).toString());
        }
        same(List.of("test_turns_3-1", "run-1", "run-2", "a_b-1"), found);
    }

    public static void main(String[] words) throws Exception {
        Path folder = Path.of(words[0]);
        TestMonitoredRun test = new TestMonitoredRun(folder, words[1]);
        test.runsThatAreJudged();
        test.runsThatAreNot();
        test.names();
        test.otherPrograms(folder);
        System.out.println("junit: " + test.passed + " passed");
    }
}
