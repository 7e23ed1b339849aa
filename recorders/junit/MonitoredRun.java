import java.io.File;
import java.io.IOException;
import java.nio.file.FileAlreadyExistsException;
import java.nio.file.Files;
import java.nio.file.Path;
import java.util.ArrayList;
import java.util.Arrays;
import java.util.LinkedHashMap;
import java.util.List;
import java.util.Map;
import java.util.concurrent.TimeUnit;
import java.util.regex.Matcher;
import java.util.regex.Pattern;
import java.util.stream.Collectors;
import java.util.stream.Stream;

/**
 * Judges what a test has recorded, at the test's end: for JUnit and whatever else fails by an AssertionError. It needs
 * Java 17 and nothing else; copy it beside your tests.
 *
 * <pre>
 *     &#64;Test
 *     void theyTakeTurns() throws Exception {
 *         MonitoredRun run = new MonitoredRun("take turns", Path.of("session.json"));
 *         takeTurns(run.stream("left"), run.stream("right"));   // records to these files
 *         run.judge("both");
 *     }
 * </pre>
 *
 * <p>The test fails if a predicate that must never hold may have held ({@code possibly yes}), if that isn't settled, or
 * if the recordings are refused or empty. The failure has the report's line and the path of a picture, and the run's
 * folder stays, with all that was judged; that of a run that passes is deleted. docs/IN-TESTS.md goes through it.
 *
 * <p>The program is the one that the environment's MONITOR names, or else {@code monitor} on the path. Runs are kept in
 * the folder that MONITOR_RUNS names, or else in {@code monitor-runs} where the tests are run.
 */
public final class MonitoredRun {
    private static final long SECONDS = 60;
    private static final Pattern REFUSED_STREAM = Pattern.compile("refused stream (\\d+) .*");

    private final Path folder;
    private final String program;

    /** A run of the test with this name, by the session document in a file. */
    public MonitoredRun(String name, Path document) throws IOException {
        this(name, Files.readString(document));
    }

    /** A run of the test with this name, by a session document. */
    public MonitoredRun(String name, String document) throws IOException {
        this(name, document, System.getenv());
    }

    MonitoredRun(String name, String document, Map<String, String> environment) throws IOException {
        program = foundProgram(environment);
        folder = newFolder(Path.of(environment.getOrDefault("MONITOR_RUNS", "monitor-runs")), name);
        Files.writeString(folder.resolve("session.json"), document);
    }

    /** The folder that has the run's files. */
    public Path folder() {
        return folder;
    }

    /** Where the stream of a process belongs: the process, or a recorder, has to make the file. */
    public Path stream(String process) {
        return folder.resolve(process + ".stream");
    }

    /**
     * Judges what stands in the folder, once all processes have ended their streams.
     *
     * @param never the predicates that must never hold; all of them, if none is given
     * @throws AssertionError if the test has to fail
     */
    public void judge(String... never) throws IOException, InterruptedException {
        List<String> streams = streams();
        if (streams.isEmpty()) {
            throw failure("nothing was recorded: there is no stream");
        }
        int status = run("report", words("judge", "session.json", streams));
        if (status != 0 && status != 1) {
            throw failure("judging ended with status " + status + ": " + errors());
        }
        // What is explained of the report, if MONITOR_EXPLAIN asks for that.
        List<String> explained = errors().lines().collect(Collectors.toList());
        List<String> lines = text("report").lines().collect(Collectors.toList());
        String head = lines.get(0);
        if (status == 1) {
            explained.add(0, head + namedStream(head, streams));
            throw failure("the recordings are refused:", explained.toArray(new String[0]));
        }
        if (head.contains(" 0 events ")) {
            throw failure("nothing was recorded:", head);
        }
        lookAt(lines.subList(1, lines.size()), List.of(never), streams, explained);
        delete();
    }

    private void lookAt(List<String> answers, List<String> never, List<String> streams, List<String> explained)
            throws IOException, InterruptedException {
        Map<String, String> possibly = new LinkedHashMap<>();
        for (String line : answers) {
            String[] words = line.split(" ");
            if (words[1].equals("possibly")) {
                possibly.put(words[0], line);
            }
        }
        List<String> held = new ArrayList<>();
        List<String> unknown = new ArrayList<>();
        for (String name : never.isEmpty() ? possibly.keySet() : never) {
            String line = possibly.get(name);
            if (line == null) {
                throw failure("the document has no predicate " + name + ", which must never hold");
            }
            if (line.split(" ")[2].equals("yes")) {
                held.add(line);
                held.add(picture(name, streams));
            } else if (line.split(" ")[2].equals("unknown")) {
                unknown.add(line);
            }
        }
        if (!held.isEmpty()) {
            held.addAll(explained);
            throw failure("what must never hold may have held:", held.toArray(new String[0]));
        }
        if (!unknown.isEmpty()) {
            unknown.addAll(explained);
            throw failure("not settled, since the document's width is too small:", unknown.toArray(new String[0]));
        }
    }

    private String picture(String name, List<String> streams) throws IOException, InterruptedException {
        List<String> words = words("draw", "session.json", List.of("report"), streams, List.of("--predicate", name));
        if (run(name + ".svg", words) != 0) {
            Files.delete(folder.resolve(name + ".svg"));
            return "no picture: " + errors();
        }
        return "picture: " + folder.resolve(name + ".svg");
    }

    /** Runs the program in the folder. What it writes goes to this file, its errors to the file `errors`. */
    private int run(String out, List<String> words) throws IOException, InterruptedException {
        Process process = new ProcessBuilder(words).directory(folder.toFile())
                .redirectInput(ProcessBuilder.Redirect.from(new File("/dev/null")))
                .redirectOutput(folder.resolve(out).toFile()).redirectError(folder.resolve("errors").toFile()).start();
        try {
            if (!process.waitFor(SECONDS, TimeUnit.SECONDS)) {
                throw failure("monitor " + words.get(1) + " took over " + SECONDS + " seconds");
            }
            return process.exitValue();
        } finally {
            process.destroyForcibly();
        }
    }

    /** What the program wrote to its errors. */
    private String errors() throws IOException {
        return text("errors").strip();
    }

    @SafeVarargs
    private List<String> words(String command, String document, List<String>... others) {
        List<String> words = new ArrayList<>(List.of(program, command, document));
        for (List<String> more : others) {
            words.addAll(more);
        }
        return words;
    }

    private List<String> streams() throws IOException {
        try (Stream<Path> files = Files.list(folder)) {
            return files.map(file -> file.getFileName().toString()).filter(name -> name.endsWith(".stream")).sorted()
                    .collect(Collectors.toList());
        }
    }

    private String text(String file) throws IOException {
        return Files.readString(folder.resolve(file));
    }

    private void delete() throws IOException {
        List<Path> files;
        try (Stream<Path> all = Files.list(folder)) {
            files = all.collect(Collectors.toList());
        }
        for (Path file : files) {
            Files.delete(file);
        }
        Files.delete(folder);
    }

    private AssertionError failure(String head, String... lines) throws IOException {
        Files.deleteIfExists(folder.resolve("errors"));
        List<String> all = new ArrayList<>(List.of(head));
        all.addAll(Arrays.asList(lines));
        all.add("all of the run: " + folder);
        return new AssertionError(String.join("\n  ", all));
    }

    /** The name of the stream that is refused, which the report counts. */
    private static String namedStream(String refusal, List<String> streams) {
        Matcher match = REFUSED_STREAM.matcher(refusal);
        return match.matches() ? " (" + streams.get(Integer.parseInt(match.group(1)) - 1) + ")" : "";
    }

    /** The path of the program. A test that can't be judged is an error, and isn't passed over. */
    private static String foundProgram(Map<String, String> environment) throws IOException {
        String given = environment.getOrDefault("MONITOR", "");
        String word = given.isEmpty() ? "monitor" : given;
        String folders = word.contains("/") ? "." : environment.getOrDefault("PATH", "");
        for (String each : folders.split(File.pathSeparator)) {
            Path path = Path.of(each).resolve(word).toAbsolutePath();
            if (Files.isRegularFile(path) && Files.isExecutable(path)) {
                return path.toString();
            }
        }
        throw new IOException((given.isEmpty() ? "there is no program monitor on the path"
                : "MONITOR is " + given + ", which is no program") + ": set MONITOR to the path of monitor");
    }

    /** A folder for a run that no other run has, also of tests that go on at the same time. */
    private static Path newFolder(Path base, String name) throws IOException {
        String plain = name.replaceAll("[^A-Za-z0-9_.-]+", "_").replaceAll("^[_.]+|[_.]+$", "");
        Files.createDirectories(base);
        for (int number = 1; ; number++) {
            try {
                return Files.createDirectory(
                        base.toAbsolutePath().normalize().resolve((plain.isEmpty() ? "run" : plain) + "-" + number));
            } catch (FileAlreadyExistsException taken) {
                // the next number
            }
        }
    }
}
