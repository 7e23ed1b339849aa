import static monitor.Recorder.note;
import static monitor.Recorder.set;

import java.io.BufferedReader;
import java.io.IOException;
import java.io.InputStreamReader;
import java.io.UncheckedIOException;
import java.net.URLDecoder;
import java.nio.charset.StandardCharsets;
import java.nio.file.Path;
import java.time.Duration;
import java.util.ArrayList;
import java.util.Arrays;
import java.util.HashMap;
import java.util.List;
import java.util.Locale;
import java.util.Map;
import java.util.concurrent.ExecutionException;
import java.util.concurrent.ExecutorService;
import java.util.concurrent.Executors;
import java.util.concurrent.Future;
import java.util.function.IntConsumer;
import java.util.function.ObjIntConsumer;
import java.util.stream.IntStream;
import java.util.stream.Stream;
import monitor.RecordedLock;
import monitor.RecordedQueue;
import monitor.Recorder;
import monitor.Recorder.Detail;
import monitor.Recorder.NotRecordedException;
import monitor.Recorder.Option;

/** Makes the calls that it is told on its standard input, with the recorder for Java: see recorders/cases/README.md. */
final class Player {
    private final Map<String, Recorder> recorders = new HashMap<>();
    private Recorder recorder;
    /** The text of the last refusal. */
    private String refusal = "";
    /** The note of the call, if it has one. */
    private List<Detail> said = List.of();
    /** What threads share, by its names. */
    private final Map<String, RecordedLock> locks = new HashMap<>();
    private final Map<String, RecordedQueue<String>> queues = new HashMap<>();
    private int total;

    public static void main(String[] arguments) throws IOException {
        Player player = new Player();
        BufferedReader lines = new BufferedReader(new InputStreamReader(System.in, StandardCharsets.UTF_8));
        for (String line = lines.readLine(); line != null; line = lines.readLine()) {
            String[] words = line.split(" ");
            say(player.answer(words[0], Arrays.asList(words).subList(1, words.length)));
        }
    }

    private static synchronized void say(String answer) {
        System.out.print(answer + "\n");
        System.out.flush();
    }

    private String answer(String call, List<String> words) {
        try {
            String given = make(call, words);
            return given == null ? "recorded" : "recorded " + given;
        } catch (NumberFormatException | UnsupportedOperationException error) {
            return "cannot"; // Java has no such value of 64 bits, or no such call
        } catch (NotRecordedException error) {
            refusal = error.getMessage();
            return "refused " + error.reason().name().toLowerCase(Locale.ROOT).replace('_', '-');
        } catch (IOException | UncheckedIOException error) {
            return "failed";
        }
    }

    /** Makes a call, and gives the id that it gives, or null. */
    private String make(String call, List<String> words) throws IOException {
        switch (call) {
            case "file" -> openFile(words);
            case "noted" -> openFile(words, Option.NOTES);
            case "replaced" -> openFile(words, Option.REPLACE);
            case "again" -> openFile(words, Option.AGAIN);
            case "noted-again" -> openFile(words, Option.AGAIN, Option.NOTES);
            case "place" -> begin(words.get(0), Recorder.toPlace(textOf(words.get(0)), textOf(words.get(1))));
            case "again-at" -> begin(words.get(0),
                    Recorder.toPlace(textOf(words.get(0)), textOf(words.get(1)), Option.AGAIN));
            case "long" -> openFile(words, Option.LONG);
            case "long-at" -> begin(words.get(0),
                    Recorder.toPlace(textOf(words.get(0)), textOf(words.get(1)), Option.LONG));
            case "said" -> {
                return refusal;
            }
            case "note" -> {
                return makeNoted(words.get(0), words.get(1), words.subList(2, words.size()));
            }
            case "port" -> begin(words.get(0), Recorder.toPort(textOf(words.get(0)), Integer.parseInt(words.get(1)),
                    Duration.ofMillis((long) (Double.parseDouble(words.get(2)) * 1000))));
            case "token-port" -> begin(words.get(0), Recorder.toPort(textOf(words.get(0)),
                    Integer.parseInt(words.get(1)), Duration.ofMillis((long) (Double.parseDouble(words.get(2)) * 1000)),
                    textOf(words.get(3))));
            case "strand" -> recorders.put(words.get(0), recorder.strand(textOf(words.get(0))));
            case "join" -> recorder.join(recorders.get(words.get(0)), settingsOf(words.subList(1, words.size())));
            case "in" -> {
                return makeIn(words.get(0), words.get(1), words.subList(2, words.size()));
            }
            case "strands" -> takeStrands(words.get(0), Integer.parseInt(words.get(1)));
            case "event" -> recorder.event(settingsOf(words));
            case "send" -> {
                return recorder.send(settingsOf(words));
            }
            case "send-as" -> recorder.sendAs(textOf(words.get(0)), settingsOf(words.subList(1, words.size())));
            case "receive" -> recorder.receive(textOf(words.get(0)), settingsOf(words.subList(1, words.size())));
            case "events" -> {
                return String.valueOf(recorder.events());
            }
            case "end" -> recorder.end();
            case "close" -> close();
            case "threads" -> run(words.get(0), thread -> takeTurns(thread, Integer.parseInt(words.get(1))));
            case "flood" -> run(words.get(0), thread -> sendAll());
            case "lock" -> recorder.within(() -> locks.computeIfAbsent(words.get(0), name -> new RecordedLock()).lock());
            case "unlock" -> recorder.within(() -> locks.get(words.get(0)).unlock());
            case "put" -> recorder.within(() -> queueOf(words.get(0)).add("a value"));
            case "take" -> recorder.within(() -> queueOf(words.get(0)).remove());
            case "locked", "unlocked" -> contend(words.get(0), Integer.parseInt(words.get(1)), call.equals("locked"));
            case "send-text", "signals" -> throw new UnsupportedOperationException(call);
            default -> throw new IllegalStateException("no call " + call);
        }
        return null;
    }

    private void openFile(List<String> words, Option... options) throws IOException {
        begin(words.get(0), Recorder.toFile(textOf(words.get(0)), Path.of(textOf(words.get(1))), options));
    }

    /** Makes the call with a text for its note. */
    private String makeNoted(String text, String call, List<String> words) throws IOException {
        said = List.of(note(textOf(text)));
        try {
            return make(call, words);
        } finally {
            said = List.of();
        }
    }

    private void begin(String process, Recorder made) {
        recorder = made;
        recorders.clear();
        locks.clear();
        queues.clear();
        recorders.put(process, made);
    }

    /** Makes the call by the recorder of a strand. */
    private String makeIn(String name, String call, List<String> words) throws IOException {
        Recorder process = recorder;
        recorder = recorders.get(name);
        try {
            return make(call, words);
        } finally {
            recorder = process;
        }
    }

    private RecordedQueue<String> queueOf(String name) {
        return queues.computeIfAbsent(name, any -> new RecordedQueue<>());
    }

    private void takeStrands(String count, int turns) throws IOException {
        withStrands(count, turns, (strand, turn) -> strand.event(set("x", turn)));
    }

    /** Has strands go inside by turns, by a lock if they are to have one. */
    private void contend(String count, int turns, boolean isLocked) throws IOException {
        RecordedLock lock = new RecordedLock();
        withStrands(count, turns, (strand, turn) -> {
            if (isLocked) {
                lock.lock();
            }
            try {
                strand.event(set("x", 1));
                strand.event(set("x", 0));
            } finally {
                if (isLocked) {
                    lock.unlock();
                }
            }
        });
    }

    /** Runs so many threads, each within a strand of its own that takes turns. */
    private void withStrands(String count, int turns, ObjIntConsumer<Recorder> turn) throws IOException {
        List<Recorder> strands = new ArrayList<>();
        for (int number = 0; number < Integer.parseInt(count); number++) {
            strands.add(recorder.strand("strand" + number));
        }
        run(count, thread -> {
            try (Recorder strand = strands.get(thread)) {
                strand.within(() -> IntStream.range(0, turns).forEach(number -> turn.accept(strand, number)));
            }
        });
        strands.forEach(strand -> recorder.join(strand));
    }

    private void close() {
        if (recorder != null) {
            recorder.close();
        }
    }

    /** The text for which a word stands: % and two digits are a byte, and % alone is no text at all. */
    private static String textOf(String word) {
        return word.equals("%") ? "" : URLDecoder.decode(word.replace("+", "%2B"), StandardCharsets.UTF_8);
    }

    private Detail[] settingsOf(List<String> words) {
        return Stream.concat(said.stream(), words.stream().map(word -> {
            int place = word.lastIndexOf('=');
            String name = textOf(word.substring(0, place));
            String value = word.substring(place + 1);
            boolean isTruth = value.equals("true") || value.equals("false");
            return isTruth ? set(name, Boolean.parseBoolean(value)) : set(name, Long.parseLong(value));
        })).toArray(Detail[]::new);
    }

    private void takeTurns(int thread, int turns) {
        for (int turn = 0; turn < turns; turn++) {
            String id = recorder.send(set("x" + thread, turn));
            recorder.event(set("y" + thread, Long.parseLong(id.substring(id.lastIndexOf('-') + 1))));
            recorder.receive("m" + thread + "-" + turn);
            synchronized (recorder) {
                total++;
                recorder.event(set("total", total));
            }
        }
    }

    private void sendAll() {
        try {
            while (true) {
                say("sent " + recorder.send());
            }
        } catch (NotRecordedException error) {
            // there are no more events
        }
    }

    /** Runs so many threads. */
    private void run(String count, IntConsumer work) {
        total = 0;
        ExecutorService threads = Executors.newCachedThreadPool();
        List<Future<?>> futures = new ArrayList<>();
        for (int number = 0; number < Integer.parseInt(count); number++) {
            int thread = number;
            futures.add(threads.submit(() -> work.accept(thread)));
        }
        try {
            for (Future<?> future : futures) {
                future.get();
            }
        } catch (ExecutionException | InterruptedException error) {
            throw new IllegalStateException(error);
        } finally {
            threads.shutdown();
        }
    }
}
