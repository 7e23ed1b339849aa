import static monitor.Recorder.set;

import com.sun.net.httpserver.Filter;
import com.sun.net.httpserver.HttpExchange;
import com.sun.net.httpserver.HttpHandler;
import com.sun.net.httpserver.HttpServer;
import java.io.ByteArrayOutputStream;
import java.io.IOException;
import java.io.InputStream;
import java.io.OutputStream;
import java.io.PrintStream;
import java.net.InetAddress;
import java.net.InetSocketAddress;
import java.net.URI;
import java.net.http.HttpClient;
import java.net.http.HttpClient.Redirect;
import java.net.http.HttpRequest;
import java.net.http.HttpRequest.BodyPublishers;
import java.net.http.HttpResponse;
import java.net.http.HttpResponse.BodyHandlers;
import java.nio.charset.StandardCharsets;
import java.nio.file.Files;
import java.nio.file.Path;
import java.util.ArrayList;
import java.util.List;
import java.util.concurrent.CompletableFuture;
import java.util.concurrent.CountDownLatch;
import java.util.concurrent.CyclicBarrier;
import java.util.concurrent.ExecutorService;
import java.util.concurrent.Executors;
import java.util.stream.Collectors;
import java.util.stream.Stream;
import monitor.Recorder;
import monitor.http.RecordingClient;
import monitor.http.RecordingExchangeFilter;

/** Tests of monitor.http with the JDK's own server, in a folder for each: see test.sh. */
final class HttpTest {
    private static final String TOLD = ". Requests go on, and no more such errors are told.\n";
    private static int wrong;

    private HttpTest() {
    }

    public static void main(String[] arguments) throws Exception {
        Path folder = Path.of(arguments[0]);
        requestsOfTwoClientsHaveNoOrder(folder.resolve("two"));
        requestsInOrder(folder.resolve("order"));
        requestsWithoutAnId(folder.resolve("without"));
        eachRedirectIsARequest(folder.resolve("redirects"));
        redirectsThatAreNotFollowed(folder.resolve("unfollowed"));
        aSecondCopyIsNoReceipt(folder.resolve("copy"));
        aRequestThatIsGivenUpLeavesASend(folder.resolve("given-up"));
        aHandlerThatFails(folder.resolve("exception"));
        aResponseIsReceivedBeforeItsBody(folder.resolve("body"));
        requestsAtOnce(folder.resolve("at-once"));
        aRecorderThatFailsIsToldOnce();
        aStrandThatCannotBegin(folder.resolve("long"));
        withoutARecorder(folder.resolve("none"));
        System.out.println("java, HTTP: " + wrong + " wrong");
        System.exit(wrong == 0 ? 0 : 1);
    }

    static void see(Object found, Object wanted) {
        if (!wanted.equals(found)) {
            wrong++;
            new AssertionError("there is\n" + found + "\nand not\n" + wanted).printStackTrace(System.out);
        }
    }

    static int wrong() {
        return wrong;
    }

    /** Recorders of these processes, whose streams are in the folder. */
    static List<Recorder> recorders(Path folder, String... names) throws IOException {
        Files.createDirectories(folder);
        List<Recorder> made = new ArrayList<>();
        for (String name : names) {
            made.add(Recorder.toFile(name, folder.resolve(name + ".stream")));
        }
        return made;
    }

    /** Sees the events of a stream that has ended. */
    static void seeStream(Path folder, String name, String... events) throws IOException {
        List<String> lines = Files.readAllLines(folder.resolve(name + ".stream"));
        List<String> wanted = new ArrayList<>(List.of("{\"process\":\"" + name + "\"}"));
        Stream.of(events).map(event -> event.replace('\'', '"')).forEach(wanted::add);
        wanted.add("{\"end\":true}");
        see(lines, wanted);
    }

    /**
     * Ends the recorders and sees what the program says of all streams in the folder, if it is there: of the document
     * that has these processes, with this predicate.
     */
    static void judge(Path folder, List<Recorder> recorders, String processes, String predicate, String wanted)
            throws Exception {
        recorders.forEach(Recorder::end);
        Path program = Path.of(System.getenv().getOrDefault("MONITOR", "none"));
        if (!Files.isExecutable(program)) {
            return;
        }
        String all = Stream.of(processes.split(" ")).map(name -> "{\"name\":\"" + name + "\",\"vars\":{\"x\":0}}")
                .collect(Collectors.joining(","));
        Path document = folder.resolve("session.json");
        Files.writeString(document, "{\"processes\":[" + all + "],\"predicates\":[{\"name\":\"both\",\"text\":\""
                + predicate + "\"}]}");
        List<String> words = new ArrayList<>(List.of(program.toString(), "judge", document.toString()));
        try (Stream<Path> files = Files.list(folder)) {
            files.map(Path::toString).filter(file -> file.endsWith(".stream")).sorted().forEach(words::add);
        }
        Process process = new ProcessBuilder(words).redirectErrorStream(true).start();
        String report = new String(process.getInputStream().readAllBytes(), StandardCharsets.UTF_8);
        see(report.substring(0, Math.min(report.length(), wanted.length())), wanted);
        if (!report.startsWith(wanted)) {
            System.out.println(report);
        }
    }

    /** What can fail in a test. */
    interface Part {
        void run() throws Exception;
    }

    /** What is said on standard error meanwhile. */
    static String saying(Part part) throws Exception {
        PrintStream before = System.err;
        ByteArrayOutputStream said = new ByteArrayOutputStream();
        System.setErr(new PrintStream(said, true, StandardCharsets.UTF_8));
        try {
            part.run();
        } finally {
            System.setErr(before);
        }
        return said.toString(StandardCharsets.UTF_8);
    }

    /** A server on a free port, which handles several requests at once. */
    private static final class Server implements AutoCloseable {
        private final HttpServer server;
        private final ExecutorService threads = Executors.newCachedThreadPool();

        Server(RecordingExchangeFilter filter, HttpHandler handler) throws IOException {
            server = HttpServer.create(new InetSocketAddress(InetAddress.getLoopbackAddress(), 0), 0);
            server.createContext("/", handler).getFilters().addAll(List.of(Filter.afterHandler("sees", exchange ->
                see(Recorder.current() == null, true)), filter));
            server.setExecutor(threads);
            server.start();
        }

        URI uri() {
            return URI.create("http://127.0.0.1:" + server.getAddress().getPort() + "/");
        }

        @Override
        public void close() {
            server.stop(0);
            threads.shutdown();
        }
    }

    private static void answer(HttpExchange exchange, int status, String text) throws IOException {
        byte[] bytes = text.getBytes(StandardCharsets.UTF_8);
        exchange.getRequestBody().readAllBytes();
        exchange.sendResponseHeaders(status, bytes.length == 0 ? -1 : bytes.length);
        try (exchange; OutputStream body = exchange.getResponseBody()) {
            body.write(bytes);
        }
    }

    /** Is inside while it handles a request. */
    private static void inside(HttpExchange exchange) throws IOException {
        Recorder.current().event(set("x", 1));
        Recorder.current().event(set("x", 0));
        answer(exchange, 200, "done by " + exchange.getRequestMethod());
    }

    private static HttpClient client(Recorder recorder) {
        return RecordingClient.over(HttpClient.newBuilder(), recorder);
    }

    static HttpResponse<String> get(HttpClient client, URI uri) throws Exception {
        HttpResponse<String> response = client.send(HttpRequest.newBuilder(uri).build(), BodyHandlers.ofString());
        see(response.headers().firstValue("Monitor-Response").isPresent(), false);
        return response;
    }

    private static void requestsOfTwoClientsHaveNoOrder(Path folder) throws Exception {
        List<Recorder> all = recorders(folder, "right", "ann", "bob");
        RecordingExchangeFilter filter = RecordingExchangeFilter.byClient(all.get(0));
        try (Server server = new Server(filter, HttpTest::inside)) {
            for (int client : new int[] {1, 2, 1}) {
                see(get(client(all.get(client)), server.uri()).body(), "done by GET");
            }
        }
        filter.join();
        all.get(0).event(set("x", 2)); // after all of the requests
        judge(folder, all, "right ann bob right_ann right_bob", "right_ann.x == 1 and right_bob.x == 1 or "
                + "right.x == 2 and right_ann.x == 1", "session 5 processes 27 events 10 messages\n"
                + "both possibly yes 2,1,1,3,3\n");
        seeStream(folder, "ann", "{'send':'ann-1'}", "{'recv':'right_ann-1'}", "{'send':'ann-2'}",
                "{'recv':'right_ann-2'}");
        seeStream(folder, "right", "{'send':'right-1'}", "{'send':'right-2'}", "{'recv':'right_ann-3'}",
                "{'recv':'right_bob-2'}", "{'set':{'x':2}}");
        seeStream(folder, "right_bob", "{'recv':'right-2'}", "{'recv':'bob-1'}", "{'set':{'x':1}}", "{'set':{'x':0}}",
                "{'send':'right_bob-1'}", "{'send':'right_bob-2'}");
    }

    private static void requestsInOrder(Path folder) throws Exception {
        List<Recorder> all = recorders(folder, "right", "ann", "bob");
        try (Server server = new Server(new RecordingExchangeFilter(all.get(0)), HttpTest::inside)) {
            get(client(all.get(1)), server.uri());
            get(client(all.get(2)), server.uri());
        }
        judge(folder, all, "right ann bob", "ann.x == 1", "session 3 processes 12 events 4 messages\n");
        seeStream(folder, "right", "{'recv':'ann-1'}", "{'set':{'x':1}}", "{'set':{'x':0}}", "{'send':'right-1'}",
                "{'recv':'bob-1'}", "{'set':{'x':1}}", "{'set':{'x':0}}", "{'send':'right-2'}");
    }

    private static void requestsWithoutAnId(Path folder) throws Exception {
        String trace = "0af7651916cd43dd8448eb211c80319c";
        String span = "b7ad6b7169203331";
        String[][] headers = {{"Accept", "*/*"}, {"Monitor-Request", "x".repeat(65)},
                {"traceparent", "00-" + trace + "-" + span + "-01"}, {"traceparent", "00-" + trace + "-" + span + "-01"},
                {"traceparent", "01-" + trace + "-00000000000000ab-01-more"}, {"traceparent", "00-" + trace + "-01"},
                {"traceparent", "00-" + "0".repeat(32) + "-" + span + "-01"},
                {"traceparent", "00-" + trace + "-" + "0".repeat(16) + "-01"}};
        List<Recorder> all = recorders(folder, "right");
        RecordingExchangeFilter filter = RecordingExchangeFilter.byClient(all.get(0));
        try (Server server = new Server(filter, exchange -> {
            see(Recorder.current(), all.get(0));
            answer(exchange, 200, "done");
        })) {
            for (String[] header : headers) {
                HttpRequest request = HttpRequest.newBuilder(server.uri()).header(header[0], header[1]).build();
                HttpResponse<String> response = HttpClient.newHttpClient().send(request, BodyHandlers.ofString());
                see(response.body() + response.headers().firstValue("Monitor-Response"), "doneOptional.empty");
            }
        }
        all.get(0).end();
        seeStream(folder, "right", "{'recv':'" + trace + "-" + span + "'}", "{'recv':'" + trace + "-00000000000000ab'}");
    }

    private static void eachRedirectIsARequest(Path folder) throws Exception {
        List<Recorder> all = recorders(folder, "first", "second", "ann");
        try (Server second = new Server(RecordingExchangeFilter.byClient(all.get(1)), exchange -> {
            see(exchange.getRequestHeaders().containsKey("Authorization"), false);
            see(exchange.getRequestHeaders().getFirst("Accept"), "text/plain");
            inside(exchange);
        }); Server first = new Server(RecordingExchangeFilter.byClient(all.get(0)), exchange -> {
            exchange.getResponseHeaders().set("Location", second.uri().toString());
            answer(exchange, 302, "moved");
        })) {
            HttpClient.Builder builder = HttpClient.newBuilder().followRedirects(Redirect.NORMAL);
            HttpClient client = RecordingClient.over(builder, all.get(2));
            see(client.followRedirects(), Redirect.NORMAL);
            HttpRequest request = HttpRequest.newBuilder(first.uri()).POST(BodyPublishers.ofString("text"))
                    .header("Accept", "text/plain").header("Authorization", "secret").build();
            List<Integer> statuses = new ArrayList<>();
            HttpResponse<String> response = client.send(request, info -> {
                statuses.add(info.statusCode());
                return BodyHandlers.ofString().apply(info);
            });
            see(response.body(), "done by GET");
            see(statuses, List.of(200));
            see(response.uri(), second.uri());
            see(response.previousResponse().map(HttpResponse::statusCode).orElse(0), 302);
            see(client.sendAsync(request, BodyHandlers.ofString()).get().body(), "done by GET");
            HttpRequest unrecorded = HttpRequest.newBuilder(first.uri()).header("Accept", "text/plain").build();
            see(builder.build().send(unrecorded, BodyHandlers.ofString()).body(), "done by GET");
        }
        judge(folder, all, "first second ann first_ann second_ann", "first_ann.x == 1",
                "session 5 processes 26 events 10 messages\n");
        seeStream(folder, "ann", "{'send':'ann-1'}", "{'recv':'first_ann-1'}", "{'send':'ann-2'}",
                "{'recv':'second_ann-1'}", "{'send':'ann-3'}", "{'recv':'first_ann-2'}", "{'send':'ann-4'}",
                "{'recv':'second_ann-2'}");
    }

    private static void redirectsThatAreNotFollowed(Path folder) throws Exception {
        List<Recorder> all = recorders(folder, "right", "ann");
        try (Server server = new Server(RecordingExchangeFilter.byClient(all.get(0)), exchange -> {
            exchange.getResponseHeaders().set("Location", "/");
            answer(exchange, 302, "moved");
        })) {
            see(get(client(all.get(1)), server.uri()).body(), "moved");
            see(all.get(1).events(), 2);
            HttpClient.Builder builder = HttpClient.newBuilder().followRedirects(Redirect.ALWAYS);
            HttpResponse<String> last = get(builder.build(), server.uri());
            HttpResponse<String> ours = get(RecordingClient.over(builder, all.get(1)), server.uri());
            see(ours.statusCode() + ours.body(), last.statusCode() + last.body());
            see(all.get(1).events(), 2 + 2 * 5);
        }
        judge(folder, all, "right ann right_ann", "ann.x == 1", "session 3 processes 26 events 13 messages\n");
    }

    private static void aSecondCopyIsNoReceipt(Path folder) throws Exception {
        List<Recorder> all = recorders(folder, "right", "ann");
        String id = all.get(1).send();
        try (Server server = new Server(RecordingExchangeFilter.byClient(all.get(0)), HttpTest::inside)) {
            see(saying(() -> {
                for (int copy = 1; copy <= 2; copy++) {
                    HttpRequest request = HttpRequest.newBuilder(server.uri()).header("Monitor-Request", id).build();
                    HttpResponse<String> response = HttpClient.newHttpClient().send(request, BodyHandlers.ofString());
                    see(response.headers().firstValue("Monitor-Response").orElse(""), "right_ann-" + copy);
                }
            }), "");
        }
        judge(folder, all, "right ann right_ann", "ann.x == 1", "session 3 processes 10 events 2 messages\n");
    }

    private static void aRequestThatIsGivenUpLeavesASend(Path folder) throws Exception {
        List<Recorder> all = recorders(folder, "right", "ann");
        CountDownLatch arrived = new CountDownLatch(1);
        CountDownLatch goOn = new CountDownLatch(1);
        CountDownLatch done = new CountDownLatch(1);
        try (Server server = new Server(RecordingExchangeFilter.byClient(all.get(0)), exchange -> {
            arrived.countDown();
            await(goOn);
            try {
                answer(exchange, 200, "too late");
            } finally {
                done.countDown();
            }
        })) {
            CompletableFuture<HttpResponse<String>> future = client(all.get(1))
                    .sendAsync(HttpRequest.newBuilder(server.uri()).build(), BodyHandlers.ofString());
            arrived.await();
            see(future.cancel(true), true);
            goOn.countDown();
            done.await();
        }
        judge(folder, all, "right ann right_ann", "ann.x == 1", "session 3 processes 5 events 2 messages\n");
        seeStream(folder, "ann", "{'send':'ann-1'}");
    }

    private static void await(CountDownLatch latch) throws IOException {
        try {
            latch.await();
        } catch (InterruptedException error) {
            throw new IOException(error);
        }
    }

    private static void aHandlerThatFails(Path folder) throws Exception {
        List<Recorder> all = recorders(folder, "right", "ann");
        try (Server server = new Server(RecordingExchangeFilter.byClient(all.get(0)), exchange -> {
            throw new IOException("lost");
        })) {
            see(get(client(all.get(1)), server.uri()).statusCode(), 500);
        } catch (IOException error) {
            see(error.getMessage() == null, false);
        }
        judge(folder, all, "right ann right_ann", "ann.x == 1", "session 3 processes 4 events 2 messages\n");
    }

    private static void aResponseIsReceivedBeforeItsBody(Path folder) throws Exception {
        List<Recorder> all = recorders(folder, "right", "ann");
        CountDownLatch goOn = new CountDownLatch(1);
        try (Server server = new Server(RecordingExchangeFilter.byClient(all.get(0)), exchange -> {
            exchange.sendResponseHeaders(200, 0);
            try (exchange; OutputStream body = exchange.getResponseBody()) {
                body.flush();
                await(goOn);
                Recorder.current().event(set("x", 1));
                body.write("done".getBytes(StandardCharsets.UTF_8));
            }
        })) {
            HttpRequest request = HttpRequest.newBuilder(server.uri()).build();
            InputStream body = client(all.get(1)).send(request, BodyHandlers.ofInputStream()).body();
            see(all.get(1).events(), 2); // the body hasn't come by then
            goOn.countDown();
            see(new String(body.readAllBytes(), StandardCharsets.UTF_8), "done");
        }
        judge(folder, all, "right ann right_ann", "ann.x == 1", "session 3 processes 7 events 3 messages\n");
        seeStream(folder, "right_ann", "{'recv':'right-1'}", "{'recv':'ann-1'}", "{'send':'right_ann-1'}",
                "{'set':{'x':1}}");
    }

    private static void requestsAtOnce(Path folder) throws Exception {
        List<Recorder> all = recorders(folder, "right", "ann");
        CyclicBarrier barrier = new CyclicBarrier(3);
        try (Server server = new Server(RecordingExchangeFilter.byClient(all.get(0)), exchange -> {
            try {
                barrier.await();
            } catch (Exception error) {
                throw new IOException(error);
            }
            answer(exchange, 200, "done");
        })) {
            HttpClient client = client(all.get(1));
            HttpRequest request = HttpRequest.newBuilder(server.uri()).build();
            see(saying(() -> {
                for (int round = 0; round < 2; round++) {
                    List<CompletableFuture<HttpResponse<String>>> answers = new ArrayList<>();
                    for (int number = 0; number < 3; number++) {
                        answers.add(client.sendAsync(request, BodyHandlers.ofString()));
                    }
                    for (CompletableFuture<HttpResponse<String>> answer : answers) {
                        see(answer.get().body(), "done");
                    }
                }
            }), "monitor.http: ann has several requests under way at once, and their order is taken for a cause: "
                    + "give each task a strand, and have it request within that.\n");
        }
        judge(folder, all, "right ann right_ann", "ann.x == 1", "session 3 processes 26 events 13 messages\n");
    }

    /** A file that takes so many lines. */
    private static OutputStream narrow(int lines) {
        return new OutputStream() {
            private int room = lines;

            @Override
            public void write(int oneByte) throws IOException {
                if (room <= 0) {
                    throw new IOException("no space is left");
                }
                room -= oneByte == '\n' ? 1 : 0;
            }
        };
    }

    private static void aRecorderThatFailsIsToldOnce() throws Exception {
        Recorder right = new Recorder("right", narrow(2));
        Recorder ann = new Recorder("ann", narrow(4));
        try (Server server = new Server(new RecordingExchangeFilter(right), exchange -> {
            see(exchange.getRequestHeaders().containsKey("Monitor-Request"), false);
            answer(exchange, 200, "done");
        })) {
            HttpClient client = client(ann);
            String said = saying(() -> {
                for (int number = 0; number < 6; number++) {
                    see(get(client, server.uri()).body(), "done");
                }
            });
            String once = "monitor.http: java.io.UncheckedIOException: java.io.IOException: no space is left" + TOLD;
            see(said, once + once);
        }
    }

    private static void aStrandThatCannotBegin(Path folder) throws Exception {
        String other = "a".repeat(30);
        List<Recorder> all = recorders(folder, "right", "ann", other, "bob");
        try (Server server = new Server(RecordingExchangeFilter.byClient(all.get(0)), HttpTest::inside)) {
            String said = saying(() -> {
                for (int client : new int[] {1, 2, 3, 1}) {
                    get(client(all.get(client)), server.uri());
                }
            });
            see(said.startsWith("monitor.http: monitor.Recorder$NotRecordedException: right_" + other), true);
            see(said.endsWith(TOLD) && said.indexOf('\n') == said.length() - 1, true);
        }
        judge(folder, all, "right ann bob right_ann " + other, "ann.x == 1",
                "session 5 processes 26 events 9 messages\n");
    }

    private static void withoutARecorder(Path folder) throws Exception {
        List<Recorder> all = recorders(folder, "right");
        HttpClient plain = client(null);
        see(plain instanceof RecordingClient, false);
        try (Server server = new Server(RecordingExchangeFilter.byClient(null), exchange ->
            answer(exchange, 200, String.valueOf(Recorder.current())))) {
            see(get(plain, server.uri()).body(), "null");
            see(get(client(all.get(0)), server.uri()).body(), "null");
        }
        all.get(0).end();
        seeStream(folder, "right", "{'send':'right-1'}");
    }
}
