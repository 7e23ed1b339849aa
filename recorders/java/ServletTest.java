import static monitor.Recorder.set;

import jakarta.servlet.AsyncContext;
import jakarta.servlet.DispatcherType;
import jakarta.servlet.FilterRegistration;
import jakarta.servlet.ServletException;
import jakarta.servlet.ServletRegistration;
import jakarta.servlet.http.HttpServlet;
import jakarta.servlet.http.HttpServletRequest;
import jakarta.servlet.http.HttpServletResponse;
import java.io.IOException;
import java.io.InputStream;
import java.io.PrintWriter;
import java.net.InetAddress;
import java.net.URI;
import java.net.http.HttpClient;
import java.net.http.HttpRequest;
import java.net.http.HttpResponse;
import java.net.http.HttpResponse.BodyHandlers;
import java.nio.charset.StandardCharsets;
import java.nio.file.Files;
import java.nio.file.Path;
import java.util.Collections;
import java.util.EnumSet;
import java.util.List;
import java.util.Locale;
import java.util.Map;
import java.util.TreeMap;
import java.util.concurrent.CountDownLatch;
import java.util.logging.Level;
import java.util.logging.LogManager;
import java.util.logging.Logger;
import monitor.Recorder;
import monitor.http.RecordingClient;
import monitor.http.RecordingFilter;
import org.apache.catalina.Context;
import org.apache.catalina.LifecycleException;
import org.apache.catalina.startup.Tomcat;

/** Tests of the servlet filter in Tomcat, in a folder for each: see test-servlet.sh. */
final class ServletTest {
    private ServletTest() {
    }

    public static void main(String[] arguments) throws Exception {
        Path folder = Path.of(arguments[0]);
        LogManager.getLogManager().reset();
        Logger.getLogger("").setLevel(Level.OFF);
        requestsOfTwoClientsHaveNoOrder(folder.resolve("two"));
        requestsInOrder(folder.resolve("order"));
        eachWayToAnswer(folder.resolve("ways"));
        aResponseIsReceivedBeforeItsEnd(folder.resolve("body"));
        aResponseThatIsMadeOfAnException(folder.resolve("exception"));
        proxies(folder.resolve("proxies"));
        requestsWithoutAnId(folder.resolve("without"));
        withoutARecorder(folder.resolve("none"));
        System.out.println("java, servlets: " + HttpTest.wrong() + " wrong");
        System.exit(HttpTest.wrong() == 0 ? 0 : 1);
    }

    /** What answers a request. */
    private interface Way {
        void answer(HttpServletRequest request, HttpServletResponse response) throws Exception;
    }

    private static final class Answering extends HttpServlet {
        private static final long serialVersionUID = 1;
        private final transient Map<String, Way> ways;

        Answering(Map<String, Way> ways) {
            this.ways = ways;
        }

        @Override
        protected void service(HttpServletRequest request, HttpServletResponse response)
                throws ServletException, IOException {
            try {
                ways.get(request.getRequestURI().substring(1)).answer(request, response);
            } catch (IOException | ServletException | RuntimeException error) {
                throw error;
            } catch (Exception error) {
                throw new ServletException(error);
            }
        }
    }

    /** A Tomcat on a free port. */
    private static final class Server implements AutoCloseable {
        private final Tomcat tomcat = new Tomcat();

        Server(Path folder, RecordingFilter filter, Map<String, Way> ways) throws Exception {
            tomcat.setBaseDir(Files.createDirectories(folder.resolve("tomcat")).toString());
            tomcat.setPort(0);
            tomcat.getConnector().setProperty("address", InetAddress.getLoopbackAddress().getHostAddress());
            Context context = tomcat.addContext("", null);
            context.setIgnoreAnnotations(true); // their classes are in another package of Debian
            context.addServletContainerInitializer((classes, application) -> {
                ServletRegistration.Dynamic servlet = application.addServlet("servlet", new Answering(ways));
                servlet.setAsyncSupported(true);
                servlet.addMapping("/*");
                FilterRegistration.Dynamic around = application.addFilter("around", (request, response, chain) -> {
                    chain.doFilter(request, response);
                    HttpTest.see(Recorder.current() == null, true);
                });
                around.setAsyncSupported(true);
                around.addMappingForUrlPatterns(EnumSet.of(DispatcherType.REQUEST), false, "/*");
                FilterRegistration.Dynamic recording = application.addFilter("monitor", filter);
                recording.setAsyncSupported(true);
                recording.addMappingForUrlPatterns(EnumSet.allOf(DispatcherType.class), false, "/*");
            }, null);
            tomcat.start();
        }

        URI uri(String path) {
            return URI.create("http://127.0.0.1:" + tomcat.getConnector().getLocalPort() + "/" + path);
        }

        @Override
        public void close() throws LifecycleException {
            tomcat.stop();
            tomcat.destroy();
        }
    }

    private static HttpClient client(Recorder recorder) {
        return RecordingClient.over(HttpClient.newBuilder(), recorder);
    }

    /** Is inside while it handles a request. */
    private static void inside(HttpServletRequest request, HttpServletResponse response) throws IOException {
        Recorder.current().event(set("x", 1));
        RecordingFilter.recorderOf(request).event(set("x", 0));
        response.getWriter().print("done");
    }

    private static void requestsOfTwoClientsHaveNoOrder(Path folder) throws Exception {
        List<Recorder> all = HttpTest.recorders(folder, "right", "ann", "bob");
        RecordingFilter filter = RecordingFilter.byClient(all.get(0));
        try (Server server = new Server(folder, filter, Map.of("", ServletTest::inside))) {
            for (int client : new int[] {1, 2, 1}) {
                HttpTest.see(HttpTest.get(client(all.get(client)), server.uri("")).body(), "done");
            }
        }
        filter.join();
        HttpTest.judge(folder, all, "right ann bob right_ann right_bob", "right_ann.x == 1 and right_bob.x == 1",
                "session 5 processes 26 events 10 messages\nboth possibly yes 2,1,1,3,3\n");
        HttpTest.seeStream(folder, "right_bob", "{'recv':'right-2'}", "{'recv':'bob-1'}", "{'set':{'x':1}}",
                "{'set':{'x':0}}", "{'send':'right_bob-1'}", "{'send':'right_bob-2'}");
    }

    private static void requestsInOrder(Path folder) throws Exception {
        List<Recorder> all = HttpTest.recorders(folder, "right", "ann", "bob");
        try (Server server = new Server(folder, new RecordingFilter(all.get(0)), Map.of("", ServletTest::inside))) {
            HttpTest.get(client(all.get(1)), server.uri(""));
            HttpTest.get(client(all.get(2)), server.uri(""));
        }
        HttpTest.judge(folder, all, "right ann bob", "ann.x == 1", "session 3 processes 12 events 4 messages\n");
    }

    /** Each answers a request, and the status of the response. */
    private static Map<String, Way> ways() {
        String large = "x".repeat(100_000);
        Map<String, Way> ways = new TreeMap<>();
        ways.put("200/large-text", (request, response) -> response.getWriter().print(large));
        ways.put("200/large-bytes", (request, response) -> response.getOutputStream().write(large.getBytes()));
        ways.put("200/one-byte", (request, response) -> response.getOutputStream().write('x'));
        ways.put("200/a-line", (request, response) -> response.getWriter().println());
        ways.put("200/flushed", (request, response) -> response.flushBuffer());
        ways.put("204/nothing", (request, response) -> response.setStatus(204));
        ways.put("404/error", (request, response) -> response.sendError(404));
        ways.put("410/error-with-text", (request, response) -> response.sendError(410, "gone"));
        ways.put("302/redirect", (request, response) -> response.sendRedirect("/elsewhere"));
        ways.put("409/reset", (request, response) -> {
            response.getWriter().print("x");
            response.reset();
            response.setStatus(409);
            response.getWriter().print("y");
        });
        ways.put("200/closed", (request, response) -> {
            try (PrintWriter writer = response.getWriter()) {
                HttpTest.see(writer.checkError(), false);
            }
        });
        ways.put("200/forwarded", (request, response) ->
            request.getRequestDispatcher("/200/a-line").forward(request, response));
        putWaysToAnswerLater(ways);
        return ways;
    }

    private static void putWaysToAnswerLater(Map<String, Way> ways) {
        ways.put("200/later", (request, response) -> {
            Recorder recorder = RecordingFilter.recorderOf(request);
            AsyncContext later = request.startAsync();
            new Thread(() -> {
                try {
                    recorder.event();
                    later.getResponse().getWriter().print("done");
                    later.complete();
                } catch (IOException error) {
                    HttpTest.see(error, "");
                }
            }).start();
        });
        ways.put("200/dispatched", (request, response) -> {
            if (request.getDispatcherType() == DispatcherType.REQUEST) {
                request.startAsync().dispatch();
            } else {
                HttpTest.see(Recorder.current().process(), "right_ann");
                Recorder.current().event();
                response.getWriter().print("done");
            }
        });
    }

    /** Sees that the response is sent by what is written, and not only since the servlet has done its work. */
    private static Way seen(String name, Way way) {
        return (request, response) -> {
            Recorder recorder = Recorder.current();
            int before = recorder.events();
            way.answer(request, response);
            if (!request.isAsyncStarted() && request.getDispatcherType() != DispatcherType.ASYNC) {
                HttpTest.see(name + (recorder.events() - before), name + (name.startsWith("204") ? 0 : 1));
            }
        };
    }

    private static void eachWayToAnswer(Path folder) throws Exception {
        Map<String, Way> ways = ways();
        ways.replaceAll(ServletTest::seen);
        List<Recorder> all = HttpTest.recorders(folder, "right", "ann");
        try (Server server = new Server(folder, RecordingFilter.byClient(all.get(0)), ways)) {
            HttpClient client = client(all.get(1));
            int received = 0;
            for (String way : ways.keySet()) {
                HttpResponse<String> response = HttpTest.get(client, server.uri(way));
                received += 2;
                HttpTest.see(response.statusCode() + " " + way, way.substring(0, 3) + " " + way);
                HttpTest.see(all.get(1).events() + " " + way, received + " " + way);
            }
        }
        int requests = ways.size();
        HttpTest.judge(folder, all, "right ann right_ann", "ann.x == 1", "session 3 processes "
                + (2 + 2 + 4 * requests) + " events " + (1 + 2 * requests) + " messages\n");
    }

    private static void aResponseThatIsMadeOfAnException(Path folder) throws Exception {
        List<Recorder> all = HttpTest.recorders(folder, "right", "ann");
        Map<String, Way> ways = Map.of("", (request, response) -> {
            throw new IllegalStateException("lost");
        });
        try (Server server = new Server(folder, RecordingFilter.byClient(all.get(0)), ways)) {
            HttpTest.see(HttpTest.get(client(all.get(1)), server.uri("")).statusCode(), 500);
        }
        HttpTest.judge(folder, all, "right ann right_ann", "ann.x == 1", "session 3 processes 6 events 3 messages\n");
    }

    private static void aResponseIsReceivedBeforeItsEnd(Path folder) throws Exception {
        List<Recorder> all = HttpTest.recorders(folder, "right", "ann");
        CountDownLatch goOn = new CountDownLatch(1);
        Map<String, Way> ways = Map.of("", (request, response) -> {
            PrintWriter writer = response.getWriter();
            Recorder.current().event(set("x", 1)); // to have the writer isn't to write
            writer.print("do");
            writer.flush();
            goOn.await();
            Recorder.current().event(set("x", 2));
            writer.print("ne");
        });
        try (Server server = new Server(folder, RecordingFilter.byClient(all.get(0)), ways)) {
            HttpRequest request = HttpRequest.newBuilder(server.uri("")).build();
            InputStream body = client(all.get(1)).send(request, BodyHandlers.ofInputStream()).body();
            HttpTest.see(all.get(1).events(), 2); // the body's end hasn't come by then
            goOn.countDown();
            HttpTest.see(new String(body.readAllBytes(), StandardCharsets.UTF_8), "done");
        }
        HttpTest.judge(folder, all, "right ann right_ann", "ann.x == 1", "session 3 processes 8 events 3 messages\n");
        HttpTest.seeStream(folder, "right_ann", "{'recv':'right-1'}", "{'recv':'ann-1'}", "{'set':{'x':1}}",
                "{'send':'right_ann-1'}", "{'set':{'x':2}}");
    }

    /** A servlet that passes a request on with the headers that it has, and the response too. */
    private static Way proxy(HttpClient client, URI target) {
        return (request, response) -> {
            HttpRequest.Builder passed = HttpRequest.newBuilder(target);
            for (String name : Collections.list(request.getHeaderNames())) {
                if (name.toLowerCase(Locale.ROOT).startsWith("monitor-")) {
                    Collections.list(request.getHeaders(name)).forEach(value -> passed.header(name, value));
                }
            }
            HttpResponse<String> answer = client.send(passed.build(), BodyHandlers.ofString());
            answer.headers().map().forEach((name, values) -> response.addHeader(name, values.get(0)));
            response.getWriter().print(answer.body());
        };
    }

    private static void proxies(Path folder) throws Exception {
        for (String recorded : new String[] {"in and out", "in", "out", "not at all"}) {
            Path own = folder.resolve(recorded);
            List<Recorder> all = HttpTest.recorders(own, "back", "front", "ann");
            RecordingFilter in = RecordingFilter.byClient(recorded.contains("in") ? all.get(1) : null);
            HttpClient out = client(recorded.contains("out") ? all.get(1) : null);
            Map<String, Way> ways = Map.of("", ServletTest::inside);
            try (Server back = new Server(own.resolve("back"), RecordingFilter.byClient(all.get(0)), ways);
                    Server front = new Server(own.resolve("front"), in, Map.of("", proxy(out, back.uri(""))))) {
                HttpTest.see(HttpTest.get(client(all.get(2)), front.uri("")).body(), "done");
            }
            String[] wanted = switch (recorded) {
                case "in and out" -> new String[] {"back_front_ann front_ann", "5 processes 14 events 6"};
                case "in" -> new String[] {"front_ann", "4 processes 8 events 3"};
                case "out" -> new String[] {"back_front", "4 processes 9 events 3"};
                default -> new String[] {"back_ann", "4 processes 8 events 3"};
            };
            HttpTest.judge(own, all, "back front ann " + wanted[0], "ann.x == 1",
                    "session " + wanted[1] + " messages\n");
        }
    }

    private static void requestsWithoutAnId(Path folder) throws Exception {
        List<Recorder> all = HttpTest.recorders(folder, "right");
        String span = "0af7651916cd43dd8448eb211c80319c-b7ad6b7169203331";
        Map<String, Way> ways = Map.of("", (request, response) -> {
            HttpTest.see(Recorder.current(), all.get(0));
            HttpTest.see(RecordingFilter.recorderOf(request), all.get(0));
        });
        try (Server server = new Server(folder, RecordingFilter.byClient(all.get(0)), ways)) {
            for (String parent : new String[] {"00-" + span + "-01", "none"}) {
                HttpRequest request = HttpRequest.newBuilder(server.uri("")).header("traceparent", parent).build();
                HttpResponse<String> response = HttpClient.newHttpClient().send(request, BodyHandlers.ofString());
                HttpTest.see(response.headers().firstValue("Monitor-Response").isPresent(), false);
            }
        }
        HttpTest.see(Recorder.current() == null, true);
        all.get(0).end();
        HttpTest.seeStream(folder, "right", "{'recv':'" + span + "'}");
    }

    private static void withoutARecorder(Path folder) throws Exception {
        List<Recorder> all = HttpTest.recorders(folder, "ann");
        Map<String, Way> ways = Map.of("", (request, response) ->
            response.getWriter().print(request.getHeader("Monitor-Request") + Recorder.current()));
        try (Server server = new Server(folder, RecordingFilter.byClient(null), ways)) {
            HttpTest.see(HttpTest.get(client(all.get(0)), server.uri("")).body(), "ann-1null");
        }
    }
}
