package monitor.http;

import jakarta.servlet.AsyncContext;
import jakarta.servlet.Filter;
import jakarta.servlet.FilterChain;
import jakarta.servlet.ServletException;
import jakarta.servlet.ServletOutputStream;
import jakarta.servlet.ServletRequest;
import jakarta.servlet.ServletResponse;
import jakarta.servlet.WriteListener;
import jakarta.servlet.http.HttpServletRequest;
import jakarta.servlet.http.HttpServletRequestWrapper;
import jakarta.servlet.http.HttpServletResponse;
import jakarta.servlet.http.HttpServletResponseWrapper;
import java.io.IOException;
import java.io.PrintWriter;
import java.util.Collections;
import java.util.Enumeration;
import java.util.List;
import monitor.Recorder;

/**
 * Records the requests that come to servlets, and their responses, as messages between a client and this process:
 *
 * <pre>{@code
 * context.addFilter("monitor", new RecordingFilter(right)).addMappingForUrlPatterns(null, false, "/*");
 * }</pre>
 *
 * <p>A request is received before it is handled, and its response is sent before its first byte is written. What a
 * servlet does after that doesn't come before the client's receipt, so record what it changes before. It records by
 * {@link Recorder#current}, or in another thread by {@link #recorderOf}.
 *
 * <p>All requests are recorded by the recorder, in the order in which they come and do things. That order is taken for
 * a cause, and no other one is judged. It is right if what they do goes through what the process keeps in memory, where
 * a later request sees what an earlier one did, or if there is one client. If they have nothing in common the order was
 * an accident: take {@link #byClient}.
 *
 * <p>A request with no header of ours but a {@code traceparent} is received from that span: its id is the trace's and
 * the span's with a hyphen between them. Its response isn't recorded, and neither is anything of a request without
 * these. Both are handled with the recorder itself.
 *
 * <p>Recording never fails a request. If a recorder refuses or fails, that is said once on standard error, and requests
 * go on without what it has refused.
 *
 * <p>A servlet that answers later, by {@code startAsync}, needs a filter that says so by {@code setAsyncSupported}; a
 * response without a byte isn't recorded then. Neither is what a container makes of an exception, if it drops the
 * headers before; Tomcat keeps them.
 */
public final class RecordingFilter implements Filter {
    private static final String RECORDER = Recorder.class.getName();
    private final ServerSide server;

    /** A filter by which all requests are recorded by this recorder, or nothing, if it is null. */
    public RecordingFilter(Recorder recorder) {
        this(new ServerSide(recorder, false));
    }

    private RecordingFilter(ServerSide server) {
        this.server = server;
    }

    /**
     * A filter by which the requests of each client are recorded by a strand of this recorder: by {@code right_left} if
     * {@code left} sends to {@code right}. So the requests of one client have the order in which they came, and those of
     * different clients have none but by messages, whatever they share in memory: record that too if a predicate needs
     * it. The strand is begun as the client's first request comes, and the document names it. A client is what its
     * recorder is: each of its own strands is one. Requests without an id of a recorder are recorded by this one.
     *
     * <p>If no strand can be begun, as for the name of a client that is too long, or a 17th process, that is said on
     * standard error, and this recorder records the requests of each client that is new from then on.
     */
    public static RecordingFilter byClient(Recorder recorder) {
        return new RecordingFilter(new ServerSide(recorder, true));
    }

    /** The recorder by which this request is recorded, in whatever thread it is handled, or null. */
    public static Recorder recorderOf(ServletRequest request) {
        return (Recorder) request.getAttribute(RECORDER);
    }

    /**
     * Ends the strands of {@link #byClient}, and records that the process has waited for them: call it AFTER the server was stopped, if the
     * process then does anything that comes after its requests. Without it the strands end with the process.
     *
     * @throws Recorder.NotRecordedException if it is refused
     * @throws java.io.UncheckedIOException if a line can't be written
     */
    public void join() {
        server.join();
    }

    @Override
    public void doFilter(ServletRequest request, ServletResponse response, FilterChain chain)
            throws IOException, ServletException {
        if (!server.isRecording() || !(request instanceof HttpServletRequest)) {
            chain.doFilter(request, response);
        } else if (recorderOf(request) != null) {
            handle(request, response, chain); // it is dispatched once more
        } else {
            record((HttpServletRequest) request, (HttpServletResponse) response, chain);
        }
    }

    private void record(HttpServletRequest request, HttpServletResponse response, FilterChain chain)
            throws IOException, ServletException {
        ServerSide.Exchange exchange =
                server.arrived(request.getHeader(Faults.REQUEST), request.getHeader("traceparent"));
        request.setAttribute(RECORDER, exchange.recorder());
        if (!exchange.isAnswered()) {
            handle(request, response, chain);
            return;
        }
        Answer answer = new Answer(response, exchange);
        try {
            handle(new Asked(request, answer), answer, chain);
        } finally {
            if (!request.isAsyncStarted()) {
                answer.leave(); // also by an exception, of which a container may make a response
            }
        }
    }

    private static void handle(ServletRequest request, ServletResponse response, FilterChain chain)
            throws IOException, ServletException {
        try {
            recorderOf(request).call(() -> {
                chain.doFilter(request, response);
                return null;
            });
        } catch (IOException | ServletException | RuntimeException error) {
            throw error;
        } catch (Exception error) {
            throw new ServletException(error); // a chain throws no other one
        }
    }

    /** A request that has no header of ours any more, so that a proxy doesn't pass on what it has received itself. */
    private static final class Asked extends HttpServletRequestWrapper {
        private final Answer answer;

        Asked(HttpServletRequest request, Answer answer) {
            super(request);
            this.answer = answer;
        }

        @Override
        public AsyncContext startAsync() {
            return startAsync(this, answer);
        }

        @Override
        public String getHeader(String name) {
            return Faults.REQUEST.equalsIgnoreCase(name) ? null : super.getHeader(name);
        }

        @Override
        public Enumeration<String> getHeaders(String name) {
            return Faults.REQUEST.equalsIgnoreCase(name) ? Collections.emptyEnumeration() : super.getHeaders(name);
        }

        @Override
        public Enumeration<String> getHeaderNames() {
            List<String> names = Collections.list(super.getHeaderNames());
            names.removeIf(Faults.REQUEST::equalsIgnoreCase);
            return Collections.enumeration(names);
        }
    }

    /** A response that is recorded before its first byte is written. */
    private static final class Answer extends HttpServletResponseWrapper {
        private final ServerSide.Exchange exchange;
        private String id;
        private ServletOutputStream stream;
        private PrintWriter writer;

        Answer(HttpServletResponse response, ServerSide.Exchange exchange) {
            super(response);
            this.exchange = exchange;
        }

        void leave() {
            if (!isCommitted()) {
                exchange.leave(made -> {
                    id = made;
                    super.setHeader(Faults.RESPONSE, made);
                });
            }
        }

        @Override
        public ServletOutputStream getOutputStream() throws IOException {
            if (stream == null) {
                stream = new FirstByte(super.getOutputStream(), this);
            }
            return stream;
        }

        @Override
        public PrintWriter getWriter() throws IOException {
            if (writer == null) {
                writer = new FirstCharacter(super.getWriter(), this);
            }
            return writer;
        }

        @Override
        public void flushBuffer() throws IOException {
            leave();
            super.flushBuffer();
        }

        @Override
        public void sendError(int status) throws IOException {
            leave();
            super.sendError(status);
        }

        @Override
        public void sendError(int status, String message) throws IOException {
            leave();
            super.sendError(status, message);
        }

        @Override
        public void sendRedirect(String location) throws IOException {
            leave();
            super.sendRedirect(location);
        }

        @Override
        public void reset() {
            super.reset();
            if (id != null) {
                super.setHeader(Faults.RESPONSE, id);
            }
            stream = null;
            writer = null;
        }

        /** The id of another response isn't passed on. */
        @Override
        public void setHeader(String name, String value) {
            if (!Faults.RESPONSE.equalsIgnoreCase(name)) {
                super.setHeader(name, value);
            }
        }

        @Override
        public void addHeader(String name, String value) {
            if (!Faults.RESPONSE.equalsIgnoreCase(name)) {
                super.addHeader(name, value);
            }
        }
    }

    private static final class FirstByte extends ServletOutputStream {
        private final ServletOutputStream out;
        private final Answer answer;

        FirstByte(ServletOutputStream out, Answer answer) {
            this.out = out;
            this.answer = answer;
        }

        @Override
        public void write(int oneByte) throws IOException {
            answer.leave();
            out.write(oneByte);
        }

        @Override
        public void write(byte[] bytes, int begin, int length) throws IOException {
            answer.leave();
            out.write(bytes, begin, length);
        }

        @Override
        public void flush() throws IOException {
            answer.leave();
            out.flush();
        }

        @Override
        public void close() throws IOException {
            answer.leave();
            out.close();
        }

        @Override
        public boolean isReady() {
            return out.isReady();
        }

        @Override
        public void setWriteListener(WriteListener listener) {
            out.setWriteListener(listener);
        }
    }

    private static final class FirstCharacter extends PrintWriter {
        private final Answer answer;

        FirstCharacter(PrintWriter out, Answer answer) {
            super(out);
            this.answer = answer;
        }

        @Override
        public void write(int character) {
            answer.leave();
            super.write(character);
        }

        @Override
        public void write(char[] characters, int begin, int length) {
            answer.leave();
            super.write(characters, begin, length);
        }

        @Override
        public void write(String text, int begin, int length) {
            answer.leave();
            super.write(text, begin, length);
        }

        @Override
        public void println() {
            answer.leave();
            super.println();
        }

        @Override
        public void flush() {
            answer.leave();
            super.flush();
        }

        @Override
        public void close() {
            answer.leave();
            super.close();
        }
    }
}
