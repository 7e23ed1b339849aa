package monitor.http;

import com.sun.net.httpserver.Filter;
import com.sun.net.httpserver.Headers;
import com.sun.net.httpserver.HttpContext;
import com.sun.net.httpserver.HttpExchange;
import com.sun.net.httpserver.HttpPrincipal;
import com.sun.net.httpserver.HttpsExchange;
import java.io.IOException;
import java.io.InputStream;
import java.io.OutputStream;
import java.net.InetSocketAddress;
import java.net.URI;
import monitor.Recorder;

/**
 * Records the requests that come to the JDK's {@code com.sun.net.httpserver}, and their responses:
 *
 * <pre>{@code
 * server.createContext("/", handler).getFilters().add(new RecordingExchangeFilter(right));
 * }</pre>
 *
 * <p>What is recorded, and by which recorder, is said at {@link RecordingFilter}, the same for servlets. A response is
 * sent by {@code sendResponseHeaders}. Over TLS requests are recorded, and responses are not. Give all contexts of a
 * server the same filter, since it has the strands.
 */
public final class RecordingExchangeFilter extends Filter {
    private final ServerSide server;

    /** A filter by which all requests are recorded by this recorder, or nothing, if it is null. */
    public RecordingExchangeFilter(Recorder recorder) {
        this(new ServerSide(recorder, false));
    }

    private RecordingExchangeFilter(ServerSide server) {
        this.server = server;
    }

    /** A filter by which the requests of each client are recorded by a strand: see {@link RecordingFilter#byClient}. */
    public static RecordingExchangeFilter byClient(Recorder recorder) {
        return new RecordingExchangeFilter(new ServerSide(recorder, true));
    }

    /** As {@link RecordingFilter#join} says. */
    public void join() {
        server.join();
    }

    @Override
    public String description() {
        return "records requests and responses for monitor";
    }

    @Override
    public void doFilter(HttpExchange exchange, Chain chain) throws IOException {
        if (!server.isRecording()) {
            chain.doFilter(exchange);
            return;
        }
        Headers headers = exchange.getRequestHeaders();
        ServerSide.Exchange recorded =
                server.arrived(headers.getFirst(Faults.REQUEST), headers.getFirst("Traceparent"));
        boolean isWrapped = recorded.isAnswered() && !(exchange instanceof HttpsExchange);
        try {
            recorded.recorder().call(() -> {
                chain.doFilter(isWrapped ? new Recorded(exchange, recorded) : exchange);
                return null;
            });
        } catch (IOException | RuntimeException error) {
            throw error;
        } catch (Exception error) {
            throw new IOException(error); // a chain throws no other one
        }
    }

    /** An exchange whose response is recorded, and whose request has no header of ours any more. */
    private static final class Recorded extends HttpExchange {
        private final HttpExchange exchange;
        private final ServerSide.Exchange recorded;
        private final Headers asked = new Headers();

        Recorded(HttpExchange exchange, ServerSide.Exchange recorded) {
            this.exchange = exchange;
            this.recorded = recorded;
            asked.putAll(exchange.getRequestHeaders());
            asked.remove(Faults.REQUEST);
        }

        @Override
        public void sendResponseHeaders(int status, long length) throws IOException {
            if (status >= 200 || status == 101) {
                Headers answer = exchange.getResponseHeaders();
                answer.remove(Faults.RESPONSE);
                recorded.leave(id -> answer.set(Faults.RESPONSE, id));
            }
            exchange.sendResponseHeaders(status, length);
        }

        @Override
        public Headers getRequestHeaders() {
            return asked;
        }

        @Override
        public Headers getResponseHeaders() {
            return exchange.getResponseHeaders();
        }

        @Override
        public URI getRequestURI() {
            return exchange.getRequestURI();
        }

        @Override
        public String getRequestMethod() {
            return exchange.getRequestMethod();
        }

        @Override
        public HttpContext getHttpContext() {
            return exchange.getHttpContext();
        }

        @Override
        public void close() {
            exchange.close();
        }

        @Override
        public InputStream getRequestBody() {
            return exchange.getRequestBody();
        }

        @Override
        public OutputStream getResponseBody() {
            return exchange.getResponseBody();
        }

        @Override
        public InetSocketAddress getRemoteAddress() {
            return exchange.getRemoteAddress();
        }

        @Override
        public int getResponseCode() {
            return exchange.getResponseCode();
        }

        @Override
        public InetSocketAddress getLocalAddress() {
            return exchange.getLocalAddress();
        }

        @Override
        public String getProtocol() {
            return exchange.getProtocol();
        }

        @Override
        public Object getAttribute(String name) {
            return exchange.getAttribute(name);
        }

        @Override
        public void setAttribute(String name, Object value) {
            exchange.setAttribute(name, value);
        }

        @Override
        public void setStreams(InputStream in, OutputStream out) {
            exchange.setStreams(in, out);
        }

        @Override
        public HttpPrincipal getPrincipal() {
            return exchange.getPrincipal();
        }
    }
}
