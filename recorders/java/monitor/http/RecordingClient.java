package monitor.http;

import java.io.IOException;
import java.net.Authenticator;
import java.net.CookieHandler;
import java.net.ProxySelector;
import java.net.URI;
import java.net.http.HttpClient;
import java.net.http.HttpHeaders;
import java.net.http.HttpRequest;
import java.net.http.HttpResponse;
import java.net.http.HttpResponse.BodyHandler;
import java.net.http.HttpResponse.BodySubscriber;
import java.net.http.HttpResponse.BodySubscribers;
import java.net.http.HttpResponse.PushPromiseHandler;
import java.net.http.HttpResponse.ResponseInfo;
import java.net.http.WebSocket;
import java.time.Duration;
import java.util.HashMap;
import java.util.Map;
import java.util.Objects;
import java.util.Optional;
import java.util.Set;
import java.util.concurrent.CompletableFuture;
import java.util.concurrent.Executor;
import javax.net.ssl.SSLContext;
import javax.net.ssl.SSLParameters;
import javax.net.ssl.SSLSession;
import monitor.Recorder;

/**
 * A client that records each request and its response, as messages between this process and a server:
 *
 * <pre>{@code
 * HttpClient client = RecordingClient.over(HttpClient.newBuilder(), left);
 * }</pre>
 *
 * <p>A request is sent where it leaves, and its response is received once its head has come, before its body handler
 * sees any of it. A thread that has a {@link Recorder#current}, as one that handles a request, records by that.
 *
 * <p>One recorder is one order of requests. If several of one recorder are under way at once, that is said once on
 * standard error: give each task a strand, and have it request {@link Recorder#within} that.
 *
 * <p>Each redirect that the client follows is a request of its own, for which it follows them itself, by the rules of
 * the JDK's client; the time limit of a request is then one of each. A copy that the JDK's client sends by itself, as
 * over a new connection, or with a password, has the id of the first one, and the server doesn't record it. A request
 * that the program sends again is another message. Web sockets aren't recorded.
 *
 * <p>Recording never fails a request. If a recorder refuses or fails, that is said once on standard error, and requests
 * go on without what it has refused.
 */
public final class RecordingClient extends HttpClient {
    private static final Set<Integer> REDIRECTING = Set.of(301, 302, 303, 307, 308);
    private static final int MOST_REQUESTS = Integer.getInteger("jdk.httpclient.redirects.retrylimit", 5);

    private final Faults faults = new Faults();
    /** How many requests of each recorder are under way. */
    private final Map<Recorder, Integer> underWay = new HashMap<>();
    private boolean isAdvised;
    private final HttpClient client;
    private final Redirect redirects;
    private final Recorder recorder;

    private RecordingClient(HttpClient client, Redirect redirects, Recorder recorder) {
        this.client = client;
        this.redirects = redirects;
        this.recorder = recorder;
    }

    /** The client that the builder makes, recorded by this recorder; if that is null, by none. */
    public static HttpClient over(HttpClient.Builder builder, Recorder recorder) {
        HttpClient client = builder.build();
        if (recorder == null) {
            return client;
        }
        Redirect redirects = client.followRedirects();
        if (redirects != Redirect.NEVER) {
            client = builder.followRedirects(Redirect.NEVER).build();
            builder.followRedirects(redirects);
        }
        return new RecordingClient(client, redirects, recorder);
    }

    @Override
    public <T> HttpResponse<T> send(HttpRequest request, BodyHandler<T> handler)
            throws IOException, InterruptedException {
        Hop<T> hop = new Hop<>(request, handler);
        while (true) {
            HttpResponse<T> response = sendOne(hop);
            if (hop.next == null) {
                return response;
            }
            hop = new Hop<>(hop, response);
        }
    }

    private <T> HttpResponse<T> sendOne(Hop<T> hop) throws IOException, InterruptedException {
        leave(hop.own);
        try {
            return hop.received(client.send(hop.sent(), hop));
        } finally {
            arrive(hop.own);
        }
    }

    /** Says once if requests of one recorder are under way at once. */
    private synchronized void leave(Recorder own) {
        if (underWay.merge(own, 1, Integer::sum) > 1 && !isAdvised) {
            isAdvised = true;
            System.err.println("monitor.http: " + own.process() + " has several requests under way at once, and their"
                    + " order is taken for a cause: give each task a strand, and have it request within that.");
        }
    }

    private synchronized void arrive(Recorder own) {
        underWay.computeIfPresent(own, (recorder, number) -> number == 1 ? null : number - 1);
    }

    @Override
    public <T> CompletableFuture<HttpResponse<T>> sendAsync(HttpRequest request, BodyHandler<T> handler) {
        return sendAsync(request, handler, null);
    }

    @Override
    public <T> CompletableFuture<HttpResponse<T>> sendAsync(HttpRequest request, BodyHandler<T> handler,
            PushPromiseHandler<T> pushed) {
        Following<T> following = new Following<>(pushed);
        following.go(new Hop<>(request, handler));
        return following;
    }

    /** What becomes of the requests of one call. To cancel it cancels the request that is under way. */
    private final class Following<T> extends CompletableFuture<HttpResponse<T>> {
        private final PushPromiseHandler<T> pushed;
        private volatile CompletableFuture<HttpResponse<T>> running;

        Following(PushPromiseHandler<T> pushed) {
            this.pushed = pushed;
        }

        void go(Hop<T> hop) {
            leave(hop.own);
            try {
                running = client.sendAsync(hop.sent(), hop, pushed);
            } catch (RuntimeException error) {
                arrive(hop.own);
                throw error;
            }
            if (isDone()) {
                running.cancel(true);
            }
            running.whenComplete((response, error) -> {
                arrive(hop.own);
                try {
                    goOn(hop, response, error);
                } catch (RuntimeException failure) {
                    completeExceptionally(failure);
                }
            });
        }

        private void goOn(Hop<T> hop, HttpResponse<T> response, Throwable error) {
            if (error != null) {
                completeExceptionally(error);
            } else if (hop.next == null) {
                complete(hop.received(response));
            } else if (!isDone()) {
                go(new Hop<>(hop, hop.received(response)));
            }
        }

        @Override
        public boolean cancel(boolean interrupts) {
            boolean isCanceled = super.cancel(interrupts);
            running.cancel(interrupts);
            return isCanceled;
        }
    }

    /** One request, whose response may lead to the next one. */
    private final class Hop<T> implements BodyHandler<T> {
        private final HttpRequest request;
        private final BodyHandler<T> handler;
        private final Recorder own;
        private final HttpResponse<T> before;
        private final int number;
        /** Where the response leads, if it is a redirect that is followed. */
        private volatile HttpRequest next;

        Hop(HttpRequest request, BodyHandler<T> handler) {
            this.request = request;
            this.handler = Objects.requireNonNull(handler);
            this.own = Objects.requireNonNullElse(Recorder.current(), recorder);
            this.before = null;
            this.number = 1;
        }

        Hop(Hop<T> last, HttpResponse<T> response) {
            this.request = last.next;
            this.handler = last.handler;
            this.own = last.own;
            this.before = response;
            this.number = last.number + 1;
        }

        /** The request with its id. */
        HttpRequest sent() {
            HttpRequest.Builder builder =
                    HttpRequest.newBuilder(request, (name, value) -> !name.equalsIgnoreCase(Faults.REQUEST));
            String id = faults.send(own);
            return (id == null ? builder : builder.setHeader(Faults.REQUEST, id)).build();
        }

        /** The head of the response has come. */
        @Override
        public BodySubscriber<T> apply(ResponseInfo response) {
            faults.receive(own, response.headers().firstValue(Faults.RESPONSE).orElse(null));
            next = number < MOST_REQUESTS ? redirected(request, response) : null;
            return next == null ? handler.apply(response) : BodySubscribers.replacing(null);
        }

        HttpResponse<T> received(HttpResponse<T> response) {
            return new Received<>(response, request, before == null ? response.previousResponse() : Optional.of(before));
        }
    }

    /** The request to which this response leads, if it is followed. */
    private HttpRequest redirected(HttpRequest request, ResponseInfo response) {
        Optional<String> location = response.headers().firstValue("Location");
        int status = response.statusCode();
        if (redirects == Redirect.NEVER || !REDIRECTING.contains(status) || location.isEmpty()) {
            return null;
        }
        URI from = request.uri();
        URI to = from.resolve(location.get());
        boolean isSameScheme = from.getScheme().equalsIgnoreCase(to.getScheme());
        if (redirects == Redirect.NORMAL && !isSameScheme && !"https".equalsIgnoreCase(to.getScheme())) {
            return null;
        }
        boolean isSameServer = isSameScheme && Objects.equals(from.getRawAuthority(), to.getRawAuthority());
        HttpRequest.Builder builder =
                HttpRequest.newBuilder(request, (name, value) -> isSameServer || !isSecret(name)).uri(to);
        boolean isGet = status == 303 || status < 303 && request.method().equals("POST");
        return (isGet ? builder.GET() : builder).build();
    }

    /** What isn't told another server. */
    private static boolean isSecret(String header) {
        return header.equalsIgnoreCase("Authorization") || header.equalsIgnoreCase("Cookie");
    }

    /** A response that has no header of ours any more, so that a proxy doesn't pass on what it has received itself. */
    private static final class Received<T> implements HttpResponse<T> {
        private final HttpResponse<T> response;
        private final HttpRequest request;
        private final Optional<HttpResponse<T>> before;
        private final HttpHeaders headers;

        Received(HttpResponse<T> response, HttpRequest request, Optional<HttpResponse<T>> before) {
            this.response = response;
            this.request = request;
            this.before = before;
            headers = HttpHeaders.of(response.headers().map(),
                    (name, value) -> !name.equalsIgnoreCase(Faults.RESPONSE));
        }

        @Override
        public int statusCode() {
            return response.statusCode();
        }

        @Override
        public HttpRequest request() {
            return request;
        }

        @Override
        public Optional<HttpResponse<T>> previousResponse() {
            return before;
        }

        @Override
        public HttpHeaders headers() {
            return headers;
        }

        @Override
        public T body() {
            return response.body();
        }

        @Override
        public Optional<SSLSession> sslSession() {
            return response.sslSession();
        }

        @Override
        public URI uri() {
            return response.uri();
        }

        @Override
        public HttpClient.Version version() {
            return response.version();
        }

        @Override
        public String toString() {
            return response.toString();
        }
    }

    @Override
    public WebSocket.Builder newWebSocketBuilder() {
        return client.newWebSocketBuilder();
    }

    @Override
    public Optional<CookieHandler> cookieHandler() {
        return client.cookieHandler();
    }

    @Override
    public Optional<Duration> connectTimeout() {
        return client.connectTimeout();
    }

    @Override
    public Redirect followRedirects() {
        return redirects;
    }

    @Override
    public Optional<ProxySelector> proxy() {
        return client.proxy();
    }

    @Override
    public SSLContext sslContext() {
        return client.sslContext();
    }

    @Override
    public SSLParameters sslParameters() {
        return client.sslParameters();
    }

    @Override
    public Optional<Authenticator> authenticator() {
        return client.authenticator();
    }

    @Override
    public HttpClient.Version version() {
        return client.version();
    }

    @Override
    public Optional<Executor> executor() {
        return client.executor();
    }
}
