package monitor.http;

import java.io.IOException;
import java.util.LinkedHashMap;
import java.util.Map;
import java.util.function.Consumer;
import java.util.regex.Matcher;
import java.util.regex.Pattern;
import monitor.Recorder;

/** Records the requests that come to a server, and their responses: what the filters have in common. */
final class ServerSide {
    private static final Pattern MADE_ID = Pattern.compile("([A-Za-z_][A-Za-z0-9_]*)-[0-9]+");
    private static final Pattern TRACE_PARENT =
            Pattern.compile("[0-9a-f]{2}-(?!0{32})([0-9a-f]{32})-(?!0{16})([0-9a-f]{16})-[0-9a-f]{2}(?:-.*)?");

    private final Faults faults = new Faults();
    private final Recorder recorder;
    private final Map<String, Recorder> bySender = new LinkedHashMap<>();
    private boolean isByClient;

    ServerSide(Recorder recorder, boolean isByClient) {
        this.recorder = recorder;
        this.isByClient = isByClient;
    }

    boolean isRecording() {
        return recorder != null;
    }

    /** A request has come with these headers, of which any may be null. */
    Exchange arrived(String id, String traceParent) {
        if (Faults.isId(id)) {
            Recorder own = recorderFor(id);
            faults.receive(own, id);
            return new Exchange(own, true);
        }
        Matcher span = TRACE_PARENT.matcher(traceParent == null ? "" : traceParent);
        if (span.matches()) {
            faults.receive(recorder, span.group(1) + "-" + span.group(2));
        }
        return new Exchange(recorder, false);
    }

    /** The recorder of the client that has sent the message with this id. */
    private synchronized Recorder recorderFor(String id) {
        Matcher made = MADE_ID.matcher(id);
        if (!made.matches()) {
            return recorder;
        }
        String client = made.group(1);
        if (!bySender.containsKey(client) && isByClient) {
            faults.attempt(() -> begin(client));
            isByClient = bySender.containsKey(client); // a strand that can't be begun isn't tried again
        }
        return bySender.getOrDefault(client, recorder);
    }

    private void begin(String client) throws IOException {
        bySender.put(client, recorder.strand(recorder.process() + "_" + client));
    }

    /** Ends the strands, and records that the process has waited for them. */
    synchronized void join() {
        for (Recorder strand : bySender.values()) {
            strand.end();
            recorder.join(strand);
        }
        isByClient = false;
        bySender.clear();
    }

    /** A request that has come, and its response, if that is to be recorded. */
    final class Exchange {
        private final Recorder own;
        private final boolean isAnswered;
        private boolean hasLeft;

        Exchange(Recorder own, boolean isAnswered) {
            this.own = own;
            this.isAnswered = isAnswered;
        }

        Recorder recorder() {
            return own;
        }

        boolean isAnswered() {
            return isAnswered;
        }

        /** The response is about to leave: records its send, at the first call, and hands over its id. */
        synchronized void leave(Consumer<String> header) {
            if (hasLeft) {
                return;
            }
            hasLeft = true;
            String id = faults.send(own);
            if (id != null) {
                header.accept(id);
            }
        }
    }
}
