package monitor.http;

import java.io.IOException;
import java.util.concurrent.atomic.AtomicBoolean;
import java.util.regex.Pattern;
import monitor.Recorder;
import monitor.Recorder.NotRecordedException;
import monitor.Recorder.Reason;

/** Makes calls of recorders none of which fails the program, and says once what was refused or has failed. */
final class Faults {
    /** The headers in which the ids of messages travel. */
    static final String REQUEST = "Monitor-Request";
    static final String RESPONSE = "Monitor-Response";

    private static final Pattern ANY_ID = Pattern.compile("[ -~]{1,64}");
    private final AtomicBoolean isTold = new AtomicBoolean();

    /** A call of a recorder. */
    interface Call {
        void make() throws IOException;
    }

    /** Whether this is the id of a message: printable ASCII within the limit. */
    static boolean isId(String text) {
        return text != null && ANY_ID.matcher(text).matches();
    }

    void attempt(Call call) {
        try {
            call.make();
        } catch (NotRecordedException error) {
            // A message with an id that has come before is its second copy, which isn't recorded.
            if (error.reason() != Reason.ID_TWICE) {
                tell(error);
            }
        } catch (IOException | RuntimeException error) {
            tell(error);
        }
    }

    private void tell(Exception error) {
        if (isTold.compareAndSet(false, true)) {
            System.err.println("monitor.http: " + error + ". Requests go on, and no more such errors are told.");
        }
    }

    /** The id of a message that is about to leave, or null. */
    String send(Recorder recorder) {
        String[] id = new String[1];
        attempt(() -> id[0] = recorder.send());
        return id[0];
    }

    /** A message has come; if it has no id, nothing is recorded. */
    void receive(Recorder recorder, String id) {
        if (isId(id)) {
            attempt(() -> recorder.receive(id));
        }
    }
}
