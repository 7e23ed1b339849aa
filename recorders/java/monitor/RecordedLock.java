package monitor;

import java.util.Date;
import java.util.concurrent.TimeUnit;
import java.util.concurrent.locks.Condition;
import java.util.concurrent.locks.Lock;
import java.util.concurrent.locks.ReentrantLock;

/**
 * A {@link ReentrantLock} whose release is a message to whoever acquires it next: a send of the
 * {@link Recorder#current() current recorder} and a receipt, if that is another one. So what the lock keeps apart is kept
 * apart in the recording. But the order in which it was acquired is a cause then, and no other order is judged.
 *
 * <p>A thread that holds it may acquire it again, which records nothing. Waiting for a condition releases it, and
 * acquires it again. A thread without a current recorder records nothing.
 *
 * <p>If the receipt is refused, by a {@link Recorder.NotRecordedException}, the lock isn't held, unless a condition was
 * waited for. It is released whatever becomes of the send.
 */
public final class RecordedLock implements Lock {
    private final ReentrantLock lock;
    /** Who has sent the message of the last release, and its id; null if it was received. */
    private Recorder sender;
    private String sent;

    /** A lock that is free. */
    public RecordedLock() {
        this(false);
    }

    /** The same, which those who wait get in their order if it is to be fair. */
    public RecordedLock(boolean isFair) {
        lock = new ReentrantLock(isFair);
    }

    @Override
    public void lock() {
        lock.lock();
        begin();
    }

    @Override
    public void lockInterruptibly() throws InterruptedException {
        lock.lockInterruptibly();
        begin();
    }

    @Override
    public boolean tryLock() {
        return lock.tryLock() && begin();
    }

    @Override
    public boolean tryLock(long time, TimeUnit unit) throws InterruptedException {
        return lock.tryLock(time, unit) && begin();
    }

    @Override
    public void unlock() {
        try {
            if (lock.getHoldCount() == 1) {
                send();
            }
        } finally {
            lock.unlock();
        }
    }

    /** Whether a thread holds it. */
    public boolean isLocked() {
        return lock.isLocked();
    }

    /** Whether this thread holds it. */
    public boolean isHeldByCurrentThread() {
        return lock.isHeldByCurrentThread();
    }

    @Override
    public Condition newCondition() {
        return new Waiting(lock.newCondition());
    }

    /** This thread has acquired it, and receives what came with it. */
    private boolean begin() {
        try {
            if (lock.getHoldCount() == 1) {
                receive();
            }
            return true;
        } catch (Throwable error) {
            lock.unlock();
            throw error;
        }
    }

    private void receive() {
        Recorder recorder = Recorder.current();
        if (recorder != null && sent != null && sender != recorder) {
            recorder.receive(sent);
            sender = null;
            sent = null;
        }
    }

    private void send() {
        Recorder recorder = Recorder.current();
        if (recorder != null) {
            sent = recorder.send();
            sender = recorder;
        }
    }

    /** A condition of the lock. */
    private final class Waiting implements Condition {
        private final Condition condition;

        Waiting(Condition condition) {
            this.condition = condition;
        }

        /** The lock is about to be released, if this thread holds it. */
        private void release() {
            if (lock.isHeldByCurrentThread()) {
                send();
            }
        }

        /** The lock is held again, if it was. */
        private void acquired() {
            if (lock.isHeldByCurrentThread()) {
                receive();
            }
        }

        @Override
        public void await() throws InterruptedException {
            release();
            try {
                condition.await();
            } finally {
                acquired();
            }
        }

        @Override
        public void awaitUninterruptibly() {
            release();
            try {
                condition.awaitUninterruptibly();
            } finally {
                acquired();
            }
        }

        @Override
        public long awaitNanos(long nanoseconds) throws InterruptedException {
            release();
            try {
                return condition.awaitNanos(nanoseconds);
            } finally {
                acquired();
            }
        }

        @Override
        public boolean await(long time, TimeUnit unit) throws InterruptedException {
            release();
            try {
                return condition.await(time, unit);
            } finally {
                acquired();
            }
        }

        @Override
        public boolean awaitUntil(Date deadline) throws InterruptedException {
            release();
            try {
                return condition.awaitUntil(deadline);
            } finally {
                acquired();
            }
        }

        @Override
        public void signal() {
            condition.signal();
        }

        @Override
        public void signalAll() {
            condition.signalAll();
        }
    }
}
