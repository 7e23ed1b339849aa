package monitor;

import java.util.AbstractQueue;
import java.util.Collection;
import java.util.Iterator;
import java.util.Objects;
import java.util.concurrent.BlockingQueue;
import java.util.concurrent.LinkedBlockingQueue;
import java.util.concurrent.TimeUnit;

/**
 * A queue between threads, whose elements are messages: to put one in is a send of the
 * {@link Recorder#current() current recorder}, before the queue has it, and to take it out a receipt, if that is another
 * recorder. What no recorder puts in or takes out is no message. What a queue has no room for was sent all the same, and
 * lost. To look at elements without taking them out records nothing.
 *
 * <p>What a queue tells who puts in, as that there is room again, isn't recorded: if that is to order anything, put a
 * message for it into another queue. If a receipt is refused, by a {@link Recorder.NotRecordedException}, the element is
 * lost with it.
 */
public final class RecordedQueue<E> extends AbstractQueue<E> implements BlockingQueue<E> {
    private final BlockingQueue<Carried<E>> queue;

    /** An element with who has sent it and the id of the message; these are null if no recorder has. */
    private record Carried<E>(E element, Recorder sender, String id) {
    }

    /** A queue that has room for whatever comes. */
    public RecordedQueue() {
        this(Integer.MAX_VALUE);
    }

    /** A queue that has room for so many elements, at least 1. */
    public RecordedQueue(int capacity) {
        queue = new LinkedBlockingQueue<>(capacity);
    }

    @Override
    public void put(E element) throws InterruptedException {
        queue.put(carry(element));
    }

    @Override
    public boolean offer(E element) {
        return queue.offer(carry(element));
    }

    @Override
    public boolean offer(E element, long time, TimeUnit unit) throws InterruptedException {
        return queue.offer(carry(element), time, unit);
    }

    @Override
    public E take() throws InterruptedException {
        return taken(queue.take());
    }

    @Override
    public E poll() {
        return taken(queue.poll());
    }

    @Override
    public E poll(long time, TimeUnit unit) throws InterruptedException {
        return taken(queue.poll(time, unit));
    }

    @Override
    public E peek() {
        Carried<E> carried = queue.peek();
        return carried == null ? null : carried.element();
    }

    @Override
    public int remainingCapacity() {
        return queue.remainingCapacity();
    }

    @Override
    public int drainTo(Collection<? super E> to) {
        return drainTo(to, Integer.MAX_VALUE);
    }

    @Override
    public int drainTo(Collection<? super E> to, int most) {
        if (Objects.requireNonNull(to) == this) {
            throw new IllegalArgumentException("a queue can't be drained to itself");
        }
        int count = 0;
        while (count < most) {
            E element = poll();
            if (element == null) {
                break;
            }
            to.add(element);
            count++;
        }
        return count;
    }

    @Override
    public int size() {
        return queue.size();
    }

    @Override
    public Iterator<E> iterator() {
        Iterator<Carried<E>> all = queue.iterator();
        return new Iterator<>() {
            @Override
            public boolean hasNext() {
                return all.hasNext();
            }

            @Override
            public E next() {
                return all.next().element();
            }

            @Override
            public void remove() {
                all.remove();
            }
        };
    }

    private static <E> Carried<E> carry(E element) {
        Objects.requireNonNull(element);
        Recorder recorder = Recorder.current();
        return new Carried<>(element, recorder, recorder == null ? null : recorder.send());
    }

    private static <E> E taken(Carried<E> carried) {
        if (carried == null) {
            return null;
        }
        Recorder recorder = Recorder.current();
        if (recorder != null && carried.id() != null && carried.sender() != recorder) {
            recorder.receive(carried.id());
        }
        return carried.element();
    }
}
