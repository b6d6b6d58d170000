// SPDX-License-Identifier: MIT OR Apache-2.0
package bcp47;

import java.lang.ref.Cleaner;
import java.util.concurrent.atomic.AtomicLong;
import java.util.function.LongConsumer;
import java.util.function.LongFunction;

/** What is open in the library, and how many calls are under way on it. Once it is closed, the last of them frees it. */
final class Held {
    private static final Cleaner CLEANER = Cleaner.create();
    private static final long CLOSED = 1L << 32;

    private final String name;
    private final long address;
    private final LongConsumer free;
    private final AtomicLong calls = new AtomicLong();
    private final Cleaner.Cleanable cleanable;

    /** What an object opened, which is closed where the object is collected. */
    Held(Object owner, String name, long address, LongConsumer free) {
        this.name = name;
        this.address = address;
        this.free = free;
        cleanable = CLEANER.register(owner, this::closeOnce);
    }

    /** What a call answers, which has it until then. */
    <T> T ask(LongFunction<T> call) {
        long count;
        do {
            count = calls.get();
            if (count >= CLOSED) {
                throw new IllegalStateException(name + " is closed: keep it open until the last call, or make another");
            }
        } while (!calls.compareAndSet(count, count + 1));
        try {
            return call.apply(address);
        } finally {
            if (calls.decrementAndGet() == CLOSED) {
                free.accept(address);
            }
        }
    }

    boolean isClosed() {
        return calls.get() >= CLOSED;
    }

    void close() {
        cleanable.clean();
    }

    private void closeOnce() {
        if (calls.getAndAdd(CLOSED) == 0) {
            free.accept(address);
        }
    }
}
