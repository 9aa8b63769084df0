package io.github.tickmarl.hdt;

import java.util.concurrent.atomic.AtomicInteger;
import java.util.concurrent.atomic.AtomicReferenceArray;

/**
 * The handles of a file that no call uses. A call takes one out and gives it back, without a lock; if there is none, it
 * makes one. The last handle that is closed frees the bytes of the file.
 */
final class Handles {
    private static final int SLOTS = 64;
    private static final int APART = 16; // references of a cache line

    private final AtomicReferenceArray<Handle> free = new AtomicReferenceArray<>(SLOTS * APART);
    private final AtomicInteger open = new AtomicInteger(1);
    private final Handle root; // only shared from, under the lock
    private final FileBytes bytes;
    private volatile boolean closed;

    Handles(Handle root, FileBytes bytes) {
        this.root = root;
        this.bytes = bytes;
    }

    boolean isClosed() {
        return closed;
    }

    private static int slot() {
        return (int) (Thread.currentThread().getId() % SLOTS) * APART;
    }

    Handle take() {
        if (closed) {
            throw new IllegalStateException("the HDT file is closed");
        }
        Handle handle = free.getAndSet(slot(), null);
        return handle != null ? handle : made();
    }

    private synchronized Handle made() {
        if (closed) {
            throw new IllegalStateException("the HDT file is closed");
        }
        Handle handle = root.share();
        open.incrementAndGet();
        return handle;
    }

    void give(Handle handle) {
        int slot = slot();
        Handle other = free.getAndSet(slot, handle);
        if (other != null) {
            ended(other);
        }
        // (close() either finds the handle in its slot, or has set this before)
        if (closed) {
            endFree(slot);
        }
    }

    private void endFree(int slot) {
        Handle handle = free.getAndSet(slot, null);
        if (handle != null) {
            ended(handle);
        }
    }

    private void ended(Handle handle) {
        handle.close();
        if (open.decrementAndGet() == 0) {
            bytes.free();
        }
    }

    synchronized void close() {
        if (closed) {
            return;
        }
        closed = true;
        for (int slot = 0; slot < SLOTS * APART; slot += APART) {
            endFree(slot);
        }
        ended(root);
    }
}
