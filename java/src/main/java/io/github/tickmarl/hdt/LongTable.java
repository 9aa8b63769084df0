package io.github.tickmarl.hdt;

import java.util.Arrays;

/** A set of keys of a few numbers each, in the order in which they were added. */
final class LongTable {
    private static final int FIRST = 16; // keys, a power of two

    private final int width;
    private long[] keys;
    private int[] slots = new int[2 * FIRST]; // the index of a key and 1, or 0
    private int size;

    LongTable(int width) {
        this.width = width;
        keys = new long[FIRST * width];
    }

    int size() {
        return size;
    }

    /** A number of the key with an index. */
    long get(int index, int place) {
        return keys[index * width + place];
    }

    /** Adds a key, unless it is there. Returns its index, which is that of the size before if it is new. */
    int add(long[] key) {
        int slot = slot(key);
        if (slots[slot] != 0) {
            return slots[slot] - 1;
        }
        if (2 * size == slots.length) {
            grow();
            slot = slot(key);
        }
        if (width > 0 && (size + 1) * width > keys.length) {
            keys = Arrays.copyOf(keys, Math.multiplyExact(2, keys.length));
        }
        System.arraycopy(key, 0, keys, size * width, width);
        slots[slot] = ++size;
        return size - 1;
    }

    boolean contains(long[] key) {
        return slots[slot(key)] != 0;
    }

    /** The slot that has a key, or the free one that it belongs to. */
    private int slot(long[] key) {
        int mask = slots.length - 1;
        int slot = hash(key, 0) & mask;
        while (slots[slot] != 0
            && !Arrays.equals(keys, (slots[slot] - 1) * width, slots[slot] * width, key, 0, width)) {
            slot = slot + 1 & mask;
        }
        return slot;
    }

    private int hash(long[] from, int at) {
        long hash = 0;
        for (int i = 0; i < width; i++) {
            hash = (hash ^ from[at + i]) * 0x9E3779B97F4A7C15L;
            hash ^= hash >>> 29;
        }
        return (int) (hash ^ hash >>> 32);
    }

    private void grow() {
        slots = new int[Math.multiplyExact(2, slots.length)];
        int mask = slots.length - 1;
        for (int index = 0; index < size; index++) {
            int slot = hash(keys, index * width) & mask;
            while (slots[slot] != 0) {
                slot = slot + 1 & mask;
            }
            slots[slot] = index + 1;
        }
    }
}
