package io.github.tickmarl.hdt;

import com.sun.jna.Native;
import com.sun.jna.Pointer;
import java.nio.ByteBuffer;
import java.nio.ByteOrder;
import java.nio.LongBuffer;
import java.nio.charset.StandardCharsets;

/** A handle of a graph of libhdt with the memory of its calls. It serves one call at a time. */
final class Handle {
    // Offsets in `fields`, by the layouts of c/hdt.h: an hdt_graph, an hdt_pattern, an hdt_bytes, a number, a verdict.
    private static final int PATTERN = 16;
    private static final int PART = 32; // bytes of a part: kind, id, string, len
    private static final int MADE = PATTERN + 3 * PART;
    private static final int NEXT = MADE + 32;
    private static final int VERDICT = NEXT + 8;
    private static final int SIZE = VERDICT + 56 + 128; // with room so that handles share no cache line
    private static final int FIRST_ROOM = 3 * 64;

    private final ByteBuffer fields = direct(SIZE);
    private final long at = address(fields);
    private LongBuffer numbers = longs(FIRST_ROOM);
    private LongBuffer ends = longs(64);
    private ByteBuffer text = direct(1024);

    Handle() {
        for (int role = 0; role < 3; role++) {
            fields.putLong(PATTERN + PART * role + 16, at); // no string is read, but its address may not be null
        }
    }

    private static ByteBuffer direct(int size) {
        return ByteBuffer.allocateDirect(size).order(ByteOrder.nativeOrder());
    }

    private static LongBuffer longs(int count) {
        return direct(8 * count).asLongBuffer();
    }

    private static long address(java.nio.Buffer buffer) {
        return Pointer.nativeValue(Native.getDirectBufferPointer(buffer));
    }

    /** Opens the graph. Returns the reason, 0 if it is valid. */
    int open(FileBytes bytes) {
        LibHdt.hdt_open(bytes.address, bytes.length, at, at + VERDICT);
        return fields.getInt(VERDICT);
    }

    long errorOffset() {
        return fields.getLong(VERDICT + 8);
    }

    String errorName(int reason) {
        long length = LibHdt.hdt_reason_name(reason, address(text), text.capacity());
        if (length < 0) {
            return "reason " + reason;
        }
        byte[] name = new byte[(int) length];
        text.get(0, name);
        return new String(name, StandardCharsets.US_ASCII);
    }

    /** A count of the verdict: triples; strings that are shared, only subjects, predicates, only objects. */
    long verdictCount(int which) {
        return fields.getLong(VERDICT + 16 + 8 * which);
    }

    /** Opens another handle of the same graph. */
    Handle share() {
        Handle other = new Handle();
        if (LibHdt.hdt_share(at, other.at) != LibHdt.DONE) {
            throw new OutOfMemoryError("libhdt: no memory for a handle");
        }
        return other;
    }

    void close() {
        LibHdt.hdt_close(at);
        LibHdt.hdt_free(at + MADE);
    }

    private void pattern(long s, long p, long o) {
        part(0, s);
        part(1, p);
        part(2, o);
    }

    private void part(int role, long id) {
        fields.putInt(PATTERN + PART * role, id == HdtFile.ANY ? 0 : 1);
        fields.putLong(PATTERN + PART * role + 8, id);
    }

    /** See {@link HdtFile#page}. */
    int page(long s, long p, long o, long from, int most, long[] out) {
        if (numbers.capacity() < 3 * most) {
            numbers = longs(3 * most);
        }
        pattern(s, p, o);
        long found = checked(LibHdt.hdt_page(at, at + PATTERN, from, address(numbers), most, at + NEXT));
        numbers.get(0, out, 0, 3 * (int) found);
        out[3 * most] = fields.getLong(NEXT);
        return (int) found;
    }

    long count(long s, long p, long o) {
        pattern(s, p, o);
        return checked(LibHdt.hdt_pattern_matching(at, at + PATTERN));
    }

    long number(int role, byte[] string) {
        put(string);
        long id = LibHdt.hdt_number(at, role, address(text), string.length);
        return id < 0 ? HdtFile.NONE : id;
    }

    private void put(byte[] string) {
        if (text.capacity() < string.length) {
            text = direct(string.length);
        }
        text.put(0, string);
    }

    /** The strings of these IDs, from index `from` to before `to`, into the same places of `out`. */
    void strings(int role, long[] ids, int from, int to, String[] out) {
        int count = to - from;
        if (numbers.capacity() < count) {
            numbers = longs(count);
        }
        if (ends.capacity() < count) {
            ends = longs(count);
        }
        numbers.put(0, ids, from, count);
        long total = LibHdt.hdt_strings(at, role, address(numbers), count, at + MADE, address(ends), count);
        if (total == LibHdt.ABSENT) {
            throw new IllegalArgumentException("an ID that no string has");
        }
        decode(checked(total), count, from, out);
    }

    private void decode(long total, int count, int from, String[] out) {
        Pointer made = new Pointer(fields.getLong(MADE));
        byte[] all = new byte[0];
        long begin = 0; // of `all`
        for (int i = 0; i < count; i++) {
            long start = i == 0 ? 0 : ends.get(i - 1);
            int length = Math.toIntExact(ends.get(i) - start);
            if (start + length > begin + all.length) {
                begin = start;
                all = new byte[(int) Math.max(length, Math.min(total - start, 1 << 20))];
                made.read(begin, all, 0, all.length);
            }
            out[from + i] = new String(all, (int) (start - begin), length, StandardCharsets.UTF_8);
        }
    }

    byte[] header() {
        long length = checked(LibHdt.hdt_header(at, address(text), 0));
        byte[] all = new byte[Math.toIntExact(length)];
        put(all);
        LibHdt.hdt_header(at, address(text), length);
        text.get(0, all);
        return all;
    }

    private static long checked(long result) {
        if (result == LibHdt.NO_MEMORY) {
            throw new OutOfMemoryError("libhdt: out of memory");
        }
        if (result < 0) {
            throw new IllegalStateException("libhdt: error " + result);
        }
        return result;
    }
}
