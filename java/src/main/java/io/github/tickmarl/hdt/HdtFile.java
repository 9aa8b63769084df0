package io.github.tickmarl.hdt;

import java.io.IOException;
import java.lang.ref.Cleaner;
import java.lang.ref.Reference;
import java.nio.charset.StandardCharsets;
import java.nio.file.Files;
import java.nio.file.Path;
import java.util.Arrays;
import java.util.concurrent.atomic.AtomicLongArray;

/**
 * An open HDT file: triples as IDs, and dictionary strings. IDs count from 1 in each {@link Role}. A dictionary string
 * is an IRI without brackets, a blank node with {@code _:}, or a literal with its quotes and without escapes.
 *
 * <pre>{@code
 * try (HdtFile file = HdtFile.open(Path.of("graph.hdt"))) {
 *     long p = file.number(Role.PREDICATE, "http://example.org/name");
 *     System.out.println(file.count(HdtFile.ANY, p, HdtFile.ANY));
 * }
 * }</pre>
 *
 * <p>Threads may share a file, and their calls run at the same time: each has a handle of libhdt for itself. A call
 * after {@link #close} throws IllegalStateException. A call without memory throws OutOfMemoryError, and may be made
 * again.
 */
public final class HdtFile implements AutoCloseable {
    /** A part of a pattern: any ID. */
    public static final long ANY = 0;
    /** The ID of a string that a role doesn't have. As a part of a pattern it matches nothing. */
    public static final long NONE = -1;
    /** The most triples of a page. */
    public static final int MOST = 4096;

    private static final long MAPPED = 64L << 20; // bytes: files of this size and more are mapped
    private static final int MOST_COUNTED = 1 << 20; // predicates whose counts are kept
    private static final Cleaner CLEANER = Cleaner.create();

    private final Handles handles;
    private final Cleaner.Cleanable cleanable;
    private final long triples;
    private final long shared;
    private final long subjects;
    private final long predicates;
    private final long objects;
    private final AtomicLongArray counted; // by predicate: its triples and 1, or 0

    private HdtFile(Handle root, FileBytes bytes) {
        triples = root.verdictCount(0);
        shared = root.verdictCount(1);
        subjects = shared + root.verdictCount(2);
        predicates = root.verdictCount(3);
        objects = shared + root.verdictCount(4);
        counted = new AtomicLongArray((int) Math.min(predicates + 1, MOST_COUNTED));
        Handles all = new Handles(root, bytes);
        handles = all;
        cleanable = CLEANER.register(this, all::close);
    }

    /**
     * Opens a file, which is validated: time and memory are linear in it. A file below 64 MiB is read, a larger one
     * mapped.
     *
     * @param path the file
     * @return the open file
     * @throws HdtFormatException if it is not a valid HDT file
     * @throws IOException if it can't be read; NoSuchFileException if it isn't there
     * @throws HdtLibraryException if libhdt.so can't be loaded
     */
    public static HdtFile open(Path path) throws IOException {
        return Files.exists(path) && Files.size(path) >= MAPPED ? map(path) : read(path);
    }

    /**
     * Opens a file, as {@link #open}, and maps it. Truncating a mapped file ends the JVM (SIGBUS): replace it by
     * rename.
     *
     * @param path the file
     * @return the open file
     * @throws IOException as {@link #open}
     */
    public static HdtFile map(Path path) throws IOException {
        LibHdt.load();
        return opened(FileBytes.mapped(path), path.toString());
    }

    /**
     * Opens a file, as {@link #open}, and reads it into memory outside the heap.
     *
     * @param path the file
     * @return the open file
     * @throws IOException as {@link #open}
     */
    public static HdtFile read(Path path) throws IOException {
        LibHdt.load();
        return opened(FileBytes.read(path), path.toString());
    }

    /**
     * Opens the bytes of a file, which are copied.
     *
     * @param bytes all bytes of the file
     * @return the open file
     * @throws HdtFormatException if it is not a valid HDT file
     * @throws HdtLibraryException if libhdt.so can't be loaded
     */
    public static HdtFile of(byte[] bytes) throws HdtFormatException {
        LibHdt.load();
        return opened(FileBytes.copyOf(bytes), "the array");
    }

    private static HdtFile opened(FileBytes bytes, String name) throws HdtFormatException {
        boolean done = false;
        try {
            Handle root = new Handle();
            int reason = root.open(bytes);
            if (reason == LibHdt.OUT_OF_MEMORY) {
                throw new OutOfMemoryError("libhdt: no memory to open " + name);
            }
            if (reason != LibHdt.DONE) {
                throw new HdtFormatException(name, reason, root.errorName(reason), root.errorOffset());
            }
            HdtFile file = new HdtFile(root, bytes);
            done = true;
            return file;
        } finally {
            if (!done) {
                bytes.free();
            }
        }
    }

    /**
     * The number of triples.
     *
     * @return the number, also after {@link #close}
     */
    public long triples() {
        return triples;
    }

    /**
     * The number of strings that a role has: its IDs are 1 to this.
     *
     * @param role the role
     * @return the number, also after {@link #close}
     */
    public long strings(Role role) {
        return role == Role.SUBJECT ? subjects : role == Role.PREDICATE ? predicates : objects;
    }

    /**
     * The number of strings that are subjects and objects. Their IDs are 1 to this, the same in both roles.
     *
     * @return the number, also after {@link #close}
     */
    public long shared() {
        return shared;
    }

    /**
     * Reads a page of the triples that match a pattern, in the order of the file: by subject, predicate, object. A page
     * is found by binary search. {@code 0} as {@code from}, and then each {@code out[3 * most]}, give all matches once.
     *
     * @param s the ID of the subject, {@link #ANY}, or one that no string has: then nothing matches
     * @param p the same of the predicate
     * @param o the same of the object
     * @param from the index of a triple of the file, from 0: matches before it are left out
     * @param most the most triples that are wanted, 1 to {@link #MOST}
     * @param out at least {@code 3 * most + 1} numbers. The first are set to the IDs of the triples, three each. The
     *     one at {@code 3 * most} is set to where the next page begins, or to -1 if there are no more matches
     * @return the number of triples, at most {@code most}
     */
    public int page(long s, long p, long o, long from, int most, long[] out) {
        if (most < 1 || most > MOST || from < 0 || out.length <= 3 * most) {
            throw new IllegalArgumentException("a page from " + from + " of " + most + " triples in " + out.length);
        }
        Handle handle = handles.take();
        try {
            return handle.page(s, p, o, from, most, out);
        } finally {
            give(handle);
        }
    }

    /**
     * The number of triples that match a pattern. Without a search if only a predicate is given and was counted before.
     *
     * @param s the ID of the subject, {@link #ANY}, or one that no string has: then nothing matches
     * @param p the same of the predicate
     * @param o the same of the object
     * @return the number
     */
    public long count(long s, long p, long o) {
        boolean isKept = s == ANY && o == ANY && p > 0 && p < counted.length();
        if (isKept && !handles.isClosed() && counted.get((int) p) > 0) {
            return counted.get((int) p) - 1;
        }
        Handle handle = handles.take();
        try {
            long count = handle.count(s, p, o);
            if (isKept) {
                counted.set((int) p, count + 1);
            }
            return count;
        } finally {
            give(handle);
        }
    }

    /**
     * The ID of a dictionary string: a binary search, and a scan of one block.
     *
     * @param role the role
     * @param string the dictionary string
     * @return the ID, from 1, or {@link #NONE}
     */
    public long number(Role role, String string) {
        byte[] utf8 = utf8(string);
        Handle handle = handles.take();
        try {
            return utf8 == null ? NONE : handle.number(role.ordinal(), utf8);
        } finally {
            give(handle);
        }
    }

    /** The bytes of a string, or null if it has half of a surrogate pair, which UTF-8 doesn't have. */
    private static byte[] utf8(String string) {
        for (int i = 0; i < string.length(); i++) {
            char c = string.charAt(i);
            if (Character.isSurrogate(c)) {
                if (Character.isLowSurrogate(c) || i + 1 == string.length()
                    || !Character.isLowSurrogate(string.charAt(++i))) {
                    return null;
                }
            }
        }
        return string.getBytes(StandardCharsets.UTF_8);
    }

    /**
     * The dictionary string with an ID: decodes a block up to it. {@link #strings(Role, long[])} is for many.
     *
     * @param role the role
     * @param id the ID
     * @return the string
     * @throws IllegalArgumentException if the role doesn't have the ID
     */
    public String string(Role role, long id) {
        return strings(role, new long[] {id})[0];
    }

    /**
     * The dictionary strings with these IDs. If they ascend, each block is decoded once: sort them.
     *
     * @param role the role
     * @param ids the IDs
     * @return their strings, in the same order
     * @throws IllegalArgumentException if the role doesn't have one of the IDs
     */
    public String[] strings(Role role, long[] ids) {
        String[] found = new String[ids.length];
        strings(role, ids, 0, ids.length, found);
        return found;
    }

    void strings(Role role, long[] ids, int from, int to, String[] out) {
        Handle handle = handles.take();
        try {
            for (int begin = from; begin < to; begin += MOST) {
                handle.strings(role.ordinal(), ids, begin, Math.min(to, begin + MOST), out);
            }
        } finally {
            give(handle);
        }
    }

    /**
     * The header of the file: N-Triples as a rule, but nothing checks it.
     *
     * @return its text
     */
    public String header() {
        Handle handle = handles.take();
        try {
            return new String(handle.header(), StandardCharsets.UTF_8);
        } finally {
            give(handle);
        }
    }

    private void give(Handle handle) {
        handles.give(handle);
        Reference.reachabilityFence(this);
    }

    /**
     * Whether {@link #close} was called.
     *
     * @return true if it was
     */
    public boolean isClosed() {
        return handles.isClosed();
    }

    /** Closes the file. Calls that other threads are in end as they would; the memory is freed after them. */
    @Override
    public void close() {
        cleanable.clean();
    }

    @Override
    public String toString() {
        return "HdtFile[" + triples + " triples, " + Arrays.toString(new long[] {subjects, predicates, objects}) + "]";
    }
}
