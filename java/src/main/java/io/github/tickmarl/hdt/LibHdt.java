package io.github.tickmarl.hdt;

import com.sun.jna.Native;
import java.io.File;
import java.io.IOException;

/**
 * The calls of libhdt (c/hdt.h), by JNA's direct mapping. Pointers and sizes are long, as on 64-bit machines. Results
 * of 64 bits are unsigned there: an error, {@code >= HDT_CLOSED}, is negative here.
 */
final class LibHdt {
    static final long ABSENT = -1;
    static final long NO_MEMORY = -2;
    static final long CLOSED = -3;
    static final int DONE = 0;
    static final int OUT_OF_MEMORY = 255;

    /** The system property with the path of libhdt.so; without it the one in the jar is used. */
    static final String PROPERTY = "tickmarl.library";

    private static final String RESOURCE = "/io/github/tickmarl/hdt/linux-x86-64/libhdt.so";
    private static final int VERSION = 1 << 16 | 2; // with hdt_share

    private static boolean loaded;

    private LibHdt() {}

    /** Loads the library, unless it is loaded already. Each call throws the same until it is there. */
    static synchronized void load() {
        if (loaded) {
            return;
        }
        String path = System.getProperty(PROPERTY);
        String name = path == null ? "libhdt.so of the jar" : path;
        try {
            Native.register(LibHdt.class, path == null ? extracted().getPath() : new File(path).getCanonicalPath());
            check(hdt_version(), name);
        } catch (IOException | UnsatisfiedLinkError | NoClassDefFoundError error) {
            throw new HdtLibraryException("can't load " + name + ": " + error.getMessage(), error);
        }
        loaded = true;
    }

    private static File extracted() throws IOException {
        return Native.extractFromResourcePath(RESOURCE, LibHdt.class.getClassLoader());
    }

    private static void check(int version, String name) {
        if (version >>> 16 != VERSION >>> 16 || version < VERSION) {
            String wanted = (VERSION >>> 16) + "." + (VERSION & 0xFFFF);
            String found = (version >>> 16) + "." + (version & 0xFFFF);
            throw new HdtLibraryException(name + " has version " + found + ", not " + wanted + " or a later 1.x", null);
        }
    }

    static native void hdt_open(long bytes, long length, long graph, long verdict);

    static native void hdt_close(long graph);

    static native int hdt_share(long graph, long other);

    static native long hdt_len(long graph);

    static native long hdt_count(long graph, int role);

    static native long hdt_number(long graph, int role, long string, long length);

    static native long hdt_strings(long graph, int role, long numbers, long count, long out, long ends, long room);

    static native long hdt_page(long graph, long pattern, long from, long out, long room, long next);

    static native long hdt_pattern_matching(long graph, long pattern);

    static native long hdt_header(long graph, long out, long room);

    static native long hdt_reason_name(int reason, long out, long room);

    static native int hdt_version();

    static native void hdt_free(long bytes);
}
