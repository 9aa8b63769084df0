package io.github.tickmarl.hdt;

/**
 * The library libhdt.so can't be loaded. The jar has one for Linux on x86-64 with glibc; the system property
 * {@code tickmarl.library} gives the path of another one.
 */
public final class HdtLibraryException extends RuntimeException {
    private static final long serialVersionUID = 1L;

    HdtLibraryException(String message, Throwable cause) {
        super(message + " (the system property " + LibHdt.PROPERTY + " gives the path of libhdt.so)", cause);
    }
}
