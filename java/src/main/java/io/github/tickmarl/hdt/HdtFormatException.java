package io.github.tickmarl.hdt;

import java.io.IOException;

/** A file is not a valid HDT file: the first error, and its byte offset. docs/ERRORS.md describes each reason. */
public final class HdtFormatException extends IOException {
    private static final long serialVersionUID = 1L;

    /** The number of the error, 1 to 34 (c/hdt.h). */
    private final int reason;
    /** The byte offset of the error. */
    private final long offset;

    HdtFormatException(String file, int reason, String name, long offset) {
        super(file + " is not a valid HDT file: " + name + " at byte " + offset);
        this.reason = reason;
        this.offset = offset;
    }

    /**
     * The error.
     *
     * @return its number, 1 to 34, as in docs/FORMAT.md
     */
    public int reason() {
        return reason;
    }

    /**
     * Where the error is.
     *
     * @return the byte offset in the file, from 0
     */
    public long offset() {
        return offset;
    }
}
