package io.github.tickmarl.hdt.serve;

import java.io.ByteArrayOutputStream;
import java.io.IOException;
import java.io.OutputStream;
import java.nio.file.Files;
import java.nio.file.Path;

/** An answer that is kept until it is complete: in memory, or beyond 1 MiB in a temporary file. */
final class Spool extends OutputStream {
    private static final int IN_MEMORY = 1 << 20;
    private static final long MOST = 4L << 30;

    private ByteArrayOutputStream memory = new ByteArrayOutputStream();
    private Path file;
    private OutputStream out = memory;
    private long size;

    /** An answer has more bytes than are kept. */
    static final class TooLarge extends IOException {
        private static final long serialVersionUID = 1L;

        TooLarge() {
            super("the answer has more than " + (MOST >> 30) + " GiB");
        }
    }

    @Override
    public void write(int one) throws IOException {
        write(new byte[] {(byte) one}, 0, 1);
    }

    @Override
    public void write(byte[] bytes, int from, int length) throws IOException {
        size += length;
        if (size > MOST) {
            throw new TooLarge();
        }
        if (file == null && size > IN_MEMORY) {
            file = Files.createTempFile("tickmarl-", ".answer");
            out = new java.io.BufferedOutputStream(Files.newOutputStream(file), 1 << 16);
            memory.writeTo(out);
            memory = null;
        }
        out.write(bytes, from, length);
    }

    long size() {
        return size;
    }

    void copyTo(OutputStream to) throws IOException {
        out.flush();
        if (file == null) {
            memory.writeTo(to);
        } else {
            Files.copy(file, to);
        }
    }

    @Override
    public void close() throws IOException {
        out.close();
        if (file != null) {
            Files.deleteIfExists(file);
        }
    }
}
