package io.github.tickmarl.hdt;

import com.sun.jna.LastErrorException;
import com.sun.jna.Native;
import com.sun.jna.Pointer;
import java.io.EOFException;
import java.io.IOException;
import java.nio.ByteBuffer;
import java.nio.channels.FileChannel;
import java.nio.file.FileSystemException;
import java.nio.file.Files;
import java.nio.file.NoSuchFileException;
import java.nio.file.Path;

/** The bytes of a file outside the heap, mapped or copied, until they are freed. */
final class FileBytes {
    private static final int PIECE = 1 << 26; // bytes that are copied at a time

    final long address;
    final long length;
    private final boolean isMapped;

    private FileBytes(long address, long length, boolean isMapped) {
        this.address = address;
        this.length = length;
        this.isMapped = isMapped;
    }

    /** libc's mmap: a MappedByteBuffer ends at 2 GiB. */
    private static final class LibC {
        static {
            Native.register(LibC.class, "c");
        }

        static final int READ_ONLY = 0;
        static final int CLOSE_ON_EXEC = 0x80000;
        static final int END = 2; // of lseek
        static final int PROT_READ = 1;
        static final int MAP_PRIVATE = 2;

        static native int open(String path, int flags) throws LastErrorException;

        static native long lseek(int descriptor, long offset, int from) throws LastErrorException;

        static native long mmap(long at, long length, int protection, int flags, int descriptor, long offset)
            throws LastErrorException;

        static native int munmap(long at, long length);

        static native int close(int descriptor);
    }

    /** Maps a file. If it is truncated meanwhile, the next access ends the JVM (SIGBUS): replace it by rename. */
    static FileBytes mapped(Path path) throws IOException {
        checked(path);
        int descriptor = -1;
        try {
            descriptor = LibC.open(path.toString(), LibC.READ_ONLY | LibC.CLOSE_ON_EXEC);
            long length = LibC.lseek(descriptor, 0, LibC.END);
            if (length == 0) {
                return allocated(0);
            }
            long at = LibC.mmap(0, length, LibC.PROT_READ, LibC.MAP_PRIVATE, descriptor, 0);
            return new FileBytes(at, length, true);
        } catch (LastErrorException error) {
            throw new FileSystemException(path.toString(), null, error.getMessage());
        } finally {
            if (descriptor >= 0) {
                LibC.close(descriptor);
            }
        }
    }

    /** Reads a file into memory. */
    static FileBytes read(Path path) throws IOException {
        checked(path);
        try (FileChannel channel = FileChannel.open(path)) {
            FileBytes all = allocated(channel.size());
            try {
                all.fill(channel, path);
            } catch (IOException | RuntimeException | Error error) {
                all.free();
                throw error;
            }
            return all;
        }
    }

    private void fill(FileChannel channel, Path path) throws IOException {
        for (long at = 0; at < length;) {
            ByteBuffer piece = new Pointer(address).getByteBuffer(at, Math.min(PIECE, length - at));
            int count = channel.read(piece);
            if (count < 0) {
                throw new EOFException(path + " was truncated while it was read");
            }
            at += count;
        }
    }

    static FileBytes copyOf(byte[] bytes) {
        FileBytes all = allocated(bytes.length);
        new Pointer(all.address).write(0, bytes, 0, bytes.length);
        return all;
    }

    private static FileBytes allocated(long length) {
        long address = Native.malloc(Math.max(1, length));
        if (address == 0) {
            throw new OutOfMemoryError("no memory for a file of " + length + " bytes");
        }
        return new FileBytes(address, length, false);
    }

    private static void checked(Path path) throws IOException {
        if (!Files.exists(path)) {
            throw new NoSuchFileException(path.toString());
        }
        if (Files.isDirectory(path)) {
            throw new FileSystemException(path.toString(), null, "is a directory");
        }
    }

    void free() {
        if (isMapped) {
            LibC.munmap(address, length);
        } else {
            Native.free(address);
        }
    }
}
