package io.github.tickmarl.hdt;

import static org.junit.jupiter.api.Assertions.assertArrayEquals;
import static org.junit.jupiter.api.Assertions.assertEquals;
import static org.junit.jupiter.api.Assertions.assertFalse;
import static org.junit.jupiter.api.Assertions.assertThrows;
import static org.junit.jupiter.api.Assertions.assertTrue;

import java.io.IOException;
import java.nio.file.FileSystemException;
import java.nio.file.Files;
import java.nio.file.NoSuchFileException;
import java.nio.file.Path;
import java.nio.file.StandardCopyOption;
import java.util.ArrayList;
import java.util.Arrays;
import java.util.List;
import java.util.concurrent.ExecutorService;
import java.util.concurrent.Executors;
import java.util.concurrent.Future;
import java.util.concurrent.atomic.AtomicInteger;
import org.junit.jupiter.api.Test;
import org.junit.jupiter.api.io.TempDir;

/** Files: IDs, pages, counts, strings; threads; files that are damaged, missing or replaced. */
class HdtFileTest {
    private static final String THREE = "<u:a> <u:p> <u:b> .\n<u:b> <u:p> <u:a> .\n<u:b> <u:q> \"x\"@en .\n";

    @TempDir
    Path folder;

    private HdtFile three() throws IOException {
        return HdtFile.open(Built.file(folder, "three", THREE));
    }

    @Test
    void countsAndStrings() throws IOException {
        try (HdtFile file = three()) {
            assertEquals(3, file.triples());
            assertEquals(2, file.shared());
            assertEquals(2, file.strings(Role.SUBJECT));
            assertEquals(2, file.strings(Role.PREDICATE));
            assertEquals(3, file.strings(Role.OBJECT));
            assertArrayEquals(new String[] {"u:a", "u:b", "\"x\"@en"}, file.strings(Role.OBJECT, new long[] {1, 2, 3}));
            assertEquals("u:q", file.string(Role.PREDICATE, 2));
            assertEquals(3, file.number(Role.OBJECT, "\"x\"@en"));
            assertEquals(HdtFile.NONE, file.number(Role.SUBJECT, "\"x\"@en"));
            assertThrows(IllegalArgumentException.class, () -> file.string(Role.SUBJECT, 3));
            assertThrows(IllegalArgumentException.class, () -> file.string(Role.SUBJECT, 0));
            assertTrue(file.header().contains("http://"), file.header());
        }
    }

    @Test
    void pages() throws IOException {
        try (HdtFile file = three()) {
            long[] out = new long[7];
            assertEquals(2, file.page(0, 0, 0, 0, 2, out));
            assertArrayEquals(new long[] {1, 1, 2, 2, 1, 1, 2}, out);
            assertEquals(1, file.page(0, 0, 0, 2, 2, out));
            assertArrayEquals(new long[] {2, 2, 3}, Arrays.copyOf(out, 3));
            assertEquals(-1, out[6]);
            assertEquals(0, file.page(HdtFile.NONE, 0, 0, 0, 2, out));
            assertEquals(-1, out[6]);
            assertThrows(IllegalArgumentException.class, () -> file.page(0, 0, 0, 0, 3, out));
            assertThrows(IllegalArgumentException.class, () -> file.page(0, 0, 0, 0, 0, out));
            assertThrows(IllegalArgumentException.class, () -> file.page(0, 0, 0, -1, 1, out));
        }
    }

    @Test
    void counts() throws IOException {
        try (HdtFile file = three()) {
            assertEquals(2, file.count(0, 1, 0));
            assertEquals(2, file.count(0, 1, 0)); // kept
            assertEquals(2, file.count(2, 0, 0));
            assertEquals(1, file.count(2, 0, 3));
            assertEquals(0, file.count(0, 3, 0));
            assertEquals(0, file.count(0, HdtFile.NONE, 0));
        }
    }

    /** Half of a surrogate pair is no character, so it isn't the question mark that Java makes of it. */
    @Test
    void halvesOfPairs() throws IOException {
        try (HdtFile file = HdtFile.open(Built.file(folder, "odd", "<u:?> <u:p> \"\uD83D\uDE00?\" .\n"))) {
            assertEquals(1, file.number(Role.SUBJECT, "u:?"));
            assertEquals(1, file.number(Role.OBJECT, "\"\uD83D\uDE00?\""));
            for (String half : List.of("u:\uD83D", "u:\uDE00", "u:\uD83Dx")) {
                assertEquals(HdtFile.NONE, file.number(Role.SUBJECT, half));
            }
            assertEquals(HdtFile.NONE, file.number(Role.OBJECT, "\"\uD83D\uDE00\uDE00\""));
        }
    }

    @Test
    void waysToOpen() throws IOException {
        Path path = Built.file(folder, "three", THREE);
        try (HdtFile mapped = HdtFile.map(path); HdtFile read = HdtFile.read(path);
             HdtFile copied = HdtFile.of(Files.readAllBytes(path))) {
            for (HdtFile file : List.of(mapped, read, copied)) {
                assertEquals("u:b", file.string(Role.SUBJECT, 2));
            }
        }
    }

    @Test
    void closed() throws IOException {
        HdtFile file = three();
        assertEquals(2, file.count(0, 1, 0));
        assertFalse(file.isClosed());
        file.close();
        file.close();
        assertTrue(file.isClosed());
        assertThrows(IllegalStateException.class, () -> file.count(0, 1, 0));
        assertThrows(IllegalStateException.class, () -> file.string(Role.SUBJECT, 1));
        assertThrows(IllegalStateException.class, file::header);
        assertEquals(3, file.triples());
    }

    @Test
    void damaged() throws IOException {
        byte[] bytes = Files.readAllBytes(Built.file(folder, "three", THREE));
        bytes[bytes.length - 1] ^= 1;
        HdtFormatException error = assertThrows(HdtFormatException.class, () -> HdtFile.of(bytes));
        assertEquals(11, error.reason());
        assertTrue(error.offset() > 0 && error.offset() < bytes.length);
        assertTrue(error.getMessage().contains("Check32 at byte"), error.getMessage());
        Path path = folder.resolve("damaged.hdt");
        for (int length : new int[] {0, 1, 100, bytes.length - 1}) {
            Files.write(path, Arrays.copyOf(bytes, length));
            assertThrows(HdtFormatException.class, () -> HdtFile.open(path));
            error = assertThrows(HdtFormatException.class, () -> HdtFile.map(path));
            String wanted = path + " is not a valid HDT file: Truncated at";
            assertTrue(error.getMessage().startsWith(wanted), error.getMessage());
        }
    }

    @Test
    void missing() {
        Path path = folder.resolve("missing.hdt");
        assertThrows(NoSuchFileException.class, () -> HdtFile.open(path));
        assertThrows(NoSuchFileException.class, () -> HdtFile.map(path));
        assertThrows(FileSystemException.class, () -> HdtFile.open(folder));
        assertThrows(FileSystemException.class, () -> HdtFile.map(folder));
    }

    /** An open file stays as it was if another one takes its name. */
    @Test
    void replaced() throws IOException {
        Path path = Built.file(folder, "three", THREE);
        Path other = Built.file(folder, "other", "<u:c> <u:d> <u:e> .\n");
        try (HdtFile file = HdtFile.map(path)) {
            Files.move(other, path, StandardCopyOption.REPLACE_EXISTING);
            assertEquals("u:b", file.string(Role.SUBJECT, 2));
            try (HdtFile now = HdtFile.map(path)) {
                assertEquals(1, now.triples());
                assertEquals(3, file.triples());
            }
        }
    }

    /** Threads search at the same time, while one closes the file: each answer is right, or the file is closed. */
    @Test
    void threads() throws Exception {
        StringBuilder text = new StringBuilder();
        for (int i = 0; i < 2000; i++) {
            text.append("<u:s").append(i % 500).append("> <u:p> <u:o").append(i).append("> .\n");
        }
        Path path = Built.file(folder, "many", text.toString());
        for (int round = 0; round < 20; round++) {
            HdtFile file = HdtFile.open(path);
            AtomicInteger answers = new AtomicInteger();
            ExecutorService threads = Executors.newFixedThreadPool(8);
            List<Future<?>> all = new ArrayList<>();
            for (int t = 0; t < 8; t++) {
                long seed = t;
                all.add(threads.submit(() -> search(file, seed, answers)));
            }
            while (answers.get() < 500) {
                Thread.onSpinWait();
            }
            file.close();
            for (Future<?> it : all) {
                it.get();
            }
            threads.shutdown();
        }
    }

    private static void search(HdtFile file, long seed, AtomicInteger answers) {
        long[] out = new long[3 * 64 + 1];
        try {
            for (long i = seed;; i++) {
                long s = 1 + i % 500;
                assertEquals(4, file.page(s, 0, 0, 0, 64, out));
                assertEquals(s, out[0]);
                assertEquals(4, file.count(s, 0, 0));
                String string = file.string(Role.SUBJECT, s);
                assertEquals(s, file.number(Role.SUBJECT, string));
                answers.incrementAndGet();
            }
        } catch (IllegalStateException closed) {
            assertTrue(file.isClosed());
        }
    }

    /** A call that runs while the file is closed goes on, and what it gives back is freed then, with the file. */
    @Test
    void givenBackLate() throws IOException {
        Path path = Built.file(folder, "late", THREE);
        FileBytes bytes = FileBytes.mapped(path);
        Handle root = new Handle();
        assertEquals(LibHdt.DONE, root.open(bytes));
        Handles handles = new Handles(root, bytes);
        Handle taken = handles.take();
        handles.close();
        assertThrows(IllegalStateException.class, handles::take);
        assertEquals(2, taken.count(0, 1, 0));
        assertTrue(isMapped(path));
        handles.give(taken);
        assertThrows(IllegalStateException.class, () -> taken.count(0, 1, 0));
        assertFalse(isMapped(path));
    }

    private static boolean isMapped(Path path) throws IOException {
        return Files.readString(Path.of("/proc/self/maps")).contains(path.toString());
    }

    /** A file that nobody refers to is freed, and so are thousands of files. */
    @Test
    void manyFiles() throws IOException {
        Path path = Built.file(folder, "three", THREE);
        for (int i = 0; i < 3000; i++) {
            HdtFile file = i % 2 == 0 ? HdtFile.map(path) : HdtFile.read(path);
            assertEquals(2, file.count(0, 1, 0));
            if (i % 3 == 0) {
                file.close();
            }
        }
    }
}
