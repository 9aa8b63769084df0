package io.github.tickmarl.hdt;

import static org.junit.jupiter.api.Assertions.assertEquals;
import static org.junit.jupiter.api.Assertions.assertTrue;

import java.io.IOException;
import java.nio.charset.StandardCharsets;
import java.nio.file.Path;
import java.util.List;
import org.junit.jupiter.api.Test;
import org.junit.jupiter.api.io.TempDir;

/** A library that can't be loaded: one clear exception, each time. Another JVM tries, since this one has loaded it. */
class LibraryTest {
    @TempDir
    Path folder;

    /** What the other JVM runs: opens a file twice. */
    public static void main(String[] arguments) throws IOException {
        for (int i = 0; i < 2; i++) {
            try (HdtFile file = HdtFile.open(Path.of(arguments[0]))) {
                System.out.println(file.triples());
            } catch (HdtLibraryException error) {
                System.out.println(error.getMessage());
            }
        }
    }

    private String[] printed(String library) throws IOException {
        String path = Built.file(folder, "one", "<u:a> <u:p> <u:b> .\n").toString();
        Process other = new ProcessBuilder(List.of(
            Path.of(System.getProperty("java.home"), "bin", "java").toString(), "-Dtickmarl.library=" + library,
            "-cp", System.getProperty("java.class.path"), LibraryTest.class.getName(), path)).start();
        String out = new String(other.getInputStream().readAllBytes(), StandardCharsets.UTF_8);
        assertEquals("", new String(other.getErrorStream().readAllBytes(), StandardCharsets.UTF_8));
        return out.split("\n");
    }

    @Test
    void missing() throws IOException {
        String[] lines = printed("/nonexistent/libhdt.so");
        assertTrue(lines[0].startsWith("can't load /nonexistent/libhdt.so: "), lines[0]);
        String last = lines[lines.length - 1];
        assertTrue(last.endsWith("(the system property tickmarl.library gives the path of libhdt.so)"), last);
        assertEquals(2, List.of(lines).stream().filter(it -> it.startsWith("can't load")).count());
    }

    /** Another library has none of the calls. */
    @Test
    void another() throws IOException {
        String[] lines = printed("libc.so.6");
        assertEquals(2, List.of(lines).stream().filter(it -> it.startsWith("can't load")).count(), lines[0]);
        lines = printed("/usr/lib/x86_64-linux-gnu/libm.so.6");
        assertEquals(2, List.of(lines).stream().filter(it -> it.startsWith("can't load")).count(), lines[0]);
    }

    @Test
    void named() throws IOException {
        String[] lines = printed(Built.FOLDER.resolve("libhdt.so").toString());
        assertEquals(List.of("1", "1"), List.of(lines));
    }
}
