package io.github.tickmarl.hdt.serve;

import io.github.tickmarl.hdt.Hdt;
import java.io.IOException;
import java.nio.file.Files;
import java.nio.file.Path;
import java.nio.file.attribute.BasicFileAttributes;
import java.util.List;
import org.apache.jena.graph.Graph;

/** A file that is served, and opened anew when another one has taken its name. */
final class Source {
    private static final long LOOK = 1_000_000_000; // nanoseconds between two looks at the file

    final String name;
    private final Path path;
    private Lease current;
    private List<Object> identity;
    private long looked;
    private boolean isOpening;

    /** An open graph: it is closed when it was replaced and no query uses it. */
    static final class Lease implements AutoCloseable {
        final Graph graph;
        private int uses = 1;
        private List<String[]> examples;

        private Lease(Graph graph) {
            this.graph = graph;
        }

        private synchronized Lease taken() {
            uses++;
            return this;
        }

        /** The titles and texts of example queries. */
        synchronized List<String[]> examples() {
            if (examples == null) {
                examples = Examples.of(graph);
            }
            return examples;
        }

        @Override
        public synchronized void close() {
            if (--uses == 0) {
                graph.close();
            }
        }
    }

    Source(String name, Path path) throws IOException {
        this.name = name;
        this.path = path;
        identity = identity(path);
        current = new Lease(Hdt.graph(path));
        looked = System.nanoTime();
    }

    /** What another file has otherwise. Of a folder it is that of its manifest. */
    private static List<Object> identity(Path path) throws IOException {
        Path file = Files.isDirectory(path) ? path.resolve("manifest.json") : path;
        BasicFileAttributes now = Files.readAttributes(file, BasicFileAttributes.class);
        return List.of(String.valueOf(now.fileKey()), now.size(), now.lastModifiedTime());
    }

    /** The graph of now, which the caller closes. While a new file is opened, that is the old one. */
    Lease take() {
        List<Object> now = changed();
        if (now != null) {
            reopen(now);
        }
        synchronized (this) {
            return current.taken();
        }
    }

    /** The identity of a new file that this thread has to open, or null. */
    private synchronized List<Object> changed() {
        if (isOpening || System.nanoTime() - looked < LOOK) {
            return null;
        }
        looked = System.nanoTime();
        try {
            List<Object> now = identity(path);
            isOpening = !now.equals(identity);
            return isOpening ? now : null;
        } catch (IOException error) {
            return null; // (as while it is moved away: the open one stays)
        }
    }

    private void reopen(List<Object> now) {
        Lease opened = null;
        try {
            opened = new Lease(Hdt.graph(path));
        } catch (IOException | RuntimeException | OutOfMemoryError error) {
            System.err.println("tickmarl-hdt: " + name + " stays as it was: " + error.getMessage());
        }
        synchronized (this) {
            isOpening = false;
            identity = now; // (a file that can't be opened is not tried again)
            if (opened != null) {
                current.close();
                current = opened;
            }
        }
    }

    synchronized void close() {
        current.close();
    }
}
