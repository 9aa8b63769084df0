package io.github.tickmarl.hdt;

import java.io.IOException;
import java.nio.file.Files;
import java.nio.file.Path;

/** HDT files of tests, which the command builds. */
final class Built {
    /** The folder of the built command and library. */
    static final Path FOLDER = Path.of(System.getProperty("hdt.built"));

    private Built() {}

    /** Builds a file of N-Triples beside it, and returns its path. */
    static Path file(Path folder, String name, String triples) throws IOException {
        Path text = folder.resolve(name + ".nt");
        Path file = folder.resolve(name + ".hdt");
        Files.writeString(text, triples);
        Path log = folder.resolve(name + ".log");
        try {
            String hdt = FOLDER.resolve("hdt").toString();
            Process build = new ProcessBuilder(hdt, "build", text.toString(), file.toString())
                .redirectErrorStream(true).redirectOutput(log.toFile()).start();
            if (build.waitFor() != 0) {
                throw new IOException(Files.readString(log));
            }
        } catch (InterruptedException error) {
            throw new IOException(error);
        }
        return file;
    }

    /** Opens a graph of N-Triples. */
    static HdtGraph graph(Path folder, String triples) throws IOException {
        return new HdtGraph(HdtFile.open(file(folder, "graph", triples)));
    }
}
