package io.github.tickmarl.hdt;

import java.io.IOException;
import java.nio.file.Files;
import java.nio.file.Path;
import org.apache.jena.graph.Graph;
import org.apache.jena.rdf.model.Model;
import org.apache.jena.rdf.model.ModelFactory;
import org.apache.jena.sys.JenaSystem;

/**
 * HDT files as graphs and models of Jena.
 *
 * <pre>{@code
 * Model model = Hdt.model(Path.of("graph.hdt"));
 * try (QueryExecution query = QueryExecutionFactory.create("SELECT ..", model)) {
 *     ResultSetFormatter.out(query.execSelect());
 * }
 * model.close();
 * }</pre>
 */
public final class Hdt {
    static {
        JenaSystem.init();
    }

    private Hdt() {}

    /**
     * Opens a file, or a folder of parts, as a graph. It is validated: time and memory are linear in the files.
     *
     * @param path a file, as {@link HdtFile#open} opens it, or a folder that hdt.parts of Python has built
     * @return an {@link HdtGraph} or {@link HdtParts}; close it when it is no longer needed
     * @throws HdtFormatException if a file is not a valid HDT file
     * @throws IOException if it can't be read, or is not the file of the manifest
     * @throws HdtLibraryException if libhdt.so can't be loaded
     */
    public static Graph graph(Path path) throws IOException {
        return Files.isDirectory(path) ? new HdtParts(Manifest.open(path)) : new HdtGraph(HdtFile.open(path));
    }

    /**
     * Opens a file, or a folder of parts, as a model.
     *
     * @param path as in {@link #graph}
     * @return a model of the graph; its {@code close} closes the file
     * @throws IOException as {@link #graph}
     */
    public static Model model(Path path) throws IOException {
        return ModelFactory.createModelForGraph(graph(path));
    }
}
