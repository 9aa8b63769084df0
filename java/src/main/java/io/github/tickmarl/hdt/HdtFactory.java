package io.github.tickmarl.hdt;

import java.io.IOException;
import java.net.URI;
import java.nio.file.Path;
import org.apache.jena.assembler.Assembler;
import org.apache.jena.assembler.Mode;
import org.apache.jena.assembler.assemblers.AssemblerBase;
import org.apache.jena.assembler.exceptions.AssemblerException;
import org.apache.jena.query.Dataset;
import org.apache.jena.query.DatasetFactory;
import org.apache.jena.rdf.model.RDFNode;
import org.apache.jena.rdf.model.Resource;

/**
 * The assembler of {@code tickmarl:HDTGraph}, so that a configuration, as that of Fuseki, can name a file or a folder
 * of parts. It is there once Jena is initialised with this jar on the class path.
 *
 * <pre>{@code
 * @prefix tickmarl: <https://tickmarl.github.io/hdt#> .
 * <#dataset> a ja:RDFDataset ; ja:defaultGraph <#graph> .
 * <#graph> a tickmarl:HDTGraph ; tickmarl:file "graph.hdt" .
 * }</pre>
 */
public final class HdtFactory extends AssemblerBase {
    /** The assembler. A configuration that names a file makes one, too. */
    public HdtFactory() {}

    /**
     * Opens a file, or a folder of parts, as the default graph of a dataset.
     *
     * @param path as in {@link Hdt#graph}
     * @return a dataset without named graphs
     * @throws IOException as {@link Hdt#graph}
     */
    public static Dataset dataset(Path path) throws IOException {
        return DatasetFactory.wrap(Hdt.model(path));
    }

    /**
     * Opens the file that a configuration names.
     *
     * @param assembler not used
     * @param root the resource with {@code tickmarl:file}
     * @param mode not used
     * @return a Model
     * @throws AssemblerException if the file can't be opened, with the cause, or if not one file is named
     */
    @Override
    public Object open(Assembler assembler, Resource root, Mode mode) {
        RDFNode file = getUnique(root, HdtVocabulary.FILE);
        if (file == null) {
            throw new AssemblerException(root, "no tickmarl:file");
        }
        try {
            return Hdt.model(path(file));
        } catch (IOException | IllegalArgumentException error) {
            throw new AssemblerException(root, "tickmarl:file: " + error.getMessage(), error);
        }
    }

    private static Path path(RDFNode file) {
        String name = file.isLiteral() ? file.asLiteral().getString() : file.asResource().getURI();
        return name != null && name.startsWith("file:") ? Path.of(URI.create(name)) : Path.of(String.valueOf(name));
    }
}
