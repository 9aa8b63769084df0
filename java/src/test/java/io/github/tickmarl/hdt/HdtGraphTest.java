package io.github.tickmarl.hdt;

import static org.junit.jupiter.api.Assertions.assertEquals;
import static org.junit.jupiter.api.Assertions.assertFalse;
import static org.junit.jupiter.api.Assertions.assertThrows;
import static org.junit.jupiter.api.Assertions.assertTrue;

import java.io.IOException;
import java.io.StringReader;
import java.io.StringWriter;
import java.nio.charset.StandardCharsets;
import java.nio.file.Files;
import java.nio.file.Path;
import java.util.Arrays;
import java.util.HashSet;
import java.util.List;
import java.util.NoSuchElementException;
import java.util.Set;
import java.util.stream.Collectors;
import org.apache.jena.assembler.Assembler;
import org.apache.jena.assembler.exceptions.AssemblerException;
import org.apache.jena.graph.Graph;
import org.apache.jena.graph.Node;
import org.apache.jena.graph.NodeFactory;
import org.apache.jena.graph.Triple;
import org.apache.jena.query.Dataset;
import org.apache.jena.query.DatasetFactory;
import org.apache.jena.query.QueryExecution;
import org.apache.jena.query.QueryExecutionFactory;
import org.apache.jena.rdf.model.InfModel;
import org.apache.jena.rdf.model.Model;
import org.apache.jena.rdf.model.ModelFactory;
import org.apache.jena.rdf.model.Resource;
import org.apache.jena.riot.Lang;
import org.apache.jena.riot.RDFDataMgr;
import org.apache.jena.shacl.ShaclValidator;
import org.apache.jena.shacl.ValidationReport;
import org.apache.jena.shared.AddDeniedException;
import org.apache.jena.shared.ClosedException;
import org.apache.jena.shared.DeleteDeniedException;
import org.apache.jena.sparql.graph.GraphFactory;
import org.apache.jena.sys.JenaSystem;
import org.apache.jena.util.iterator.ExtendedIterator;
import org.apache.jena.vocabulary.RDF;
import org.junit.jupiter.api.Test;
import org.junit.jupiter.api.io.TempDir;

/** Files as graphs and models: find, contains, size; what can't be changed; SHACL, RDFS, writing; configurations. */
class HdtGraphTest {
    private static final String XSD = "http://www.w3.org/2001/XMLSchema#";
    private static final String TERMS = String.join("\n",
        "<u:a> <u:p> <u:b> .", "<u:a> <u:p> \"\" .", "<u:a> <u:p> \"x\" .", "<u:a> <u:p> \"x\"@en .",
        "<u:a> <u:p> \"x\"@EN .", "<u:a> <u:p> \"1\"^^<" + XSD + "integer> .",
        "<u:a> <u:p> \"01\"^^<" + XSD + "integer> .",
        "<u:a> <u:p> \"a\\\"@en\" .", "<u:a> <u:p> \"a\\\"b\\\\c\\n\\t\\r\" .", "<u:a> <u:p> \"\uD83D\uDE00 \u00E9\" .",
        "<u:a> <u:p> \"1\"^^<u:t> .", "<u:b> <u:p> _:x .", "_:x <u:q> <u:a> .", "_:x <u:q> _:x .",
        "<u:p> <u:p> <u:p> .", "");

    static {
        JenaSystem.init();
    }

    @TempDir
    Path folder;

    private static Graph parsed(String text) {
        Graph graph = GraphFactory.createDefaultGraph();
        RDFDataMgr.read(graph, new StringReader(text), null, Lang.NTRIPLES);
        return graph;
    }

    private static Node iri(String iri) {
        return NodeFactory.createURI(iri);
    }

    @Test
    void terms() throws IOException {
        HdtGraph graph = Built.graph(folder, TERMS);
        assertEquals(15, graph.size());
        assertTrue(graph.isIsomorphicWith(parsed(TERMS)));
        assertEquals(11, graph.find(iri("u:a"), null, null).toList().size());
        Node one = NodeFactory.createLiteral("1", NodeFactory.getType(XSD + "integer"));
        assertEquals(1, graph.find(null, null, one).toList().size());
        assertEquals("1", graph.find(null, null, one).next().getObject().getLiteralLexicalForm());
        for (String tag : List.of("en", "EN")) {
            Node tagged = NodeFactory.createLiteral("x", tag);
            assertEquals(tag, graph.find(null, null, tagged).next().getObject().getLiteralLanguage());
            assertEquals(1, graph.count(Triple.createMatch(null, null, tagged)));
        }
        assertFalse(graph.contains(null, null, NodeFactory.createLiteral("x", "En")));
        graph.close();
    }

    /** Every pattern of terms of the graph finds what it finds in memory. */
    @Test
    void patterns() throws IOException {
        HdtGraph graph = Built.graph(folder, TERMS);
        List<Triple> all = graph.find().toList();
        Set<Node> nodes = new HashSet<>(Set.of(Node.ANY, iri("u:none"), NodeFactory.createLiteral("none"),
            NodeFactory.createBlankNode("none"), NodeFactory.createVariable("v")));
        all.forEach(it -> nodes.addAll(List.of(it.getSubject(), it.getPredicate(), it.getObject())));
        for (Node s : nodes) {
            for (Node p : nodes) {
                for (Node o : nodes) {
                    Triple pattern = Triple.create(s, p, o);
                    Set<Triple> wanted = all.stream().filter(it -> fits(s, it.getSubject())
                        && fits(p, it.getPredicate()) && fits(o, it.getObject())).collect(Collectors.toSet());
                    List<Triple> found = graph.find(pattern).toList();
                    assertEquals(wanted, new HashSet<>(found), pattern.toString());
                    assertEquals(wanted.size(), found.size());
                    assertEquals(wanted.size(), graph.count(pattern));
                    assertEquals(!wanted.isEmpty(), graph.contains(pattern));
                }
            }
        }
        graph.close();
    }

    private static boolean fits(Node wanted, Node node) {
        return !wanted.isConcrete() || wanted.equals(node);
    }

    /** An IRI that looks like a blank node or a literal is not that term. */
    @Test
    void lookalikes() throws IOException {
        HdtGraph graph = Built.graph(folder, TERMS);
        String label = graph.find(null, iri("u:q"), null).next().getSubject().getBlankNodeLabel();
        assertTrue(graph.contains(NodeFactory.createBlankNode(label), null, null));
        assertFalse(graph.contains(iri("_:" + label), null, null));
        assertFalse(graph.contains(null, null, iri("\"x\"")));
        graph.close();
    }

    /** A file of another program may have the datatype string, and strings that are no terms. */
    @Test
    void strings() throws IOException {
        byte[] bytes = Files.readAllBytes(Built.file(folder, "x", "<u:a> <u:p> \"1\"^^<" + XSD + "strinG> .\n"));
        assertEquals("\"1\"^^<" + XSD + "strinG>", HdtFile.of(bytes).string(Role.OBJECT, 1));
        assertEquals(NodeFactory.createLiteral("1"), Terms.node("\"1\"^^<" + XSD + "string>"));
        for (String bad : List.of("\"", "\"x", "\"x\"y", "\"x\"@", "\"x\"^^<>", "\"x\"^^<u:t", "\"x\"^^")) {
            HdtTermException error = assertThrows(HdtTermException.class, () -> Terms.node(bad));
            assertTrue(error.getMessage().endsWith("not a term: " + bad));
        }
        assertThrows(HdtTermException.class, () -> Terms.node("\"" + "x".repeat(1000)));
    }

    @Test
    void manyPages() throws IOException {
        StringBuilder text = new StringBuilder();
        for (int i = 0; i < 10_000; i++) {
            text.append("<u:s").append(i).append("> <u:p> \"").append(i % 5000).append("\" .\n");
        }
        HdtGraph graph = Built.graph(folder, text.toString());
        assertTrue(graph.isIsomorphicWith(parsed(text.toString())));
        ExtendedIterator<Triple> found = graph.find(null, iri("u:p"), null);
        for (int i = 0; i < 10_000; i++) {
            found.next();
        }
        assertThrows(NoSuchElementException.class, found::next);
        ExtendedIterator<Triple> left = graph.find();
        left.next();
        left.close();
        assertFalse(left.hasNext());
        graph.close();
    }

    @Test
    void readOnly() throws IOException {
        Model model = Hdt.model(Built.file(folder, "graph", TERMS));
        Resource a = model.createResource("u:a");
        assertThrows(AddDeniedException.class, () -> a.addProperty(model.createProperty("u:p"), "new"));
        assertThrows(DeleteDeniedException.class, model::removeAll);
        assertThrows(DeleteDeniedException.class, a::removeProperties);
        assertThrows(DeleteDeniedException.class, () -> model.getGraph().delete(model.getGraph().find().next()));
        assertThrows(DeleteDeniedException.class, () -> model.getGraph().remove(null, null, null));
        assertFalse(model.getGraph().getCapabilities().addAllowed());
        assertFalse(model.getGraph().getCapabilities().deleteAllowed());
        assertFalse(model.getGraph().getCapabilities().handlesLiteralTyping());
        assertEquals(15, model.size());
        model.close();
        assertThrows(ClosedException.class, model::size);
        assertThrows(ClosedException.class, model::listStatements);
    }

    @Test
    void written() throws IOException {
        Model model = Hdt.model(Built.file(folder, "graph", TERMS));
        for (Lang lang : List.of(Lang.NTRIPLES, Lang.TURTLE, Lang.RDFXML, Lang.RDFJSON)) {
            StringWriter out = new StringWriter();
            RDFDataMgr.write(out, model, lang);
            Graph read = GraphFactory.createDefaultGraph();
            RDFDataMgr.read(read, new StringReader(out.toString()), null, lang);
            assertTrue(read.isIsomorphicWith(model.getGraph()), lang.toString());
        }
        model.close();
    }

    @Test
    void shacl() throws IOException {
        Model model = Hdt.model(Built.file(folder, "graph", String.join("\n",
            "<u:a> <" + RDF.type + "> <u:C> .", "<u:b> <" + RDF.type + "> <u:C> .",
            "<u:a> <u:size> \"5\"^^<" + XSD + "integer> .", "<u:b> <u:size> \"five\" .", "")));
        Graph shapes = GraphFactory.createDefaultGraph();
        RDFDataMgr.read(shapes, new StringReader("@prefix sh: <http://www.w3.org/ns/shacl#> . "
            + "@prefix xsd: <" + XSD + "> . [] a sh:NodeShape ; sh:targetClass <u:C> ; sh:property "
            + "[ sh:path <u:size> ; sh:minCount 1 ; sh:datatype xsd:integer ] ."), null, Lang.TURTLE);
        ValidationReport report = ShaclValidator.get().validate(shapes, model.getGraph());
        assertEquals(List.of("u:b"), report.getEntries().stream().map(it -> it.focusNode().getURI()).toList());
        model.close();
    }

    @Test
    void rdfs() throws IOException {
        String rdfs = "http://www.w3.org/2000/01/rdf-schema#";
        Model model = Hdt.model(Built.file(folder, "graph", String.join("\n",
            "<u:a> <" + RDF.type + "> <u:C> .", "<u:C> <" + rdfs + "subClassOf> <u:D> .",
            "<u:D> <" + rdfs + "subClassOf> <u:E> .", "")));
        InfModel inferred = ModelFactory.createRDFSModel(model);
        assertTrue(inferred.contains(model.createResource("u:a"), RDF.type, model.createResource("u:E")));
        assertFalse(model.contains(model.createResource("u:a"), RDF.type, model.createResource("u:E")));
        model.close();
    }

    private static Dataset assembled(String text) {
        Model model = ModelFactory.createDefaultModel();
        RDFDataMgr.read(model, new StringReader("@prefix ja: <http://jena.hpl.hp.com/2005/11/Assembler#> . "
            + "@prefix tickmarl: <" + HdtVocabulary.NAMESPACE + "> . "
            + "<u:dataset> a ja:RDFDataset ; ja:defaultGraph <u:graph> . <u:graph> "
            + "a tickmarl:HDTGraph " + text), null, Lang.TURTLE);
        return (Dataset) Assembler.general.open(model.createResource("u:dataset"));
    }

    @Test
    void configuration() throws IOException {
        Path path = Built.file(folder, "graph", TERMS);
        for (String name : List.of('"' + path.toString() + '"', "<" + path.toUri() + ">")) {
            Dataset dataset = assembled("; tickmarl:file " + name + " .");
            try (QueryExecution query = QueryExecutionFactory.create("ASK { <u:a> <u:p> <u:b> }", dataset)) {
                assertTrue(query.execAsk());
            }
            dataset.close();
        }
        assertThrows(AssemblerException.class, () -> assembled("."));
        AssemblerException error = assertThrows(AssemblerException.class,
            () -> assembled("; tickmarl:file \"" + folder.resolve("none.hdt") + "\" ."));
        assertTrue(error.toString().contains("none.hdt"), error.toString());
        assertThrows(AssemblerException.class, () -> assembled("; tickmarl:file \"a\", \"b\" ."));
    }

    @Test
    void dataset() throws IOException {
        Dataset dataset = HdtFactory.dataset(Built.file(folder, "graph", TERMS));
        assertEquals(15, dataset.getDefaultModel().size());
        Dataset named = DatasetFactory.create();
        named.addNamedModel("u:g", dataset.getDefaultModel());
        try (QueryExecution query = QueryExecutionFactory.create("ASK { GRAPH <u:g> { ?s <u:q> ?s } }", named)) {
            assertTrue(query.execAsk());
        }
        dataset.close();
    }

    /** A folder of parts, whose triples are divided by the CRC-32 of their subjects. */
    private Path parts(String... files) throws IOException {
        StringBuilder rows = new StringBuilder();
        for (int i = 0; i < files.length; i++) {
            String name = String.format("part-%05d", i);
            long bytes = 0;
            long triples = 0;
            if (!files[i].isEmpty()) {
                Path file = Built.file(folder, name, files[i]);
                bytes = Files.size(file);
                triples = files[i].lines().count();
            }
            rows.append(i == 0 ? "" : ",").append("{\"file\": \"").append(bytes == 0 ? "" : name + ".hdt")
                .append("\", \"bytes\": ").append(bytes).append(", \"triples\": ").append(triples).append("}");
        }
        Files.writeString(folder.resolve("manifest.json"),
            "{\"kind\": \"hdt-parts\", \"version\": 1, \"parts\": [" + rows + "]}");
        return folder;
    }

    @Test
    void partsOfAGraph() throws IOException {
        String[] subjects = {"u:a", "u:b", "u:c", "u:d", "u:e", "_:x"};
        String[] texts = {"", "", ""};
        for (String subject : subjects) {
            java.util.zip.CRC32 sum = new java.util.zip.CRC32();
            sum.update(subject.getBytes(StandardCharsets.UTF_8));
            String term = subject.startsWith("_:") ? subject : "<" + subject + ">";
            texts[(int) (sum.getValue() % 3)] += term + " <u:p> <u:a> .\n" + term + " <u:q> \"x\" .\n";
        }
        Model model = Hdt.model(parts(texts));
        assertTrue(model.getGraph() instanceof HdtParts);
        assertTrue(model.getGraph().isIsomorphicWith(parsed(String.join("", texts))));
        assertEquals(12, model.size());
        assertEquals(6, model.getGraph().find(null, iri("u:p"), iri("u:a")).toList().size());
        assertTrue(model.getGraph().contains(iri("u:c"), null, null));
        assertFalse(model.getGraph().contains(iri("u:none"), null, null));
        try (QueryExecution query = QueryExecutionFactory.create(
                "SELECT * { ?a <u:p> ?b . ?b <u:p>+ ?c . ?a <u:q> \"x\" }", model)) {
            assertEquals(6, query.execSelect().rewindable().size());
        }
        assertThrows(AddDeniedException.class, () -> model.add(model.createResource("u:a"), RDF.type, "x"));
        model.close();
        assertThrows(ClosedException.class, model::size);
    }

    @Test
    void badManifests() throws IOException {
        Path path = parts("<u:a> <u:p> <u:b> .\n");
        String good = Files.readString(folder.resolve("manifest.json"));
        Hdt.graph(path).close();
        for (String[] change : new String[][] {{"hdt-parts", "parts"}, {": 1, \"parts", ": 2, \"parts"},
            {"\"triples\": 1", "\"triples\": 2"}, {"\"bytes\": ", "\"bytes\": 1"}, {"part-00000", "../part-00000"},
            {"part-00000", "part-00001"}, {"\"parts\"", "\"part\""}, {"{\"kind", "[{\"kind"}, {"\"bytes\"", "\"byte\""},
            {"\"triples\": 1", "\"triples\": \"1\""}, {"[{", "[1, {"}}) {
            Files.writeString(folder.resolve("manifest.json"), good.replace(change[0], change[1]));
            assertThrows(IOException.class, () -> Hdt.graph(path), Arrays.toString(change));
        }
        Files.writeString(folder.resolve("manifest.json"), good);
        Files.delete(folder.resolve("part-00000.hdt"));
        assertThrows(IOException.class, () -> Hdt.graph(path));
        Files.delete(folder.resolve("manifest.json"));
        assertThrows(IOException.class, () -> Hdt.graph(path));
    }
}
