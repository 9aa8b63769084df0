package io.github.tickmarl.hdt.serve;

import java.util.ArrayList;
import java.util.LinkedHashMap;
import java.util.List;
import java.util.Map;
import java.util.Objects;
import org.apache.jena.graph.Graph;
import org.apache.jena.graph.Node;
import org.apache.jena.graph.Triple;
import org.apache.jena.util.iterator.ExtendedIterator;
import org.apache.jena.vocabulary.RDF;

/** Example queries about the classes and predicates that a graph has. */
final class Examples {
    private static final int LOOKED_AT = 20_000; // triples
    private static final int MOST = 4; // of each kind

    private Examples() {}

    /** Titles and texts of queries. Looks at some triples only. */
    static List<String[]> of(Graph graph) {
        List<String[]> all = new ArrayList<>();
        all.add(query("10 triples", "SELECT * { ?s ?p ?o } LIMIT 10"));
        all.add(query("Predicates", "SELECT ?p (COUNT(*) AS ?n) { ?s ?p ?o } GROUP BY ?p ORDER BY DESC(?n)"));
        List<Node> classes = frequent(graph, RDF.type.asNode());
        if (!classes.isEmpty()) {
            all.add(query("Classes",
                "SELECT ?class (COUNT(*) AS ?n) { ?s a ?class } GROUP BY ?class ORDER BY DESC(?n)"));
        }
        for (Node it : classes) {
            all.add(query("Of class " + name(it), "SELECT * { ?s a <" + it.getURI() + "> ; ?p ?o } LIMIT 20"));
        }
        for (Node it : frequent(graph, null)) {
            all.add(query("With " + name(it), "SELECT * { ?s <" + it.getURI() + "> ?o } LIMIT 20"));
        }
        return all;
    }

    private static String[] query(String title, String text) {
        return new String[] {title, text};
    }

    /** The objects of a predicate, or the predicates, that occur most often at the beginning. */
    private static List<Node> frequent(Graph graph, Node predicate) {
        Map<Node, Integer> counts = new LinkedHashMap<>();
        ExtendedIterator<Triple> found = graph.find(null, predicate, null);
        for (int i = 0; i < LOOKED_AT && found.hasNext(); i++) {
            Triple triple = found.next();
            counts.merge(predicate == null ? triple.getPredicate() : triple.getObject(), 1, Integer::sum);
        }
        found.close();
        counts.keySet().removeIf(it -> !it.isURI() || !it.getURI().matches("[^\\x00-\\x20<>\"{}|^`\\\\]*"));
        counts.remove(Objects.requireNonNull(RDF.type.asNode()));
        return counts.entrySet().stream().sorted((a, b) -> b.getValue() - a.getValue()).limit(MOST)
            .map(Map.Entry::getKey).toList();
    }

    private static String name(Node iri) {
        String last = iri.getURI().replaceAll("[/#]+$", "").replaceAll("^.*[/#]", "");
        return last.isEmpty() ? iri.getURI() : last;
    }
}
