package io.github.tickmarl.hdt;

import static org.junit.jupiter.api.Assertions.assertEquals;
import static org.junit.jupiter.api.Assertions.assertTrue;

import java.io.IOException;
import java.nio.file.Path;
import java.util.ArrayList;
import java.util.List;
import java.util.Map;
import org.apache.jena.graph.Node;
import org.apache.jena.graph.Triple;
import org.apache.jena.query.Query;
import org.apache.jena.query.QueryException;
import org.apache.jena.query.QueryFactory;
import org.apache.jena.query.ReadWrite;
import org.apache.jena.sparql.core.DatasetGraph;
import org.apache.jena.sparql.core.DatasetGraphFactory;
import org.junit.jupiter.api.Test;
import org.junit.jupiter.api.io.TempDir;

/**
 * Random queries over random graphs: the answers are those of ARQ's reference engine over the same terms in memory.
 * In one of a thousand queries ARQ's optimizer changes the answer; then they are those of ARQ over memory.
 */
class RandomQueriesTest {
    private static final int GRAPHS = Integer.getInteger("hdt.graphs", 30);
    private static final int QUERIES = Integer.getInteger("hdt.queries", 50);
    private static final long SEED = Long.getLong("hdt.seed", 1);

    @TempDir
    Path folder;
    private int asked;
    private int solved;
    private int ofArq;

    @Test
    void queries() throws IOException {
        List<String> wrong = new ArrayList<>();
        for (int number = 0; number < GRAPHS; number++) {
            Generator generator = new Generator(1000 * SEED + number);
            String text = generator.graph();
            HdtGraph graph = Built.graph(folder, text);
            List<Triple> all = graph.find().toList();
            DatasetGraph memory = DatasetGraphFactory.createTxnMem(); // (its terms are equal as those of a file are)
            memory.begin(ReadWrite.WRITE);
            all.forEach(memory.getDefaultGraph()::add);
            memory.commit();
            memory.begin(ReadWrite.READ);
            for (int i = 0; i < QUERIES; i++) {
                String query = generator.query(all);
                String difference = difference(graph, memory, query);
                if (difference != null) {
                    wrong.add("graph " + number + ": " + query + "\n  " + difference);
                }
            }
            memory.end();
            graph.close();
        }
        System.out.println(asked + " queries, " + solved + " with solutions, " + ofArq + " differ by ARQ itself");
        assertEquals("", String.join("\n", wrong));
        assertTrue(ofArq <= 2 + asked / 500, ofArq + " answers differ by ARQ itself");
        assertTrue(solved > GRAPHS * QUERIES / 3, solved + " of " + asked + " queries have solutions");
    }

    private String difference(HdtGraph graph, DatasetGraph memory, String text) {
        Query query;
        try {
            query = QueryFactory.create(text);
        } catch (QueryException error) {
            return null; // a variable that BIND may not bind
        }
        Map<List<Node>, Integer> wanted = Asked.reference(memory, query);
        Map<List<Node>, Integer> found = Asked.over(graph, query);
        if (wanted == null || found == null) {
            return wanted == found ? null : "too many rows";
        }
        asked++;
        solved += wanted.isEmpty() ? 0 : 1;
        if (found.equals(wanted)) {
            return null;
        }
        if (found.equals(Asked.over(memory.getDefaultGraph(), query))) {
            ofArq++; // as ARQ answers it over memory, and not as it is written
            return null;
        }
        for (Map.Entry<List<Node>, Integer> row : wanted.entrySet()) {
            if (!row.getValue().equals(found.get(row.getKey()))) {
                return "wanted " + row + ", found " + found.get(row.getKey());
            }
        }
        found.keySet().removeAll(wanted.keySet());
        return "found " + found;
    }
}
