package io.github.tickmarl.hdt;

import java.util.ArrayList;
import java.util.HashMap;
import java.util.List;
import java.util.Map;
import java.util.concurrent.TimeUnit;
import org.apache.jena.graph.Graph;
import org.apache.jena.graph.Node;
import org.apache.jena.query.ARQ;
import org.apache.jena.query.Query;
import org.apache.jena.query.QueryExecution;
import org.apache.jena.query.ResultSet;
import org.apache.jena.rdf.model.ModelFactory;
import org.apache.jena.sparql.ARQConstants;
import org.apache.jena.sparql.core.DatasetGraph;
import org.apache.jena.sparql.core.Var;
import org.apache.jena.sparql.engine.Plan;
import org.apache.jena.sparql.engine.QueryIterator;
import org.apache.jena.sparql.engine.binding.Binding;
import org.apache.jena.sparql.engine.binding.BindingFactory;
import org.apache.jena.sparql.engine.main.QC;
import org.apache.jena.sparql.engine.main.StageGenerator;
import org.apache.jena.sparql.engine.ref.QueryEngineRef;
import org.apache.jena.sparql.util.Context;

/** Answers of queries, as bags of rows. */
final class Asked {
    private static final int MOST = 100_000; // rows

    private Asked() {}

    /** The answer of a SELECT over a graph, or null if it has too many rows. */
    static Map<List<Node>, Integer> over(Graph graph, Query query) {
        Map<List<Node>, Integer> rows = new HashMap<>();
        try (QueryExecution execution = QueryExecution.create().query(query)
                .model(ModelFactory.createModelForGraph(graph)).timeout(20, TimeUnit.SECONDS).build()) {
            ResultSet found = execution.execSelect();
            for (int i = 0; found.hasNext(); i++) {
                if (i == MOST) {
                    return null;
                }
                rows.merge(row(found.nextBinding(), found.getResultVars()), 1, Integer::sum);
            }
        }
        return rows;
    }

    /** The same by ARQ's reference engine, which evaluates the query as it is written, over a graph in memory. */
    static Map<List<Node>, Integer> reference(DatasetGraph memory, Query query) {
        Map<List<Node>, Integer> rows = new HashMap<>();
        Context context = ARQ.getContext().copy();
        context.set(ARQConstants.sysCurrentQuery, query);
        // (ARQ's own order of patterns fails if the variable of a predicate has a literal)
        context.set(ARQ.stageGenerator, (StageGenerator) QC::executeDirect);
        Plan plan = QueryEngineRef.getFactory().create(query, memory, BindingFactory.root(), context);
        QueryIterator found = plan.iterator();
        for (int i = 0; found.hasNext(); i++) {
            if (i == MOST) {
                return null;
            }
            rows.merge(row(found.nextBinding(), query.getResultVars()), 1, Integer::sum);
        }
        return rows;
    }

    private static List<Node> row(Binding binding, List<String> vars) {
        List<Node> row = new ArrayList<>();
        for (String var : vars) {
            row.add(binding.get(Var.alloc(var)));
        }
        return row;
    }
}
