package io.github.tickmarl.hdt.serve;

import org.apache.jena.query.Query;
import org.apache.jena.query.QueryException;
import org.apache.jena.query.QueryFactory;
import org.apache.jena.query.Syntax;
import org.apache.jena.sparql.algebra.Algebra;
import org.apache.jena.sparql.algebra.Op;
import org.apache.jena.sparql.algebra.OpVisitorBase;
import org.apache.jena.sparql.algebra.op.OpService;
import org.apache.jena.sparql.algebra.walker.Walker;

/** What a query may do: it must not make the server fetch anything. */
final class Checks {
    static final String DEEP = "the query is nested too deep";
    static final String SERVICE = "SERVICE: this server sends no requests to others";

    private Checks() {}

    /** Parses a query of SPARQL 1.1. Refuses what is not allowed. */
    static Query query(String text, boolean allowsService) throws Refused {
        Query query;
        try {
            query = QueryFactory.create(text, Syntax.syntaxSPARQL_11);
        } catch (QueryException error) {
            throw new Refused(400, error.getMessage() == null ? DEEP : error.getMessage()); // (null after a full stack)
        } catch (StackOverflowError error) {
            throw new Refused(400, DEEP);
        }
        if (query.hasDatasetDescription()) {
            throw new Refused(403, "FROM: this server has one graph, and fetches no others");
        }
        try {
            if (!allowsService && query.getQueryPattern() != null && hasService(Algebra.compile(query))) {
                throw new Refused(403, SERVICE);
            }
        } catch (StackOverflowError error) {
            throw new Refused(400, DEEP);
        }
        return query;
    }

    private static boolean hasService(Op op) {
        boolean[] found = {false};
        Walker.walk(op, new OpVisitorBase() {
            @Override
            public void visit(OpService service) {
                found[0] = true;
            }
        });
        return found[0];
    }
}
