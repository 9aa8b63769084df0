package io.github.tickmarl.hdt.serve;

import java.io.IOException;
import java.util.Iterator;
import java.util.List;
import java.util.Map;
import java.util.concurrent.TimeUnit;
import org.apache.jena.atlas.web.HttpException;
import org.apache.jena.graph.Graph;
import org.apache.jena.graph.Triple;
import org.apache.jena.query.ARQ;
import org.apache.jena.query.Query;
import org.apache.jena.query.QueryCancelledException;
import org.apache.jena.query.QueryExecution;
import org.apache.jena.query.ResultSet;
import org.apache.jena.query.ResultSetFormatter;
import org.apache.jena.rdf.model.ModelFactory;
import org.apache.jena.riot.Lang;
import org.apache.jena.riot.RDFDataMgr;
import org.apache.jena.shared.JenaException;
import org.apache.jena.sparql.ARQConstants;
import org.apache.jena.sparql.core.Var;
import org.apache.jena.sparql.engine.QueryIterator;
import org.apache.jena.sparql.engine.ResultSetStream;
import org.apache.jena.sparql.engine.binding.Binding;
import org.apache.jena.sparql.engine.http.QueryExceptionHTTP;
import org.apache.jena.sparql.engine.iterator.QueryIterPlainWrapper;
import org.apache.jena.sparql.graph.GraphFactory;

/** The answer of one query. */
final class Answer {
    private static final Functions FUNCTIONS = new Functions();

    private final Query query;
    private final Options options;
    /** Its media type. */
    final String type;
    private final Lang lang;
    private boolean isCut;

    /** Chooses the form of the answer. Refuses if the client accepts none. */
    Answer(Query query, String accept, Options options) throws Refused {
        this.query = query;
        this.options = options;
        boolean isGraph = query.isConstructType() || query.isDescribeType();
        Map<String, Lang> types = isGraph ? Formats.GRAPHS : query.isAskType() ? Formats.BOOLEANS : Formats.ROWS;
        type = Formats.chosen(accept, types);
        if (type == null) {
            throw new Refused(406, "the answer may be one of: " + String.join(", ", types.keySet()));
        }
        lang = types.get(type);
    }

    /** Whether there are more rows than the limit. */
    boolean isCut() {
        return isCut;
    }

    /** Runs the query, and writes all of its answer. */
    void write(Graph graph, Spool out) throws IOException, Refused {
        try (QueryExecution execution = QueryExecution.create().query(query)
                .model(ModelFactory.createModelForGraph(graph))
                .set(ARQ.httpServiceAllowed, options.allowsService).set(ARQ.enablePropertyFunctions, false)
                .set(ARQConstants.registryFunctions, FUNCTIONS)
                .set(ARQConstants.sysOptimizerFactory, Patterns.within(options.timeout))
                .timeout((long) (1000 * options.timeout), TimeUnit.MILLISECONDS).build()) {
            if (query.isSelectType()) {
                ResultSetFormatter.output(out, limited(execution.execSelect()), lang);
            } else if (query.isAskType()) {
                ResultSetFormatter.output(out, execution.execAsk(), lang);
            } else {
                Iterator<Triple> triples = query.isConstructType()
                    ? execution.execConstructTriples() : execution.execDescribeTriples();
                RDFDataMgr.write(out, limited(triples), lang);
            }
        } catch (QueryCancelledException error) {
            throw new Refused(503, "the query takes more than " + options.timeout + " s");
        } catch (StackOverflowError error) {
            throw new Refused(400, Checks.DEEP);
        } catch (OutOfMemoryError error) {
            throw new Refused(503, "out of memory");
        } catch (JenaException | HttpException error) {
            refuse(error);
        }
    }

    private static void refuse(RuntimeException error) throws Refused {
        for (Throwable it = error; it != null; it = it.getCause()) {
            if (it instanceof Spool.TooLarge) {
                throw new Refused(503, it.getMessage());
            }
            if (it instanceof HttpException || it instanceof QueryExceptionHTTP) {
                throw new Refused(502, "SERVICE: " + it.getMessage());
            }
        }
        throw new Refused(500, String.valueOf(error.getMessage()));
    }

    private ResultSet limited(ResultSet all) {
        List<Var> vars = Var.varList(all.getResultVars());
        QueryIterator rows = QueryIterPlainWrapper.create(new Iterator<Binding>() {
            private long count;

            @Override
            public boolean hasNext() {
                boolean hasNext = all.hasNext();
                isCut = hasNext && count == options.maxRows;
                return hasNext && !isCut;
            }

            @Override
            public Binding next() {
                count++;
                return all.nextBinding();
            }
        });
        return ResultSetStream.create(vars, rows);
    }

    /** The first triples. A graph has each once, so they are collected. */
    private Graph limited(Iterator<Triple> all) {
        Graph graph = GraphFactory.createDefaultGraph();
        query.getPrefixMapping().getNsPrefixMap().forEach(graph.getPrefixMapping()::setNsPrefix);
        while (all.hasNext()) {
            if (graph.size() == options.maxRows) {
                isCut = true;
                break;
            }
            graph.add(all.next());
        }
        return graph;
    }
}
