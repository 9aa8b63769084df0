package io.github.tickmarl.hdt.serve;

import java.util.Set;
import org.apache.jena.query.ARQ;
import org.apache.jena.sparql.function.FunctionFactory;
import org.apache.jena.sparql.function.FunctionRegistry;

/**
 * The functions that are registered: ARQ would load a class for an IRI {@code java:..}, and remember unknown ones.
 * Without those of regular expressions, which SPARQL has as REGEX and REPLACE ({@link Patterns}).
 */
final class Functions extends FunctionRegistry {
    private static final String XPATH = "http://www.w3.org/2005/xpath-functions#";
    private static final Set<String> LEFT_OUT = Set.of(XPATH + "matches", XPATH + "replace");

    private final FunctionRegistry known = FunctionRegistry.get(ARQ.getContext());

    @Override
    public FunctionFactory get(String iri) {
        return isRegistered(iri) ? known.get(iri) : null;
    }

    @Override
    public boolean isRegistered(String iri) {
        return known.isRegistered(iri) && !LEFT_OUT.contains(iri);
    }
}
