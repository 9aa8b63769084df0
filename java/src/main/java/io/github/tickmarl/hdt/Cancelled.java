package io.github.tickmarl.hdt;

import java.util.concurrent.atomic.AtomicBoolean;
import org.apache.jena.query.QueryCancelledException;
import org.apache.jena.sparql.ARQConstants;
import org.apache.jena.sparql.engine.ExecutionContext;

/** Whether a query was cancelled, as at the end of its time. Long searches ask often. */
final class Cancelled {
    private final AtomicBoolean ofQuery; // null if the query has none
    private volatile boolean isSet;

    Cancelled(ExecutionContext context) {
        Object signal = context.getContext() == null ? null : context.getContext().get(ARQConstants.symCancelQuery);
        ofQuery = signal instanceof AtomicBoolean ? (AtomicBoolean) signal : null;
    }

    void set() {
        isSet = true;
    }

    void check() {
        if (isSet || ofQuery != null && ofQuery.get()) {
            throw new QueryCancelledException();
        }
    }
}
