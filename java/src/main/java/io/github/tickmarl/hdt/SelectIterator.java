package io.github.tickmarl.hdt;

import java.util.NoSuchElementException;
import java.util.function.Predicate;
import org.apache.jena.sparql.engine.ExecutionContext;
import org.apache.jena.sparql.engine.QueryIterator;
import org.apache.jena.sparql.engine.binding.Binding;
import org.apache.jena.sparql.engine.iterator.QueryIter1;

/** The bindings that are kept. */
final class SelectIterator extends QueryIter1 {
    private static final int MANY = 8; // if fewer than one in so many is kept, it doesn't keep its batch in memory

    private final Predicate<Binding> isKept;
    private final Cancelled cancelled;
    private Binding next;
    private long asked;
    private long kept;

    SelectIterator(Predicate<Binding> isKept, Cancelled cancelled, QueryIterator input, ExecutionContext context) {
        super(input, context);
        this.isKept = isKept;
        this.cancelled = cancelled;
    }

    @Override
    protected boolean hasNextBinding() {
        while (next == null && getInput().hasNext()) {
            cancelled.check();
            Binding binding = getInput().nextBinding();
            asked++;
            if (isKept.test(binding)) {
                kept++;
                boolean isRare = kept * MANY < asked && binding instanceof LazyBinding;
                next = isRare ? ((LazyBinding) binding).alone() : binding;
            }
        }
        return next != null;
    }

    @Override
    protected Binding moveToNextBinding() {
        if (!hasNextBinding()) {
            throw new NoSuchElementException();
        }
        Binding binding = next;
        next = null;
        return binding;
    }

    @Override
    protected void requestSubCancel() {
        cancelled.set();
    }

    @Override
    protected void closeSubIterator() {}
}
