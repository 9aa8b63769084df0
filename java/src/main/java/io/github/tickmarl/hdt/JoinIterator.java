package io.github.tickmarl.hdt;

import java.util.NoSuchElementException;
import org.apache.jena.sparql.engine.ExecutionContext;
import org.apache.jena.sparql.engine.QueryIterator;
import org.apache.jena.sparql.engine.binding.Binding;
import org.apache.jena.sparql.engine.iterator.QueryIter1;

/** Bindings joined with the solutions of a plan, in batches, whose terms are made together when they are asked for. */
final class JoinIterator extends QueryIter1 {
    private static final int MOST = 512; // rows of a batch; the first has 1, each next one 4 times as many

    private final Matcher matcher;
    private final Cancelled cancelled;
    private final boolean isOptional;
    private final int[] distinct; // the slots whose values are wanted once, or null
    private final LongTable seen;
    private int size = 1;
    private Rows rows;
    private Binding[] parents;
    private Rows.Shape[] shapes; // null of a binding without a solution
    private int row;
    private Binding current; // the binding that is joined, or null
    private boolean isFound; // whether it had a solution

    /**
     * A join.
     *
     * @param isOptional whether a binding without a solution is left as it is, and not left out
     * @param distinct the slots whose values are wanted once, or null for all solutions
     */
    JoinIterator(Matcher matcher, Cancelled cancelled, boolean isOptional, int[] distinct, QueryIterator input,
        ExecutionContext context) {
        super(input, context);
        this.matcher = matcher;
        this.cancelled = cancelled;
        this.isOptional = isOptional;
        this.distinct = distinct;
        seen = distinct == null ? null : new LongTable(distinct.length);
    }

    /** Fills the next batch. Returns whether it has a row. */
    private boolean fill() {
        rows = new Rows(matcher.plan.terms, matcher.plan.isPredicate, size);
        parents = new Binding[size];
        shapes = new Rows.Shape[size];
        row = 0;
        while (rows.count < size && (current != null || begin())) {
            if (matcher.next()) {
                isFound = true;
                if (isNew()) {
                    add(matcher.shape(), matcher.walk.values);
                }
            } else {
                if (isOptional && !isFound) {
                    add(null, new long[matcher.walk.values.length]);
                }
                current = null;
            }
        }
        size = Math.min(4 * size, MOST);
        return rows.count > 0;
    }

    private boolean begin() {
        if (!getInput().hasNext()) {
            return false;
        }
        current = getInput().nextBinding();
        isFound = false;
        matcher.start(current);
        return true;
    }

    private boolean isNew() {
        if (distinct == null) {
            return true;
        }
        long[] key = new long[distinct.length];
        for (int i = 0; i < key.length; i++) {
            key[i] = matcher.walk.values[distinct[i]];
        }
        int before = seen.size();
        return seen.add(key) == before;
    }

    private void add(Rows.Shape shape, long[] ids) {
        parents[rows.count] = current;
        shapes[rows.count] = shape;
        rows.add(ids);
    }

    @Override
    protected boolean hasNextBinding() {
        return rows != null && row < rows.count || fill();
    }

    @Override
    protected Binding moveToNextBinding() {
        if (!hasNextBinding()) {
            throw new NoSuchElementException();
        }
        int i = row++;
        return shapes[i] == null ? parents[i] : new LazyBinding(parents[i], rows, i, shapes[i]);
    }

    @Override
    protected void requestSubCancel() {
        cancelled.set();
    }

    @Override
    protected void closeSubIterator() {}
}
