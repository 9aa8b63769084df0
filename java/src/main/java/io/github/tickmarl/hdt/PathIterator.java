package io.github.tickmarl.hdt;

import java.util.NoSuchElementException;
import org.apache.jena.graph.Node;
import org.apache.jena.sparql.core.Substitute;
import org.apache.jena.sparql.core.TriplePath;
import org.apache.jena.sparql.core.Var;
import org.apache.jena.sparql.engine.ExecutionContext;
import org.apache.jena.sparql.engine.QueryIterator;
import org.apache.jena.sparql.engine.binding.Binding;
import org.apache.jena.sparql.engine.binding.BindingFactory;
import org.apache.jena.sparql.engine.iterator.QueryIter1;
import org.apache.jena.sparql.path.Path;

/** Bindings joined with the ends of a property path, over IDs. */
final class PathIterator extends QueryIter1 {
    private static final boolean[] NODES = {false, false};

    private final Terms terms;
    private final Path path;
    private final Node subject;
    private final Node object;
    private final Cancelled cancelled;
    private final Paths paths;
    private Binding current;
    private Node from; // the subject and the object for the current binding
    private Node to;
    private long start; // the next node to begin at, if neither end is known; else 0
    private Rows rows = new Rows(null, NODES, 0);
    private Rows.Shape shape;
    private Binding only; // a solution without new variables
    private int row;

    PathIterator(TriplePath triple, HdtGraph graph, QueryIterator input, ExecutionContext context) {
        super(input, context);
        terms = graph.terms();
        path = triple.getPath();
        subject = triple.getSubject();
        object = triple.getObject();
        cancelled = new Cancelled(context);
        paths = new Paths(terms, cancelled);
    }

    @Override
    protected boolean hasNextBinding() {
        while (row == rows.count) {
            cancelled.check();
            if (start > 0) {
                nextStart();
            } else if (!getInput().hasNext()) {
                return false;
            } else {
                begin(getInput().nextBinding());
            }
        }
        return true;
    }

    private void begin(Binding binding) {
        current = binding;
        from = Substitute.substitute(subject, binding);
        to = Substitute.substitute(object, binding);
        row = 0;
        rows = new Rows(terms, NODES, 0);
        if (from.isConcrete()) {
            found(terms.nodeId(from), from, true, to);
        } else if (to.isConcrete()) {
            found(terms.nodeId(to), to, false, from);
        } else {
            start = 1;
        }
    }

    /**
     * The ends from one known end. A term that is no node of the graph leads to itself alone; and only if the query has
     * a term there, since variables of a path have nodes of the graph.
     */
    private void found(long id, Node known, boolean isForward, Node other) {
        boolean isNode = id > 0 && (Paths.zeroLengths(path) == 0 || paths.isNode(id));
        if (!isNode) {
            if (!Var.isVar(subject) || !Var.isVar(object)) {
                itself(known, other);
            }
            return;
        }
        LongList ends = new LongList();
        paths.follow(path, id, isForward, false, ends);
        if (Var.isVar(other)) {
            int[] columns = {isForward ? 1 : 0};
            set(ends, new Var[] {Var.alloc(other)}, columns, isForward ? id : 0, isForward ? 0 : id);
        } else {
            only(ends, terms.nodeId(other));
        }
    }

    private void itself(Node known, Node other) {
        if (!Var.isVar(other) && !other.equals(known)) {
            return;
        }
        rows = new Rows(terms, NODES, 0);
        rows.count = Paths.zeroLengths(path);
        only = Var.isVar(other) ? BindingFactory.binding(current, Var.alloc(other), known) : current;
    }

    /** The current binding, once for each way to an end. */
    private void only(LongList ends, long end) {
        int count = 0;
        for (int i = 0; i < ends.size(); i++) {
            count += ends.get(i) == end ? 1 : 0;
        }
        rows = new Rows(terms, NODES, count);
        rows.count = count;
        only = current;
    }

    private void set(LongList ends, Var[] vars, int[] columns, long s, long o) {
        only = null;
        shape = new Rows.Shape(vars, columns);
        rows = new Rows(terms, NODES, ends.size());
        for (int i = 0; i < ends.size(); i++) {
            rows.add(new long[] {s == 0 ? ends.get(i) : s, o == 0 ? ends.get(i) : o});
        }
    }

    /** The solutions from the next node, if neither end is known. */
    private void nextStart() {
        long node = start;
        start = node < terms.greatest ? node + 1 : 0;
        row = 0;
        rows = new Rows(terms, NODES, 0);
        if (Paths.zeroLengths(path) > 0 && !paths.isNode(node)) {
            return;
        }
        LongList ends = new LongList();
        paths.follow(path, node, true, false, ends);
        if (!from.equals(to)) {
            set(ends, new Var[] {Var.alloc(from), Var.alloc(to)}, new int[] {0, 1}, node, 0);
            return;
        }
        LongList same = new LongList();
        for (int i = 0; i < ends.size(); i++) {
            if (ends.get(i) == node) {
                same.add(node);
            }
        }
        set(same, new Var[] {Var.alloc(from)}, new int[] {0}, node, 0);
    }

    @Override
    protected Binding moveToNextBinding() {
        if (!hasNextBinding()) {
            throw new NoSuchElementException();
        }
        int i = row++;
        return only != null ? only : new LazyBinding(current, rows, i, shape);
    }

    @Override
    protected void requestSubCancel() {
        cancelled.set();
    }

    @Override
    protected void closeSubIterator() {}
}
