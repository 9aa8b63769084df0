package io.github.tickmarl.hdt;

import java.util.Arrays;
import java.util.Iterator;
import org.apache.jena.graph.Node;
import org.apache.jena.sparql.core.Var;
import org.apache.jena.sparql.engine.binding.Binding;
import org.apache.jena.sparql.engine.binding.BindingBase;

/** A solution whose terms are made when they are asked for. */
final class LazyBinding extends BindingBase {
    private final Rows rows;
    private final int row;
    private final Rows.Shape shape;

    LazyBinding(Binding parent, Rows rows, int row, Rows.Shape shape) {
        super(parent);
        this.rows = rows;
        this.row = row;
        this.shape = shape;
    }

    @Override
    protected Iterator<Var> vars1() {
        return Arrays.asList(shape.vars).iterator();
    }

    @Override
    protected int size1() {
        return shape.vars.length;
    }

    @Override
    protected boolean isEmpty1() {
        return shape.vars.length == 0;
    }

    @Override
    protected boolean contains1(Var var) {
        return shape.column(var) >= 0;
    }

    @Override
    protected Node get1(Var var) {
        int column = shape.column(var);
        return column < 0 ? null : rows.node(column, row);
    }

    /** The same solution, without the other rows that were found with it. */
    LazyBinding alone() {
        return rows.count == 1 ? this : new LazyBinding(parent, rows.copy(row), 0, shape);
    }

    /**
     * The ID of a variable of a binding in the file of these terms, as a predicate or as a node: 0 if it is unbound,
     * and {@link HdtFile#NONE} if the file doesn't have the term so.
     */
    static long id(Binding binding, Var var, Terms terms, boolean isPredicate) {
        for (Binding it = binding; it instanceof LazyBinding; it = ((LazyBinding) it).parent) {
            LazyBinding lazy = (LazyBinding) it;
            int column = lazy.shape.column(var);
            if (column >= 0 && lazy.rows.terms == terms && lazy.rows.isPredicate[column] == isPredicate) {
                return lazy.rows.columns[column][lazy.row];
            }
        }
        Node node = binding.get(var);
        if (node == null) {
            return 0;
        }
        return isPredicate ? terms.number(Role.PREDICATE, node) : terms.nodeId(node);
    }
}
