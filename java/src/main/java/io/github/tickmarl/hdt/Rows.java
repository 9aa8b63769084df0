package io.github.tickmarl.hdt;

import org.apache.jena.graph.Node;
import org.apache.jena.sparql.core.Var;

/** Rows of IDs, by columns. The terms of a column are made together, when one of them is asked for. */
final class Rows {
    final Terms terms;
    final boolean[] isPredicate; // by column: whether it has IDs of predicates, not of nodes
    final long[][] columns;
    int count;
    private final Node[][] made;

    Rows(Terms terms, boolean[] isPredicate, int room) {
        this.terms = terms;
        this.isPredicate = isPredicate;
        columns = new long[isPredicate.length][room];
        made = new Node[isPredicate.length][];
    }

    /** One row. */
    static Rows single(Terms terms, boolean[] isPredicate, long[] ids) {
        Rows rows = new Rows(terms, isPredicate, 1);
        rows.add(ids);
        return rows;
    }

    void add(long[] ids) {
        for (int i = 0; i < columns.length; i++) {
            columns[i][count] = ids[i];
        }
        count++;
    }

    /** A term. No row is added after the first one is asked for. */
    Node node(int column, int row) {
        if (isPredicate[column]) {
            return terms.predicate(columns[column][row]);
        }
        if (made[column] == null) {
            made[column] = terms.nodes(columns[column], count);
        }
        return made[column][row];
    }

    /** A copy of one row, which doesn't keep the others in memory. */
    Rows copy(int row) {
        Rows copy = new Rows(terms, isPredicate, 1);
        for (int i = 0; i < columns.length; i++) {
            copy.columns[i][0] = columns[i][row];
            copy.made[i] = made[i] == null ? null : new Node[] {made[i][row]};
        }
        copy.count = 1;
        return copy;
    }

    /** Which variables a row binds, and the columns of their IDs. */
    static final class Shape {
        final Var[] vars;
        final int[] columns;

        Shape(Var[] vars, int[] columns) {
            this.vars = vars;
            this.columns = columns;
        }

        /** The column of a variable, or -1. */
        int column(Var var) {
            for (int i = 0; i < vars.length; i++) {
                if (vars[i] == var || vars[i].equals(var)) {
                    return columns[i];
                }
            }
            return -1;
        }
    }
}
