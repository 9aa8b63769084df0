package io.github.tickmarl.hdt;

import java.util.ArrayList;
import java.util.HashSet;
import java.util.LinkedHashSet;
import java.util.List;
import java.util.Set;
import org.apache.jena.graph.Node;
import org.apache.jena.graph.Triple;
import org.apache.jena.sparql.algebra.Op;
import org.apache.jena.sparql.algebra.op.OpBGP;
import org.apache.jena.sparql.algebra.op.OpFilter;
import org.apache.jena.sparql.algebra.op.OpSequence;
import org.apache.jena.sparql.algebra.op.OpTriple;
import org.apache.jena.sparql.core.Var;
import org.apache.jena.sparql.expr.Expr;
import org.apache.jena.sparql.function.FunctionEnv;

/**
 * Triple patterns with filters, as one join. ARQ puts filters into a sequence of patterns, after the first ones that
 * bind their variables in the order of the query: here they are put together again, since the order is another one.
 */
final class Conjunction {
    final List<Triple> triples = new ArrayList<>();
    final List<Expr> filters = new ArrayList<>();

    /** The conjunction that an operation is, or null if it isn't one. */
    static Conjunction of(Op op) {
        Conjunction all = new Conjunction();
        return all.add(op) && !all.triples.isEmpty() ? all : null;
    }

    private boolean add(Op op) {
        if (op instanceof OpBGP) {
            triples.addAll(((OpBGP) op).getPattern().getList());
            return true;
        }
        if (op instanceof OpTriple) {
            triples.add(((OpTriple) op).getTriple());
            return true;
        }
        if (op instanceof OpFilter) {
            OpFilter filter = (OpFilter) op;
            filters.addAll(filter.getExprs().getList());
            return add(filter.getSubOp());
        }
        if (op instanceof OpSequence) {
            for (Op element : ((OpSequence) op).getElements()) {
                Conjunction next = of(element);
                if (next == null || !next.isClosed()) {
                    return false;
                }
                add(next);
            }
            return true;
        }
        return false;
    }

    /** Adds another one, whose filters have no variables but its own. */
    void add(Conjunction other) {
        triples.addAll(other.triples);
        filters.addAll(other.filters);
    }

    Set<Var> vars() {
        Set<Var> vars = new LinkedHashSet<>();
        for (Triple triple : triples) {
            for (Node part : new Node[] {triple.getSubject(), triple.getPredicate(), triple.getObject()}) {
                if (Var.isVar(part)) {
                    vars.add(Var.alloc(part));
                }
            }
        }
        return vars;
    }

    /** Whether its filters have no variables but its own: then it means the same among other patterns. */
    boolean isClosed() {
        Set<Var> mentioned = new HashSet<>();
        for (Expr filter : filters) {
            if (!Test.isPure(filter)) {
                return false;
            }
            mentioned.addAll(filter.getVarsMentioned());
        }
        return vars().containsAll(mentioned);
    }

    /** A plan, of which filters with one variable are a part; the other filters are added to `left`. Null for none. */
    Plan plan(HdtGraph graph, FunctionEnv environment, List<Expr> left) {
        Plan plan = Plan.of(graph, triples);
        if (plan == null) {
            return null;
        }
        for (Expr filter : filters) {
            Set<Var> mentioned = filter.getVarsMentioned();
            int slot = mentioned.size() == 1 ? plan.slot(mentioned.iterator().next()) : -1;
            if (slot < 0 || !Test.isPure(filter)) {
                left.add(filter);
                continue;
            }
            if (plan.tests[slot] == null) {
                plan.tests[slot] = new Test(plan.vars[slot], environment);
            }
            plan.tests[slot].add(filter);
        }
        return plan;
    }
}
