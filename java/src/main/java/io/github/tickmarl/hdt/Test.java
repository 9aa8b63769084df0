package io.github.tickmarl.hdt;

import java.util.ArrayList;
import java.util.List;
import org.apache.jena.graph.Node;
import org.apache.jena.sparql.core.Var;
import org.apache.jena.sparql.engine.binding.BindingFactory;
import org.apache.jena.sparql.expr.E_BNode;
import org.apache.jena.sparql.expr.E_Call;
import org.apache.jena.sparql.expr.E_Function;
import org.apache.jena.sparql.expr.E_FunctionDynamic;
import org.apache.jena.sparql.expr.E_Random;
import org.apache.jena.sparql.expr.E_StrUUID;
import org.apache.jena.sparql.expr.E_UUID;
import org.apache.jena.sparql.expr.Expr;
import org.apache.jena.sparql.expr.ExprFunction;
import org.apache.jena.sparql.expr.ExprFunctionOp;
import org.apache.jena.sparql.function.FunctionEnv;
import org.apache.jena.vocabulary.XSD;

/** Filters of one variable, which are evaluated once for each of its values that was not seen lately. */
final class Test {
    private static final int KEPT = 1 << 12; // results, a power of two

    private final Var var;
    private final List<Expr> filters = new ArrayList<>();
    private final FunctionEnv environment;
    private final long[] results = new long[KEPT]; // by the low bits of an ID: twice the ID, and 1 if it passes

    Test(Var var, FunctionEnv environment) {
        this.var = var;
        this.environment = environment;
    }

    void add(Expr filter) {
        filters.add(filter);
    }

    /** Whether a filter gives the same for the same values: it may be evaluated earlier, and less often. */
    static boolean isPure(Expr filter) {
        if (filter.isVariable() || filter.isConstant()) {
            return true;
        }
        if (!filter.isFunction()) {
            return false;
        }
        ExprFunction function = filter.getFunction();
        if (function instanceof ExprFunctionOp || function instanceof E_Random || function instanceof E_UUID
            || function instanceof E_StrUUID || function instanceof E_BNode || function instanceof E_Call
            || function instanceof E_FunctionDynamic
            || function instanceof E_Function && !function.getFunctionIRI().startsWith(XSD.getURI())) {
            return false;
        }
        return function.getArgs().stream().allMatch(Test::isPure);
    }

    boolean passes(long id, Terms terms, boolean isPredicate) {
        long kept = results[(int) id & KEPT - 1];
        if (kept >>> 1 == id) {
            return (kept & 1) != 0;
        }
        return passes(id, isPredicate ? terms.predicate(id) : terms.node(id));
    }

    private boolean passes(long id, Node node) {
        boolean passes = true;
        for (Expr filter : filters) {
            passes = passes && filter.isSatisfied(BindingFactory.binding(var, node), environment);
        }
        results[(int) id & KEPT - 1] = id << 1 | (passes ? 1 : 0);
        return passes;
    }

    /** Which of these values of nodes pass: their terms are made together. */
    boolean[] passing(long[] ids, int count, Terms terms) {
        long[] lacking = ids.clone();
        boolean[] passing = new boolean[count];
        for (int i = 0; i < count; i++) {
            long kept = results[(int) ids[i] & KEPT - 1];
            if (kept >>> 1 == ids[i]) {
                passing[i] = (kept & 1) != 0;
                lacking[i] = 0;
            }
        }
        Node[] nodes = terms.nodes(lacking, count);
        for (int i = 0; i < count; i++) {
            if (lacking[i] != 0) {
                passing[i] = passes(ids[i], nodes[i]);
            }
        }
        return passing;
    }
}
