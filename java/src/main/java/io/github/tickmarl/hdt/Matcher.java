package io.github.tickmarl.hdt;

import java.util.ArrayList;
import java.util.List;
import org.apache.jena.sparql.core.Var;
import org.apache.jena.sparql.engine.binding.Binding;
import org.apache.jena.sparql.expr.Expr;
import org.apache.jena.sparql.function.FunctionEnv;

/** The solutions of a plan that are compatible with a binding, one binding after another. */
final class Matcher {
    final Plan plan;
    final Walk walk;
    private final List<Expr> filters; // those that the plan doesn't have
    private final FunctionEnv environment;
    private Binding binding;
    private Rows.Shape shape = new Rows.Shape(new Var[0], new int[0]);

    Matcher(Plan plan, List<Expr> filters, FunctionEnv environment, Walk walk) {
        this.plan = plan;
        this.filters = filters;
        this.environment = environment;
        this.walk = walk;
    }

    /**
     * A matcher of a conjunction, or null if there is no plan for it.
     *
     * @param outside where the filters go that the plan doesn't have, or null: then the matcher evaluates them
     * @param few as of a {@link Walk}
     */
    static Matcher of(Conjunction it, HdtGraph graph, FunctionEnv environment, Cancelled cancelled, List<Expr> outside,
        boolean few) {
        List<Expr> left = new ArrayList<>();
        Plan plan = it.plan(graph, environment, left);
        if (plan == null) {
            return null;
        }
        if (outside != null) {
            outside.addAll(left);
        }
        return new Matcher(plan, outside == null ? left : List.of(), environment, new Walk(plan, cancelled, null, few));
    }

    /** Begins with a binding. */
    void start(Binding from) {
        binding = from;
        int free = 0;
        for (int i = 0; i < plan.vars.length; i++) {
            walk.values[i] = LazyBinding.id(from, plan.vars[i], plan.terms, plan.isPredicate[i]);
            free += walk.values[i] == 0 ? 1 : 0;
        }
        setShape(free);
        walk.start();
    }

    /** Sets which variables are new. Bindings of one kind share a shape. */
    private void setShape(int free) {
        boolean isSame = free == shape.vars.length;
        for (int i = 0; isSame && i < free; i++) {
            isSame = walk.values[shape.columns[i]] == 0;
        }
        if (isSame) {
            return;
        }
        Var[] vars = new Var[free];
        int[] columns = new int[free];
        int at = 0;
        for (int i = 0; i < plan.vars.length; i++) {
            if (walk.values[i] == 0) {
                vars[at] = plan.vars[i];
                columns[at++] = i;
            }
        }
        shape = new Rows.Shape(vars, columns);
    }

    /** The variables that the binding doesn't have. */
    Rows.Shape shape() {
        return shape;
    }

    /** Finds the next solution: `walk.values`. Returns whether there is one. */
    boolean next() {
        while (walk.next()) {
            if (filters.isEmpty() || passes()) {
                return true;
            }
        }
        return false;
    }

    private boolean passes() {
        Rows row = Rows.single(plan.terms, plan.isPredicate, walk.values);
        Binding solution = new LazyBinding(binding, row, 0, shape);
        return filters.stream().allMatch(it -> it.isSatisfied(solution, environment));
    }
}
