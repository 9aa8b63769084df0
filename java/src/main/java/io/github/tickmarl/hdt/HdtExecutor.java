package io.github.tickmarl.hdt;

import java.util.ArrayList;
import java.util.List;
import java.util.Set;
import java.util.function.Predicate;
import org.apache.jena.sparql.algebra.Op;
import org.apache.jena.sparql.algebra.OpVars;
import org.apache.jena.sparql.algebra.op.OpBGP;
import org.apache.jena.sparql.algebra.op.OpConditional;
import org.apache.jena.sparql.algebra.op.OpDistinct;
import org.apache.jena.sparql.algebra.op.OpFilter;
import org.apache.jena.sparql.algebra.op.OpGroup;
import org.apache.jena.sparql.algebra.op.OpMinus;
import org.apache.jena.sparql.algebra.op.OpPath;
import org.apache.jena.sparql.algebra.op.OpProject;
import org.apache.jena.sparql.algebra.op.OpSequence;
import org.apache.jena.sparql.core.Var;
import org.apache.jena.sparql.engine.ExecutionContext;
import org.apache.jena.sparql.engine.QueryIterator;
import org.apache.jena.sparql.engine.binding.Binding;
import org.apache.jena.sparql.engine.iterator.QueryIterProject;
import org.apache.jena.sparql.engine.iterator.QueryIterRoot;
import org.apache.jena.sparql.engine.main.OpExecutor;
import org.apache.jena.sparql.expr.E_Exists;
import org.apache.jena.sparql.expr.E_LogicalNot;
import org.apache.jena.sparql.expr.E_NotExists;
import org.apache.jena.sparql.expr.Expr;
import org.apache.jena.sparql.expr.ExprFunctionOp;

/** Executes what can be done over IDs of an {@link HdtGraph}; ARQ does the rest. */
final class HdtExecutor extends OpExecutor {
    private final HdtGraph graph;

    /** An executor of queries over the active graph of the context, which is an HdtGraph. */
    HdtExecutor(ExecutionContext context) {
        super(context);
        graph = (HdtGraph) context.getActiveGraph();
    }

    /** The solutions of a conjunction, joined with the input, or null if there is no plan for it. */
    private QueryIterator joined(Conjunction it, QueryIterator input) {
        List<Expr> left = new ArrayList<>();
        Cancelled cancelled = new Cancelled(execCxt);
        Matcher matcher = it == null ? null : Matcher.of(it, graph, execCxt, cancelled, left, false);
        if (matcher == null) {
            return null;
        }
        return selected(left, new JoinIterator(matcher, cancelled, false, null, input, execCxt));
    }

    /** The bindings that pass filters, those without a graph pattern first. */
    private QueryIterator selected(List<Expr> filters, QueryIterator input) {
        List<Expr> simple = new ArrayList<>();
        List<Expr> patterns = new ArrayList<>();
        for (Expr filter : filters) {
            (patternOf(filter) == null ? simple : patterns).add(filter);
        }
        QueryIterator all = input;
        Cancelled cancelled = new Cancelled(execCxt);
        if (!simple.isEmpty()) {
            Predicate<Binding> passes = binding -> simple.stream().allMatch(it -> it.isSatisfied(binding, execCxt));
            all = new SelectIterator(passes, cancelled, all, execCxt);
        }
        for (Expr filter : patterns) {
            all = existing(filter, all);
        }
        return all;
    }

    /** The graph pattern of EXISTS or NOT EXISTS, or null if a filter is another one. */
    private static ExprFunctionOp patternOf(Expr filter) {
        Expr it = filter instanceof E_LogicalNot ? ((E_LogicalNot) filter).getArg() : filter;
        return it instanceof E_Exists || it instanceof E_NotExists ? (ExprFunctionOp) it : null;
    }

    private QueryIterator existing(Expr filter, QueryIterator input) {
        ExprFunctionOp pattern = patternOf(filter);
        boolean isWanted = pattern instanceof E_Exists != filter instanceof E_LogicalNot;
        Cancelled cancelled = new Cancelled(execCxt);
        Conjunction it = Conjunction.of(pattern.getGraphPattern());
        Matcher matcher = it == null ? null : Matcher.of(it, graph, execCxt, cancelled, null, true);
        if (matcher == null) {
            return new SelectIterator(binding -> filter.isSatisfied(binding, execCxt), cancelled, input, execCxt);
        }
        return new SelectIterator(binding -> {
            matcher.start(binding);
            return matcher.next() == isWanted;
        }, cancelled, input, execCxt);
    }

    @Override
    protected QueryIterator execute(OpBGP op, QueryIterator input) {
        QueryIterator all = joined(Conjunction.of(op), input);
        return all != null ? all : super.execute(op, input);
    }

    @Override
    protected QueryIterator execute(OpFilter op, QueryIterator input) {
        QueryIterator all = joined(Conjunction.of(op), input);
        return all != null ? all : selected(op.getExprs().getList(), exec(op.getSubOp(), input));
    }

    /** Elements that follow each other and are conjunctions become one. */
    @Override
    protected QueryIterator execute(OpSequence op, QueryIterator input) {
        QueryIterator all = input;
        Conjunction together = null;
        List<Op> apart = new ArrayList<>();
        for (Op element : op.getElements()) {
            Conjunction it = Conjunction.of(element);
            if (it != null && it.isClosed()) {
                together = together == null ? new Conjunction() : together;
                together.add(it);
                apart.add(element);
            } else {
                all = exec(element, together(together, apart, all));
                together = null;
                apart.clear();
            }
        }
        return together(together, apart, all);
    }

    private QueryIterator together(Conjunction it, List<Op> apart, QueryIterator input) {
        QueryIterator all = it == null ? null : joined(it, input);
        if (all == null) {
            all = input;
            for (Op element : apart) {
                all = exec(element, all);
            }
        }
        return all;
    }

    @Override
    protected QueryIterator execute(OpConditional op, QueryIterator input) {
        Conjunction it = Conjunction.of(op.getRight());
        Cancelled cancelled = new Cancelled(execCxt);
        Matcher matcher = it == null ? null : Matcher.of(it, graph, execCxt, cancelled, null, false);
        if (matcher == null) {
            return super.execute(op, input);
        }
        return new JoinIterator(matcher, cancelled, true, null, exec(op.getLeft(), input), execCxt);
    }

    /** A solution is removed if it shares a variable, and is compatible, with one of the right side. */
    @Override
    protected QueryIterator execute(OpMinus op, QueryIterator input) {
        Conjunction it = Conjunction.of(op.getRight());
        Cancelled cancelled = new Cancelled(execCxt);
        boolean isClosed = it != null && it.isClosed();
        Matcher matcher = isClosed ? Matcher.of(it, graph, execCxt, cancelled, null, true) : null;
        if (matcher == null) {
            return super.execute(op, input);
        }
        // (in EXISTS a binding also has variables of outside, which the two sides don't share)
        Set<Var> common = it.vars();
        common.retainAll(OpVars.visibleVars(op.getLeft()));
        return new SelectIterator(binding -> {
            if (common.stream().noneMatch(binding::contains)) {
                return true;
            }
            matcher.start(binding);
            return !matcher.next();
        }, cancelled, exec(op.getLeft(), input), execCxt);
    }

    @Override
    protected QueryIterator execute(OpPath op, QueryIterator input) {
        boolean isSupported = Paths.isSupported(op.getTriplePath().getPath());
        return isSupported ? new PathIterator(op.getTriplePath(), graph, input, execCxt) : super.execute(op, input);
    }

    @Override
    protected QueryIterator execute(OpGroup op, QueryIterator input) {
        QueryIterator counted = CountIterator.of(op, graph, input, execCxt);
        return counted != null ? counted : super.execute(op, input);
    }

    /** Different solutions are found by their IDs, if they are those of a conjunction alone. */
    @Override
    protected QueryIterator execute(OpDistinct op, QueryIterator input) {
        Op project = op.getSubOp();
        boolean isAlone = project instanceof OpProject && input instanceof QueryIterRoot;
        Conjunction it = isAlone ? Conjunction.of(((OpProject) project).getSubOp()) : null;
        List<Expr> left = new ArrayList<>();
        Plan plan = it == null ? null : it.plan(graph, execCxt, left);
        if (plan == null || !left.isEmpty()) {
            return super.execute(op, input);
        }
        List<Var> vars = ((OpProject) project).getVars();
        int[] slots = vars.stream().mapToInt(plan::slot).toArray();
        boolean[] isNeeded = new boolean[plan.vars.length];
        for (int slot : slots) {
            if (slot < 0) {
                return super.execute(op, input);
            }
            isNeeded[slot] = true;
        }
        Cancelled cancelled = new Cancelled(execCxt);
        Matcher matcher = new Matcher(plan, List.of(), execCxt, new Walk(plan, cancelled, isNeeded, false));
        QueryIterator all = new JoinIterator(matcher, cancelled, false, slots, input, execCxt);
        return new QueryIterProject(all, vars, execCxt);
    }
}
