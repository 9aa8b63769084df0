package io.github.tickmarl.hdt;

import java.util.ArrayList;
import java.util.Arrays;
import java.util.List;
import java.util.NoSuchElementException;
import org.apache.jena.sparql.algebra.op.OpGroup;
import org.apache.jena.sparql.core.Var;
import org.apache.jena.sparql.engine.ExecutionContext;
import org.apache.jena.sparql.engine.QueryIterator;
import org.apache.jena.sparql.engine.binding.Binding;
import org.apache.jena.sparql.engine.binding.BindingBuilder;
import org.apache.jena.sparql.engine.iterator.QueryIter1;
import org.apache.jena.sparql.expr.Expr;
import org.apache.jena.sparql.expr.ExprAggregator;
import org.apache.jena.sparql.expr.ExprList;
import org.apache.jena.sparql.expr.NodeValue;
import org.apache.jena.sparql.expr.aggregate.AggCount;
import org.apache.jena.sparql.expr.aggregate.AggCountVar;
import org.apache.jena.sparql.expr.aggregate.AggCountVarDistinct;
import org.apache.jena.sparql.expr.aggregate.Aggregator;

/** Solutions of a plan, grouped by variables of it and counted, over IDs. */
final class CountIterator extends QueryIter1 {
    private static final int ALL = -1; // in place of a slot

    private final Plan plan;
    private final Cancelled cancelled;
    private final Var[] groupVars;
    private final int[] groupSlots;
    private final Var[] countVars;
    private final int[] distinctSlots; // by count: the slot whose different values are counted, or ALL
    private LongTable groups;
    private long[] counts; // by group and count
    private Rows keys;
    private int at;

    private CountIterator(Plan plan, Cancelled cancelled, OpGroup group, QueryIterator input,
        ExecutionContext context) {
        super(input, context);
        this.plan = plan;
        this.cancelled = cancelled;
        groupVars = group.getGroupVars().getVars().toArray(new Var[0]);
        groupSlots = Arrays.stream(groupVars).mapToInt(plan::slot).toArray();
        List<ExprAggregator> aggregators = group.getAggregators();
        countVars = aggregators.stream().map(ExprAggregator::getVar).toArray(Var[]::new);
        distinctSlots = aggregators.stream().mapToInt(it -> distinctSlot(it.getAggregator())).toArray();
    }

    private int distinctSlot(Aggregator it) {
        return it instanceof AggCountVarDistinct ? plan.slot(it.getExprList().get(0).asVar()) : ALL;
    }

    /** An iterator, or null if a group is not one of variables of the plan, or has another aggregate than counts. */
    static CountIterator of(OpGroup group, HdtGraph graph, QueryIterator input, ExecutionContext context) {
        Conjunction it = Conjunction.of(group.getSubOp());
        List<Expr> left = new ArrayList<>();
        Plan plan = it == null ? null : it.plan(graph, context, left);
        if (plan == null || !left.isEmpty()) {
            return null;
        }
        for (Var var : group.getGroupVars().getVars()) {
            if (group.getGroupVars().hasExpr(var) || plan.slot(var) < 0) {
                return null;
            }
        }
        boolean isCount = group.getAggregators().stream().allMatch(one -> isCount(one.getAggregator(), plan));
        return isCount ? new CountIterator(plan, new Cancelled(context), group, input, context) : null;
    }

    private static boolean isCount(Aggregator it, Plan plan) {
        if (it instanceof AggCount) {
            return true;
        }
        if (!(it instanceof AggCountVar || it instanceof AggCountVarDistinct)) {
            return false;
        }
        ExprList of = it.getExprList();
        return of.size() == 1 && of.get(0).isVariable() && plan.slot(of.get(0).asVar()) >= 0;
    }

    private void count() {
        boolean[] isNeeded = new boolean[plan.vars.length];
        Arrays.stream(groupSlots).forEach(slot -> isNeeded[slot] = true);
        Arrays.stream(distinctSlots).filter(slot -> slot != ALL).forEach(slot -> isNeeded[slot] = true);
        Walk walk = new Walk(plan, cancelled, isNeeded, false);
        groups = new LongTable(groupSlots.length);
        counts = new long[Math.max(1, countVars.length)];
        LongTable[] seen = new LongTable[countVars.length]; // by count: groups and values
        Arrays.setAll(seen, i -> distinctSlots[i] == ALL ? null : new LongTable(2));
        long[] key = new long[groupSlots.length];
        while (getInput().hasNext()) {
            Binding binding = getInput().nextBinding();
            for (int i = 0; i < plan.vars.length; i++) {
                walk.values[i] = LazyBinding.id(binding, plan.vars[i], plan.terms, plan.isPredicate[i]);
            }
            walk.start();
            while (walk.next()) {
                for (int i = 0; i < key.length; i++) {
                    key[i] = walk.values[groupSlots[i]];
                }
                add(groups.add(key), walk, seen);
            }
        }
        if (groupSlots.length == 0 && groups.size() == 0) {
            groups.add(key); // one row of zeros
        }
    }

    private void add(int group, Walk walk, LongTable[] seen) {
        int first = group * countVars.length;
        if (first + countVars.length > counts.length) {
            counts = Arrays.copyOf(counts, Math.max(first + countVars.length, Math.multiplyExact(2, counts.length)));
        }
        for (int i = 0; i < countVars.length; i++) {
            if (seen[i] == null) {
                counts[first + i] += walk.weight();
            } else {
                int before = seen[i].size();
                if (seen[i].add(new long[] {group, walk.values[distinctSlots[i]]}) == before) {
                    counts[first + i]++;
                }
            }
        }
    }

    @Override
    protected boolean hasNextBinding() {
        if (groups == null) {
            count();
        }
        return at < groups.size();
    }

    @Override
    protected Binding moveToNextBinding() {
        if (!hasNextBinding()) {
            throw new NoSuchElementException();
        }
        int row = at % HdtFile.MOST;
        if (row == 0) {
            readKeys();
        }
        BindingBuilder builder = Binding.builder();
        for (int i = 0; i < groupVars.length; i++) {
            builder.add(groupVars[i], keys.node(i, row));
        }
        for (int i = 0; i < countVars.length; i++) {
            builder.add(countVars[i], NodeValue.makeInteger(counts[at * countVars.length + i]).asNode());
        }
        at++;
        return builder.build();
    }

    private void readKeys() {
        boolean[] isPredicate = new boolean[groupSlots.length];
        for (int i = 0; i < isPredicate.length; i++) {
            isPredicate[i] = plan.isPredicate[groupSlots[i]];
        }
        int end = Math.min(groups.size(), at + HdtFile.MOST);
        keys = new Rows(plan.terms, isPredicate, end - at);
        long[] key = new long[groupSlots.length];
        for (int index = at; index < end; index++) {
            for (int i = 0; i < key.length; i++) {
                key[i] = groups.get(index, i);
            }
            keys.add(key);
        }
    }

    @Override
    protected void requestSubCancel() {
        cancelled.set();
    }

    @Override
    protected void closeSubIterator() {}
}
