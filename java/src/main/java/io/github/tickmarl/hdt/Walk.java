package io.github.tickmarl.hdt;

/**
 * A search for the solutions of a plan, depth first. The next pattern is the one with the fewest matches for the values
 * so far, by the counts of the file; that is asked at the first, the second, the fourth, .. time that a depth is
 * entered.
 */
final class Walk {
    private static final int FIRST = 64; // triples of the first page; each next one has 8 times as many
    private static final int NO_PATTERN = -1;

    /** The values of a solution, by slot. */
    final long[] values;
    private final Plan plan;
    private final Cancelled cancelled;
    private final int first;
    private final Step[] steps;
    private final boolean[] isNeeded; // by slot: null if all are
    private int depth = -1;
    private long weight;

    /** A depth: its pattern, and a page of matches. */
    private static final class Step {
        long rest; // the patterns that are left below, as bits
        int pattern;
        long asked = -1; // the patterns among which one was chosen, as bits
        int times;
        final long[] search = new long[3];
        final boolean[] sets = new boolean[3];
        int at;
        int count;
        int most;
        long next;
        long[] page;
        boolean isRead; // whether a page was read
        boolean isCounted; // whether matches are only counted
    }

    /**
     * A search.
     *
     * @param needed by slot, whether its value is wanted, or null if all are. If the last pattern has no other new
     *     values, its matches are counted: one solution has their number as its weight
     * @param few whether the first solutions are enough, so that pages begin small
     */
    Walk(Plan plan, Cancelled cancelled, boolean[] needed, boolean few) {
        this.plan = plan;
        this.cancelled = cancelled;
        isNeeded = needed;
        first = few ? 4 : FIRST;
        values = new long[plan.vars.length];
        steps = new Step[plan.given.length];
        for (int i = 0; i < steps.length; i++) {
            steps[i] = new Step();
            steps[i].page = new long[3 * first + 1];
        }
    }

    /** How many solutions the last one stands for. */
    long weight() {
        return weight;
    }

    /** Begins with the values that are set. Without a solution if one of them can't be. */
    void start() {
        depth = -1;
        if (plan.isEmpty) {
            return;
        }
        for (int i = 0; i < values.length; i++) {
            if (values[i] < 0 || values[i] > 0 && !passes(i, values[i])) {
                return;
            }
        }
        enter((1L << steps.length) - 1);
    }

    private boolean passes(int slot, long value) {
        Test test = plan.tests[slot];
        return test == null || test.passes(value, plan.terms, plan.isPredicate[slot]);
    }

    /** Sets what a pattern is searched for. Returns false if a value can't be in its place. */
    private boolean search(int pattern, long[] search) {
        for (int role = 0; role < 3; role++) {
            int slot = plan.slots[pattern][role];
            long id = slot < 0 ? plan.given[pattern][role] : values[slot];
            if (slot >= 0 && id != 0) {
                id = plan.inRole(slot, role, id);
            }
            if (id < 0) {
                return false;
            }
            search[role] = id;
        }
        return true;
    }

    /** The pattern with the fewest matches. */
    private int fewest(long rest, long[] search) {
        int chosen = NO_PATTERN;
        long least = Long.MAX_VALUE;
        for (int i = 0; i < steps.length; i++) {
            if ((rest >>> i & 1) != 0) {
                long count = search(i, search) ? count(search) : 0;
                if (count < least) {
                    least = count;
                    chosen = i;
                }
            }
        }
        return chosen;
    }

    private void enter(long rest) {
        Step step = steps[++depth];
        if (step.asked != rest) {
            step.asked = rest;
            step.times = 0;
        }
        int times = ++step.times;
        if ((times & times - 1) == 0) {
            step.pattern = fewest(rest, step.search);
        }
        step.rest = rest & ~(1L << step.pattern);
        step.at = 0;
        step.count = 0;
        step.most = first;
        step.next = search(step.pattern, step.search) ? 0 : -1;
        for (int role = 0; role < 3; role++) {
            int slot = plan.slots[step.pattern][role];
            step.sets[role] = slot >= 0 && values[slot] == 0;
        }
        step.isRead = false;
        step.isCounted = isCounted(step);
    }

    /** Whether the matches of the last pattern need not be read, but only counted. */
    private boolean isCounted(Step step) {
        if (isNeeded == null || step.rest != 0) {
            return false;
        }
        int[] slots = plan.slots[step.pattern];
        for (int role = 0; role < 3; role++) {
            if (step.sets[role] && (isNeeded[slots[role]] || plan.tests[slots[role]] != null
                || slots[role] == slots[(role + 1) % 3])) {
                return false;
            }
        }
        return true;
    }

    /** Finds the next solution, and returns whether there is one. Throws QueryCancelledException. */
    boolean next() {
        while (depth >= 0) {
            Step step = steps[depth];
            for (int role = 0; role < 3; role++) {
                if (step.sets[role]) {
                    values[plan.slots[step.pattern][role]] = 0;
                }
            }
            if (step.isCounted) {
                if (count(step)) {
                    return true;
                }
                depth--;
            } else if (step.at == step.count && !read(step)) {
                depth--;
            } else if (take(step)) {
                if (step.rest == 0) {
                    weight = 1;
                    return true;
                }
                enter(step.rest);
            }
        }
        return false;
    }

    /** Counts the matches once. Returns whether there is one. */
    private boolean count(Step step) {
        if (step.next < 0) {
            return false;
        }
        cancelled.check();
        step.next = -1;
        weight = count(step.search);
        return weight > 0;
    }

    private long count(long[] search) {
        boolean isAny = search[0] == 0 && search[1] == 0 && search[2] == 0;
        return isAny ? plan.file.triples() : plan.file.count(search[0], search[1], search[2]);
    }

    /** Reads the next page of which some match passes its filters. Returns whether there is one. */
    private boolean read(Step step) {
        while (step.next >= 0) {
            cancelled.check();
            if (step.isRead && step.most < HdtFile.MOST) {
                step.most = Math.min(8 * step.most, HdtFile.MOST);
                if (step.page.length <= 3 * step.most) {
                    step.page = new long[3 * step.most + 1];
                }
            }
            step.isRead = true;
            long[] search = step.search;
            step.count = plan.file.page(search[0], search[1], search[2], step.next, step.most, step.page);
            step.next = step.page[3 * step.most];
            step.at = 0;
            for (int role = 0; role < 3; role++) {
                if (step.sets[role] && plan.tests[plan.slots[step.pattern][role]] != null) {
                    filter(step, role, plan.slots[step.pattern][role]);
                }
            }
            if (step.count > 0) {
                return true;
            }
        }
        return false;
    }

    /** Leaves those matches on a page whose value in a role passes its filters. */
    private void filter(Step step, int role, int slot) {
        long[] ids = new long[step.count];
        for (int i = 0; i < ids.length; i++) {
            ids[i] = plan.value(slot, role, step.page[3 * i + role]);
        }
        boolean isNode = role != 1; // a predicate may be no node
        boolean[] passing = isNode ? plan.tests[slot].passing(ids, ids.length, plan.terms) : null;
        int left = 0;
        for (int i = 0; i < ids.length; i++) {
            if (passing != null ? passing[i] : ids[i] > 0 && passes(slot, ids[i])) {
                System.arraycopy(step.page, 3 * i, step.page, 3 * left++, 3);
            }
        }
        step.count = left;
    }

    /** Takes the next match of a page. Returns false if it gives a variable two values, or none. */
    private boolean take(Step step) {
        int match = 3 * step.at++;
        for (int role = 0; role < 3; role++) {
            if (step.sets[role]) {
                int slot = plan.slots[step.pattern][role];
                long value = plan.value(slot, role, step.page[match + role]);
                if (value < 0 || values[slot] != 0 && values[slot] != value) {
                    return false;
                }
                values[slot] = value;
            }
        }
        return true;
    }
}
