package io.github.tickmarl.hdt;

import java.util.ArrayList;
import java.util.Collection;
import java.util.LinkedHashMap;
import java.util.List;
import java.util.Map;
import org.apache.jena.graph.Node;
import org.apache.jena.graph.Triple;
import org.apache.jena.sparql.core.Var;

/**
 * Triple patterns over a file, with a slot for each variable. The value of a slot is the ID of a node, or that of a
 * predicate if the variable is only a predicate; 0 if it is unbound.
 */
final class Plan {
    /** The most patterns of a plan. */
    static final int MOST = 63;

    final HdtFile file;
    final Terms terms;
    final Var[] vars;
    /** By slot: whether its value is the ID of a predicate. */
    final boolean[] isPredicate;
    /** By pattern and role: the ID that is given, or 0. */
    final long[][] given;
    /** By pattern and role: the slot of the variable, or -1. */
    final int[][] slots;
    /** By slot: the filter of the variable, or null. */
    final Test[] tests;
    /** Whether the file lacks a term that is given, so nothing matches. */
    final boolean isEmpty;

    private Plan(HdtGraph graph, List<Triple> patterns, Map<Var, Integer> slotOf, boolean[] isPredicate) {
        file = graph.file();
        terms = graph.terms();
        vars = slotOf.keySet().toArray(new Var[0]);
        this.isPredicate = isPredicate;
        given = new long[patterns.size()][3];
        slots = new int[patterns.size()][3];
        tests = new Test[vars.length];
        boolean lacks = false;
        for (int i = 0; i < slots.length; i++) {
            for (Role role : Role.values()) {
                int r = role.ordinal();
                Node part = part(patterns.get(i), role);
                slots[i][r] = Var.isVar(part) ? slotOf.get(Var.alloc(part)) : -1;
                given[i][r] = Var.isVar(part) ? 0 : terms.number(role, part);
                lacks |= given[i][r] < 0;
            }
        }
        isEmpty = lacks;
    }

    /** A plan of patterns, or null if it has none or too many, or parts that are neither variables nor terms. */
    static Plan of(HdtGraph graph, Collection<Triple> triples) {
        List<Triple> patterns = new ArrayList<>(triples);
        if (patterns.isEmpty() || patterns.size() > MOST) {
            return null;
        }
        Map<Var, Integer> slotOf = new LinkedHashMap<>();
        Map<Var, Boolean> predicates = new LinkedHashMap<>(); // whether they are that alone
        for (Triple triple : patterns) {
            for (Role role : Role.values()) {
                Node part = part(triple, role);
                if (Var.isVar(part)) {
                    slotOf.putIfAbsent(Var.alloc(part), slotOf.size());
                    predicates.merge(Var.alloc(part), role == Role.PREDICATE, Boolean::logicalAnd);
                } else if (!part.isConcrete()) {
                    return null;
                }
            }
        }
        boolean[] isPredicate = new boolean[slotOf.size()];
        slotOf.forEach((var, slot) -> isPredicate[slot] = predicates.get(var));
        return new Plan(graph, patterns, slotOf, isPredicate);
    }

    private static Node part(Triple triple, Role role) {
        return role == Role.SUBJECT ? triple.getSubject()
            : role == Role.PREDICATE ? triple.getPredicate() : triple.getObject();
    }

    /** The slot of a variable, or -1. */
    int slot(Var var) {
        for (int i = 0; i < vars.length; i++) {
            if (vars[i].equals(var)) {
                return i;
            }
        }
        return -1;
    }

    /** The ID that a value has in a role, or {@link HdtFile#NONE}. */
    long inRole(int slot, int role, long value) {
        if (role == 0) {
            return terms.asSubject(value);
        }
        if (role == 2) {
            return terms.asObject(value);
        }
        return isPredicate[slot] ? value : terms.number(Role.PREDICATE, terms.node(value));
    }

    /** The value of an ID in a role, or {@link HdtFile#NONE}: a predicate may be no node. */
    long value(int slot, int role, long id) {
        if (role == 0) {
            return id;
        }
        if (role == 2) {
            return terms.ofObject(id);
        }
        return isPredicate[slot] ? id : terms.nodeId(terms.predicate(id));
    }
}
