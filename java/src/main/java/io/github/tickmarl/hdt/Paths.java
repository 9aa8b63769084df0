package io.github.tickmarl.hdt;

import java.util.List;
import org.apache.jena.graph.Node;
import org.apache.jena.sparql.path.P_Alt;
import org.apache.jena.sparql.path.P_Inverse;
import org.apache.jena.sparql.path.P_Link;
import org.apache.jena.sparql.path.P_NegPropSet;
import org.apache.jena.sparql.path.P_OneOrMore1;
import org.apache.jena.sparql.path.P_Path1;
import org.apache.jena.sparql.path.P_Path2;
import org.apache.jena.sparql.path.P_ReverseLink;
import org.apache.jena.sparql.path.P_Seq;
import org.apache.jena.sparql.path.P_ZeroOrMore1;
import org.apache.jena.sparql.path.P_ZeroOrOne;
import org.apache.jena.sparql.path.Path;

/**
 * Property paths over IDs of nodes. The nodes of {@code p+} and {@code p*} are found by a loop: memory for those that
 * are reached, and no stack.
 */
final class Paths {
    private final Terms terms;
    private final HdtFile file;
    private final Cancelled cancelled;
    private final long[] page = new long[3 * HdtFile.MOST + 1];

    Paths(Terms terms, Cancelled cancelled) {
        this.terms = terms;
        this.cancelled = cancelled;
        file = terms.file;
    }

    /** Whether a path is one of SPARQL 1.1: ARQ has others, as {@code p{2,}}. */
    static boolean isSupported(Path path) {
        if (path instanceof P_Link || path instanceof P_ReverseLink) {
            return true;
        }
        if (path instanceof P_NegPropSet) {
            return !((P_NegPropSet) path).getNodes().isEmpty();
        }
        if (path instanceof P_Seq || path instanceof P_Alt) {
            return isSupported(((P_Path2) path).getLeft()) && isSupported(((P_Path2) path).getRight());
        }
        return (path instanceof P_Inverse || isSet(path)) && isSupported(((P_Path1) path).getSubPath());
    }

    /** Whether a path gives each node once. */
    private static boolean isSet(Path path) {
        return path instanceof P_ZeroOrOne || path instanceof P_ZeroOrMore1 || path instanceof P_OneOrMore1;
    }

    /** How often a path leads from a node to itself without a triple. */
    static int zeroLengths(Path path) {
        if (path instanceof P_ZeroOrOne || path instanceof P_ZeroOrMore1) {
            return 1;
        }
        if (path instanceof P_Seq) {
            return zeroLengths(((P_Seq) path).getLeft()) * zeroLengths(((P_Seq) path).getRight());
        }
        if (path instanceof P_Alt) {
            return zeroLengths(((P_Alt) path).getLeft()) + zeroLengths(((P_Alt) path).getRight());
        }
        if (path instanceof P_OneOrMore1 || path instanceof P_Inverse) {
            int lengths = zeroLengths(((P_Path1) path).getSubPath());
            return path instanceof P_Inverse ? lengths : Math.min(1, lengths);
        }
        return 0;
    }

    /**
     * Adds the nodes that a path leads to, each as often as SPARQL has it.
     *
     * @param node where it begins; not 0
     * @param isForward whether from subject to object, else back
     * @param isOnce whether duplicates are of no use, so nodes between are taken once
     */
    void follow(Path path, long node, boolean isForward, boolean isOnce, LongList out) {
        if (path instanceof P_Link) {
            link(((P_Link) path).getNode(), node, isForward, out);
        } else if (path instanceof P_ReverseLink) {
            link(((P_ReverseLink) path).getNode(), node, !isForward, out);
        } else if (path instanceof P_Inverse) {
            follow(((P_Inverse) path).getSubPath(), node, !isForward, isOnce, out);
        } else if (path instanceof P_Alt) {
            follow(((P_Alt) path).getLeft(), node, isForward, isOnce, out);
            follow(((P_Alt) path).getRight(), node, isForward, isOnce, out);
        } else if (path instanceof P_Seq) {
            sequence((P_Seq) path, node, isForward, isOnce, out);
        } else if (path instanceof P_NegPropSet) {
            negated((P_NegPropSet) path, node, isForward, out);
        } else {
            closure(path, node, isForward, out);
        }
    }

    private void sequence(P_Seq path, long node, boolean isForward, boolean isOnce, LongList out) {
        LongList between = new LongList();
        follow(isForward ? path.getLeft() : path.getRight(), node, isForward, isOnce, between);
        LongTable seen = isOnce ? new LongTable(1) : null;
        for (int i = 0; i < between.size(); i++) {
            int before = isOnce ? seen.size() : 0;
            if (!isOnce || seen.add(new long[] {between.get(i)}) == before) {
                follow(isForward ? path.getRight() : path.getLeft(), between.get(i), isForward, isOnce, out);
            }
        }
    }

    /** The nodes of a path with {@code ?}, {@code *} or {@code +}, each once. */
    private void closure(Path path, long node, boolean isForward, LongList out) {
        Path step = ((P_Path1) path).getSubPath();
        LongTable reached = new LongTable(1);
        LongList found = new LongList();
        long[] key = {node};
        if (path instanceof P_OneOrMore1) {
            reach(step, node, isForward, found, reached);
        } else {
            reached.add(key);
        }
        if (path instanceof P_ZeroOrOne) {
            reach(step, node, isForward, found, reached);
        } else {
            for (int i = 0; i < reached.size(); i++) {
                reach(step, reached.get(i, 0), isForward, found, reached);
            }
        }
        for (int i = 0; i < reached.size(); i++) {
            out.add(reached.get(i, 0));
        }
    }

    private void reach(Path step, long node, boolean isForward, LongList found, LongTable reached) {
        found.clear();
        follow(step, node, isForward, true, found);
        long[] key = new long[1];
        for (int i = 0; i < found.size(); i++) {
            key[0] = found.get(i);
            reached.add(key);
        }
    }

    private void link(Node predicate, long node, boolean isForward, LongList out) {
        long p = terms.number(Role.PREDICATE, predicate);
        if (p > 0) {
            edges(p, node, isForward, List.of(), out);
        }
    }

    private void negated(P_NegPropSet path, long node, boolean isForward, LongList out) {
        if (!path.getFwdNodes().isEmpty()) {
            edges(HdtFile.ANY, node, isForward, path.getFwdNodes(), out);
        }
        if (!path.getBwdNodes().isEmpty()) {
            edges(HdtFile.ANY, node, !isForward, path.getBwdNodes(), out);
        }
    }

    /** The other ends of the triples of a node with a predicate, or any that is not excluded. */
    private void edges(long p, long node, boolean isForward, List<Node> excluded, LongList out) {
        long end = isForward ? terms.asSubject(node) : terms.asObject(node);
        if (end < 0) {
            return;
        }
        long[] left = excluded.stream().mapToLong(it -> terms.number(Role.PREDICATE, it)).toArray();
        int most = 64;
        for (long next = 0; next >= 0; next = page[3 * most], most = next >= 0 ? HdtFile.MOST : most) {
            cancelled.check();
            int count = file.page(isForward ? end : 0, p, isForward ? 0 : end, next, most, page);
            for (int i = 0; i < count; i++) {
                if (!isIn(left, page[3 * i + 1])) {
                    out.add(isForward ? terms.ofObject(page[3 * i + 2]) : page[3 * i]);
                }
            }
        }
    }

    private static boolean isIn(long[] numbers, long number) {
        for (long it : numbers) {
            if (it == number) {
                return true;
            }
        }
        return false;
    }

    /** Whether a triple has the node: a file may have strings that no triple uses. */
    boolean isNode(long node) {
        return terms.asSubject(node) > 0 && file.count(terms.asSubject(node), 0, 0) > 0
            || terms.asObject(node) > 0 && file.count(0, 0, terms.asObject(node)) > 0;
    }
}
