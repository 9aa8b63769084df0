package io.github.tickmarl.hdt;

import java.util.Arrays;
import org.apache.jena.datatypes.xsd.XSDDatatype;
import org.apache.jena.graph.Node;
import org.apache.jena.graph.NodeFactory;

/**
 * The terms of a file, and their IDs. The ID of a <em>node</em> is that of the subject; an object that is no subject
 * has its ID there plus {@link #more}. So a join of subjects and objects compares one number. Threads share this
 * without a lock: entries of the caches don't change once they are made.
 */
final class Terms {
    private static final int MOST_KEPT = 1 << 18; // nodes by ID, a power of two
    private static final int MOST_FOUND = 1 << 16; // IDs by node, in each role, a power of two
    private static final long SPREAD = 0x9E3779B97F4A7C15L; // 2^64 by the golden ratio, for slots

    final HdtFile file;
    /** What the ID of an object that is no subject lacks to its node's ID. */
    final long more;
    /** The greatest ID of a node. */
    final long greatest;
    private final long subjects;
    private final Kept[] kept;
    private final Kept[] predicates;
    private final Found[][] found;

    private static final class Kept {
        final long id;
        final Node node;

        Kept(long id, Node node) {
            this.id = id;
            this.node = node;
        }
    }

    private static final class Found {
        final Node node;
        final long id;

        Found(Node node, long id) {
            this.node = node;
            this.id = id;
        }
    }

    Terms(HdtFile file) {
        this.file = file;
        subjects = file.strings(Role.SUBJECT);
        more = subjects - file.shared();
        greatest = file.strings(Role.OBJECT) + more;
        kept = new Kept[slots(greatest, MOST_KEPT)];
        predicates = new Kept[slots(file.strings(Role.PREDICATE), MOST_KEPT)];
        found = new Found[3][slots(greatest, MOST_FOUND)];
    }

    /** A power of two: at least the number, or the most. */
    private static int slots(long number, int most) {
        return number >= most ? most : Math.max(2, Integer.highestOneBit((int) number) << 1);
    }

    private static int slot(long key, Object[] cache) {
        return (int) (key * SPREAD >>> 1 + Long.numberOfLeadingZeros(cache.length));
    }

    /** The node of a dictionary string. */
    static Node node(String string) {
        if (string.startsWith("\"")) {
            return literal(string);
        }
        boolean isBlank = string.startsWith("_:");
        return isBlank ? NodeFactory.createBlankNode(string.substring(2)) : NodeFactory.createURI(string);
    }

    private static Node literal(String string) {
        int end = string.lastIndexOf('"');
        if (end > 0) {
            String text = string.substring(1, end);
            String suffix = string.substring(end + 1);
            if (suffix.isEmpty()) {
                return NodeFactory.createLiteral(text);
            }
            if (suffix.startsWith("@") && suffix.length() > 1) {
                return NodeFactory.createLiteral(text, suffix.substring(1));
            }
            if (suffix.startsWith("^^<") && suffix.endsWith(">") && suffix.length() > 4) {
                String datatype = suffix.substring(3, suffix.length() - 1);
                return NodeFactory.createLiteral(text, NodeFactory.getType(datatype));
            }
        }
        throw new HdtTermException(string);
    }

    /**
     * The dictionary string of a node, or null if no file has one: a variable, or an IRI that looks like another
     * term.
     */
    static String string(Node node) {
        if (node.isURI()) {
            String iri = node.getURI();
            return iri.startsWith("\"") || iri.startsWith("_:") ? null : iri;
        }
        if (node.isBlank()) {
            return "_:" + node.getBlankNodeLabel();
        }
        if (!node.isLiteral()) {
            return null;
        }
        String text = '"' + node.getLiteralLexicalForm() + '"';
        String language = node.getLiteralLanguage();
        if (!language.isEmpty()) {
            return text + '@' + language;
        }
        return isString(node) ? text : text + "^^<" + node.getLiteralDatatypeURI() + '>';
    }

    private static boolean isString(Node literal) {
        return XSDDatatype.XSDstring.getURI().equals(literal.getLiteralDatatypeURI());
    }

    /** The ID of a node in a role, or {@link HdtFile#NONE}. */
    long number(Role role, Node node) {
        Found[] cache = found[role.ordinal()];
        int at = slot(node.hashCode(), cache);
        Found it = cache[at];
        if (it != null && it.node.equals(node)) {
            return it.id;
        }
        long id = lookedUp(role, node);
        cache[at] = new Found(node, id);
        return id;
    }

    private long lookedUp(Role role, Node node) {
        String string = string(node);
        if (string == null) {
            return HdtFile.NONE;
        }
        long id = file.number(role, string);
        if (id == HdtFile.NONE && string.endsWith("\"") && isString(node)) {
            // (files of other programs may have the datatype)
            id = file.number(role, string + "^^<" + XSDDatatype.XSDstring.getURI() + '>');
        }
        return id;
    }

    /** The ID of a term as a node, or {@link HdtFile#NONE}. */
    long nodeId(Node node) {
        long id = number(Role.SUBJECT, node);
        if (id > 0) {
            return id;
        }
        id = number(Role.OBJECT, node);
        return id > 0 ? ofObject(id) : HdtFile.NONE;
    }

    /** The ID of an object as a node. */
    long ofObject(long object) {
        return object <= file.shared() ? object : object + more;
    }

    /** The ID that a node has as a subject, or {@link HdtFile#NONE}. */
    long asSubject(long node) {
        return node <= subjects ? node : HdtFile.NONE;
    }

    /** The ID that a node has as an object, or {@link HdtFile#NONE}. */
    long asObject(long node) {
        return node <= file.shared() ? node : node <= subjects ? HdtFile.NONE : node - more;
    }

    /** The node of a predicate. */
    Node predicate(long id) {
        int at = slot(id, predicates);
        Kept it = predicates[at];
        if (it == null || it.id != id) {
            it = new Kept(id, node(file.string(Role.PREDICATE, id)));
            predicates[at] = it;
        }
        return it.node;
    }

    /** The node with an ID. */
    Node node(long id) {
        Kept it = kept[slot(id, kept)];
        return it != null && it.id == id ? it.node : nodes(new long[] {id}, 1)[0];
    }

    /** The nodes with the first of these IDs, of which 0 is none. Those that aren't kept are looked up together. */
    Node[] nodes(long[] wanted, int count) {
        Node[] nodes = new Node[count];
        long[] lacking = new long[count];
        int lack = 0;
        for (int i = 0; i < count; i++) {
            long id = wanted[i];
            if (id != 0) {
                Kept it = kept[slot(id, kept)];
                if (it != null && it.id == id) {
                    nodes[i] = it.node;
                } else {
                    lacking[lack++] = id;
                }
            }
        }
        if (lack > 0) {
            lookUp(lacking, lack, wanted, nodes);
        }
        return nodes;
    }

    private void lookUp(long[] lacking, int lack, long[] wanted, Node[] nodes) {
        Arrays.sort(lacking, 0, lack);
        int unique = 0;
        for (int i = 0; i < lack; i++) {
            if (i == 0 || lacking[i] != lacking[i - 1]) {
                lacking[unique++] = lacking[i];
            }
        }
        Node[] made = made(lacking, unique);
        for (int i = 0; i < nodes.length; i++) {
            if (nodes[i] == null && wanted[i] != 0) {
                nodes[i] = made[Arrays.binarySearch(lacking, 0, unique, wanted[i])];
            }
        }
    }

    private Node[] made(long[] ids, int count) {
        int middle = 0;
        while (middle < count && ids[middle] <= subjects) {
            middle++;
        }
        long[] numbers = Arrays.copyOf(ids, count);
        for (int i = middle; i < count; i++) {
            numbers[i] -= more;
        }
        String[] strings = new String[count];
        file.strings(Role.SUBJECT, numbers, 0, middle, strings);
        file.strings(Role.OBJECT, numbers, middle, count, strings);
        Node[] made = new Node[count];
        for (int i = 0; i < count; i++) {
            made[i] = node(strings[i]);
            kept[slot(ids[i], kept)] = new Kept(ids[i], made[i]);
        }
        return made;
    }
}
