package io.github.tickmarl.hdt;

import java.util.NoSuchElementException;
import org.apache.jena.graph.Node;
import org.apache.jena.graph.Triple;
import org.apache.jena.sys.JenaSystem;
import org.apache.jena.util.iterator.ExtendedIterator;
import org.apache.jena.util.iterator.NiceIterator;

/**
 * An HDT file as a graph of Jena, which can't be changed: {@code add} throws AddDeniedException, {@code delete},
 * {@code remove} and {@code clear} DeleteDeniedException. SPARQL over it joins over IDs.
 *
 * <p>Two terms are the same if their dictionary strings are: {@code 1} and {@code 01} are two terms, as are {@code
 * "x"@en} and {@code "x"@EN}. A blank node has the label of the file, so its node is the same whenever the file is
 * opened; two files that have a label have the same node.
 *
 * <p>Threads may share a graph. Iterators need not be closed. Once the graph is closed, every call throws
 * ClosedException, and iterators IllegalStateException.
 */
public final class HdtGraph extends ReadOnlyGraph {
    static {
        JenaSystem.init();
    }

    private static final int FIRST = 64; // triples of the first page; each next one has 8 times as many

    private final HdtFile file;
    private final Terms terms;

    /**
     * A graph of a file, which it closes when it is closed. Keeps up to 262,144 terms, of those that were used last.
     *
     * @param file an open file
     */
    public HdtGraph(HdtFile file) {
        this.file = file;
        terms = new Terms(file);
    }

    /**
     * The file.
     *
     * @return the file that the graph was made of
     */
    public HdtFile file() {
        return file;
    }

    Terms terms() {
        return terms;
    }

    private long id(Role role, Node node) {
        return node == null ? HdtFile.ANY : terms.number(role, node);
    }

    /** A part of a pattern, or null for any. */
    private static Node given(Node node) {
        return node.isConcrete() ? node : null;
    }

    @Override
    protected ExtendedIterator<Triple> graphBaseFind(Triple triple) {
        Matches matches = new Matches(triple);
        return matches.s < 0 || matches.p < 0 || matches.o < 0 ? NiceIterator.emptyIterator() : matches;
    }

    @Override
    public long count(Triple triple) {
        checkOpen();
        long s = id(Role.SUBJECT, given(triple.getSubject()));
        long p = id(Role.PREDICATE, given(triple.getPredicate()));
        long o = id(Role.OBJECT, given(triple.getObject()));
        if (s < 0 || p < 0 || o < 0) {
            return 0;
        }
        return s == 0 && p == 0 && o == 0 ? file.triples() : file.count(s, p, o);
    }

    @Override
    public void close() {
        super.close();
        file.close();
    }

    /** The matches of a pattern, by pages whose terms are made together. */
    private final class Matches extends NiceIterator<Triple> {
        final long s;
        final long p;
        final long o;
        private final Node subject;
        private final Node predicate;
        private final Node object;
        private int most = FIRST;
        private int count;
        private int at;
        private long next;
        private long[] page = new long[3 * FIRST + 1];
        private Node[] nodes;

        Matches(Triple triple) {
            subject = given(triple.getSubject());
            predicate = given(triple.getPredicate());
            object = given(triple.getObject());
            s = id(Role.SUBJECT, subject);
            p = id(Role.PREDICATE, predicate);
            o = id(Role.OBJECT, object);
        }

        private void read() {
            if (count == most && most < HdtFile.MOST) {
                most *= 8;
                page = new long[3 * most + 1];
            }
            count = file.page(s, p, o, next, most, page);
            next = page[3 * most];
            at = 0;
            long[] ids = new long[2 * count];
            for (int i = 0; i < count; i++) {
                ids[2 * i] = subject == null ? page[3 * i] : 0;
                ids[2 * i + 1] = object == null ? terms.ofObject(page[3 * i + 2]) : 0;
            }
            nodes = terms.nodes(ids, 2 * count);
        }

        @Override
        public boolean hasNext() {
            while (at == count && next >= 0) {
                read();
            }
            return at < count;
        }

        @Override
        public Triple next() {
            if (!hasNext()) {
                throw new NoSuchElementException();
            }
            int i = at++;
            return Triple.create(
                subject == null ? nodes[2 * i] : subject,
                predicate == null ? terms.predicate(page[3 * i + 1]) : predicate,
                object == null ? nodes[2 * i + 1] : object);
        }

        @Override
        public void close() {
            next = -1;
            at = count;
        }
    }
}
