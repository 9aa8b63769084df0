package io.github.tickmarl.hdt;

import org.apache.jena.graph.Capabilities;
import org.apache.jena.graph.Node;
import org.apache.jena.graph.Triple;
import org.apache.jena.graph.impl.GraphBase;
import org.apache.jena.shared.DeleteDeniedException;

/** A graph of files: it can't be changed, and its terms are the same if their strings are. */
abstract class ReadOnlyGraph extends GraphBase {
    private static final Capabilities READ_ONLY = new Capabilities() {
        @Override
        public boolean sizeAccurate() {
            return true;
        }

        @Override
        public boolean addAllowed() {
            return false;
        }

        @Override
        public boolean deleteAllowed() {
            return false;
        }

        @Override
        public boolean handlesLiteralTyping() {
            return false;
        }
    };

    @Override
    public Capabilities getCapabilities() {
        return READ_ONLY;
    }

    /**
     * The number of triples that match, without making terms.
     *
     * @param triple a triple, in which Node.ANY and variables match any term
     * @return the number; {@link #size} ends at 2^31 - 1
     */
    public abstract long count(Triple triple);

    @Override
    protected boolean graphBaseContains(Triple triple) {
        return count(triple) > 0;
    }

    @Override
    protected int graphBaseSize() {
        return (int) Math.min(count(Triple.ANY), Integer.MAX_VALUE);
    }

    @Override
    public void clear() {
        throw new DeleteDeniedException("an HDT file can't be changed");
    }

    @Override
    public void remove(Node s, Node p, Node o) {
        throw new DeleteDeniedException("an HDT file can't be changed");
    }
}
