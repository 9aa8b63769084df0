package io.github.tickmarl.hdt;

import java.nio.charset.StandardCharsets;
import java.util.ArrayList;
import java.util.List;
import java.util.zip.CRC32;
import org.apache.jena.graph.Node;
import org.apache.jena.graph.Triple;
import org.apache.jena.util.iterator.ExtendedIterator;
import org.apache.jena.util.iterator.NiceIterator;

/**
 * A folder of parts (docs/PYTHON.md) as one graph, which can't be changed. All triples of a subject are in one part: a
 * search for a subject asks that part, any other one asks all of them in turn.
 */
public final class HdtParts extends ReadOnlyGraph {
    private final List<HdtGraph> parts; // null where a part has no triples

    HdtParts(List<HdtGraph> parts) {
        this.parts = new ArrayList<>(parts);
    }

    /** The parts that may have matches. */
    private List<HdtGraph> asked(Node subject) {
        List<HdtGraph> found = new ArrayList<>();
        for (int i = 0; i < parts.size(); i++) {
            HdtGraph part = parts.get(i);
            if (part != null && (!subject.isConcrete() || i == partOf(subject))) {
                found.add(part);
            }
        }
        return found;
    }

    private int partOf(Node subject) {
        String string = Terms.string(subject);
        if (string == null) {
            return -1;
        }
        CRC32 sum = new CRC32();
        sum.update(string.getBytes(StandardCharsets.UTF_8));
        return (int) (sum.getValue() % parts.size());
    }

    @Override
    protected ExtendedIterator<Triple> graphBaseFind(Triple triple) {
        ExtendedIterator<Triple> all = NiceIterator.emptyIterator();
        for (HdtGraph part : asked(triple.getSubject())) {
            all = all.andThen(part.find(triple));
        }
        return all;
    }

    @Override
    public long count(Triple triple) {
        checkOpen();
        long count = 0;
        for (HdtGraph part : asked(triple.getSubject())) {
            count += part.count(triple);
        }
        return count;
    }

    @Override
    public void close() {
        super.close();
        for (HdtGraph part : parts) {
            if (part != null) {
                part.close();
            }
        }
    }
}
