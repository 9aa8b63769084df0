package io.github.tickmarl.hdt;

import org.apache.jena.shared.JenaException;

/** A string of a file is no term of RDF, as a literal without its second quote. Files that are built have none. */
public final class HdtTermException extends JenaException {
    private static final long serialVersionUID = 1L;

    HdtTermException(String string) {
        super("the file has a string that is not a term: " + shortened(string));
    }

    private static String shortened(String string) {
        return string.length() <= 80 ? string : string.substring(0, 80) + "..";
    }
}
