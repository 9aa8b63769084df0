package io.github.tickmarl.hdt.serve;

import java.util.LinkedHashMap;
import java.util.Map;
import java.util.regex.Pattern;
import org.apache.jena.riot.Lang;
import org.apache.jena.riot.resultset.ResultSetLang;

/** The media types of answers, and which of them a client wants. */
final class Formats {
    /** Of rows. */
    static final Map<String, Lang> ROWS = new LinkedHashMap<>();
    /** Of a yes or no. */
    static final Map<String, Lang> BOOLEANS = new LinkedHashMap<>();
    /** Of graphs. JSON-LD is 1.0: Debian lacks what Jena's writer of 1.1 needs. */
    static final Map<String, Lang> GRAPHS = new LinkedHashMap<>();

    private static final int MOST = 100; // media types of a header that are looked at
    private static final Pattern SEMICOLON = Pattern.compile("\\s*;\\s*");
    private static final Pattern Q = Pattern.compile("[qQ]=(0(\\.\\d{0,3})?|1(\\.0{0,3})?)");

    static {
        ROWS.put("application/sparql-results+json", ResultSetLang.RS_JSON);
        ROWS.put("application/sparql-results+xml", ResultSetLang.RS_XML);
        ROWS.put("text/csv", ResultSetLang.RS_CSV);
        ROWS.put("text/tab-separated-values", ResultSetLang.RS_TSV);
        BOOLEANS.put("application/sparql-results+json", ResultSetLang.RS_JSON);
        BOOLEANS.put("application/sparql-results+xml", ResultSetLang.RS_XML);
        GRAPHS.put("text/turtle", Lang.TURTLE);
        GRAPHS.put("application/n-triples", Lang.NTRIPLES);
        GRAPHS.put("application/ld+json", Lang.JSONLD10);
        GRAPHS.put("application/rdf+xml", Lang.RDFXML);
    }

    private Formats() {}

    /** The type with the greatest q, the first of those; the first of all without a header; null if there is none. */
    static String chosen(String accept, Map<String, Lang> types) {
        if (accept == null || accept.isBlank()) {
            return types.keySet().iterator().next();
        }
        String best = null;
        double most = 0;
        for (String type : types.keySet()) {
            double quality = quality(accept, type);
            if (quality > most) {
                best = type;
                most = quality;
            }
        }
        return best;
    }

    /** The q of the most specific range that has a type, or 0. */
    private static double quality(String accept, String type) {
        double quality = 0;
        int specific = -1;
        for (String range : accept.split(",", MOST)) {
            String[] parts = SEMICOLON.split(range.trim(), 20);
            String name = parts[0].toLowerCase(java.util.Locale.ROOT);
            boolean isKind = name.endsWith("/*") && type.startsWith(name.substring(0, name.length() - 1));
            int rank = name.equals(type) ? 2 : isKind ? 1 : name.equals("*/*") ? 0 : -1;
            if (rank > specific) {
                specific = rank;
                quality = q(parts);
            }
        }
        return quality;
    }

    private static double q(String[] parts) {
        for (String part : parts) {
            if (Q.matcher(part).matches()) {
                return Double.parseDouble(part.substring(2));
            }
        }
        return 1;
    }
}
