package io.github.tickmarl.hdt;

import java.util.ArrayList;
import java.util.List;
import java.util.Random;
import org.apache.jena.graph.Node;
import org.apache.jena.graph.Triple;
import org.apache.jena.sparql.util.FmtUtils;

/** Random graphs of odd terms, and random queries about them. */
final class Generator {
    private static final String XSD = "http://www.w3.org/2001/XMLSchema#";
    private static final List<String> LITERALS = List.of("\"\"", "\"x\"", "\"x\"@en", "\"x\"@EN", "\"x\"@de-AT",
        "\"1\"^^<" + XSD + "integer>", "\"01\"^^<" + XSD + "integer>", "\"1.0\"^^<" + XSD + "double>",
        "\"bad\"^^<" + XSD + "integer>", "\"a\\\"b\\\\c\\n\\t\\r\"", "\"\\U0001F600 \u00E9\"", "\"1\"^^<u:t>",
        "\"x\"^^<" + XSD + "string>", "\"a\\\"@en\"", "\"\\u0001\\u0008\"", "\"2020-01-01\"^^<" + XSD + "date>");
    private static final List<String> PREDICATES = List.of("<n:1>", "<n:2>", "<p:1>", "<p:2>",
        "<http://\u00E9.example/p>");

    private final Random random;
    private boolean isExists; // whether a group of EXISTS is being made

    Generator(long seed) {
        random = new Random(seed);
    }

    private <T> T one(List<T> list) {
        return list.get(random.nextInt(list.size()));
    }

    private int below(int bound) {
        return random.nextInt(bound);
    }

    /** N-Triples. */
    String graph() {
        List<String> nodes = new ArrayList<>();
        int count = 3 + below(12);
        for (int i = 0; i < count; i++) {
            nodes.add(below(4) == 0 ? "_:b" + i : "<n:" + i + ">");
        }
        StringBuilder text = new StringBuilder();
        int triples = 1 + below(120);
        for (int i = 0; i < triples; i++) {
            text.append(one(nodes)).append(' ').append(one(PREDICATES)).append(' ')
                .append(below(3) == 0 ? one(LITERALS) : one(nodes)).append(" .\n");
        }
        return text.toString();
    }

    /** A SELECT about these triples. */
    String query(List<Triple> all) {
        String group = "{ " + group(all, below(3)) + "}";
        switch (below(8)) {
            case 0:
                return "SELECT DISTINCT " + one(List.of("?a", "?p", "?a ?b", "?b ?c ?q", "*")) + " " + group;
            case 1:
                return "SELECT (COUNT(*) AS ?n) " + group;
            case 2:
                String by = one(List.of("?a", "?p", "?b ?a", "?c ?q"));
                String count = one(List.of("COUNT(*)", "COUNT(?b)", "COUNT(DISTINCT ?a)", "COUNT(DISTINCT ?q)"));
                return "SELECT " + by + " (" + count + " AS ?n) (COUNT(DISTINCT ?c) AS ?m) " + group
                    + " GROUP BY " + by;
            default:
                return "SELECT * " + group;
        }
    }

    private String part(Node term, int role) {
        if (below(10) < (role == 1 ? 3 : 6)) {
            return variable(role == 1 && below(4) > 0);
        }
        return term.isBlank() || term.isLiteral() && role < 2 ? "?a" : FmtUtils.stringForNode(term);
    }

    private String variable(boolean isPredicate) {
        return one(isPredicate ? List.of("?p", "?q") : List.of("?a", "?b", "?c", "?d"));
    }

    private String patterns(List<Triple> all, int count) {
        StringBuilder text = new StringBuilder();
        for (int i = 0; i < count; i++) {
            Triple triple = one(all);
            text.append(part(triple.getSubject(), 0)).append(' ').append(part(triple.getPredicate(), 1)).append(' ')
                .append(part(triple.getObject(), 2)).append(" . ");
        }
        return text.toString();
    }

    private String group(List<Triple> all, int depth) {
        String before = patterns(all, 1 + below(3));
        if (depth == 0) {
            return below(4) == 0 ? before + filter() : before;
        }
        int kind = below(13);
        boolean isOuter = !isExists;
        isExists |= kind == 2 || kind == 3;
        String inner = group(all, depth - 1);
        isExists &= !isOuter;
        switch (isExists && (kind == 4 || kind == 7) ? 0 : kind) { // (what ARQ substitutes in these is its own choice)
            case 0: return before + "OPTIONAL { " + inner + "} ";
            case 1: return "{ " + before + "} UNION { " + inner + "} ";
            case 2: return before + "FILTER EXISTS { " + inner + "} ";
            case 3: return before + "FILTER NOT EXISTS { " + inner + "} ";
            case 4: return before + "MINUS { " + inner + "} ";
            case 5: return before + filter() + patterns(all, 1);
            case 6:
                String value = part(one(all).getObject(), 2).replaceAll("^\\?.*", "UNDEF");
                return "VALUES ?a { " + value + " <n:1> } " + before;
            case 7: return before + "{ SELECT DISTINCT ?a { " + inner + "} } ";
            case 8: return before + "BIND(?a AS ?z) " + patterns(all, 1).replace("?d", "?z");
            case 9: return before + filter() + "OPTIONAL { " + inner + filter() + "} " + filter();
            default: return before + path(all);
        }
    }

    /** A filter; not of equal terms in EXISTS, where ARQ takes variables of outside for unbound ones. */
    private String filter() {
        String var = variable(below(4) == 0);
        if (isExists) {
            List<String> some = List.of("?a != ?b", "isIRI(" + var + ")", var + " > 0", "bound(" + var + ")");
            return "FILTER(" + one(some) + ") ";
        }
        return "FILTER(" + one(List.of("?a != ?b", var + " = <n:1>", "isIRI(" + var + ")", "isLiteral(" + var + ")",
            var + " > 0", "lang(" + var + ") = \"en\"", "bound(" + var + ")", "regex(str(" + var + "), \"1\")",
            "?a < ?b || isBlank(?c)", "sameTerm(?b, ?c)", "!bound(?d)",
            "<" + XSD + "integer>(" + var + ") = 1")) + ") ";
    }

    /**
     * A pattern with a path. Not both ends are given if one is a literal, which ARQ compares by its value then. And
     * none of zero length is in EXISTS: ARQ substitutes variables there, which then need not have nodes of the graph.
     */
    private String path(List<Triple> all) {
        String path = isExists ? link() + "+" : path(2);
        String start = below(2) == 0 ? variable(false) : part(one(all).getSubject(), 0);
        String end = below(2) == 0 ? variable(false) : part(one(all).getObject(), 2);
        if (!start.startsWith("?") && !end.startsWith("<")) {
            end = variable(false);
        }
        return start + " " + path + " " + end + " . ";
    }

    private String link() {
        return one(List.of("<p:1>", "<n:1>", "<p:2>", "^<n:1>", "<n:none>"));
    }

    private String path(int depth) {
        String link = link();
        if (depth == 0) {
            return link;
        }
        switch (below(8)) {
            case 0: return "(" + path(depth - 1) + ")+";
            case 1: return "(" + path(depth - 1) + ")*";
            case 2: return "(" + path(depth - 1) + ")?";
            case 3: return "(" + path(depth - 1) + "/" + path(depth - 1) + ")";
            case 4: return "(" + path(depth - 1) + "|" + path(depth - 1) + ")";
            case 5: return "^(" + path(depth - 1) + ")";
            case 6: return one(List.of("!<p:1>", "!(<p:1>|^<p:2>)", "!(^<n:1>|^<n:2>)", "!(<n:none>)"));
            default: return link + one(List.of("+", "*", "?"));
        }
    }
}
