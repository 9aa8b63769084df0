package io.github.tickmarl.hdt.serve;

import java.nio.file.Path;
import java.util.Iterator;
import java.util.LinkedHashMap;
import java.util.List;
import java.util.Map;

/** The options of a server. */
final class Options {
    static final String HELP = String.join("\n",
        "java -jar tickmarl-hdt.jar serve [OPTIONS] NAME=FILE ..",
        "",
        "Answers SPARQL queries over HDT files, or folders of parts, at http://HOST:PORT/NAME/sparql; a page to ask is",
        "at /NAME. A file that is replaced by rename is opened anew. No query changes or fetches anything.",
        "",
        "  --port N       the port; 0 takes a free one (default: 8080)",
        "  --host NAME    the address to listen at (default: 127.0.0.1, for this machine alone)",
        "  --timeout S    the most seconds of a query (default: 60)",
        "  --max-rows N   the most rows or triples of an answer; the header Tickmarl-Max-Rows says that there are more",
        "                 (default: no limit)",
        "  --queries N    how many queries may run at a time; others get status 503 (default: 2 for each processor)",
        "  --allow-service  allow SERVICE: then a query makes this server send requests to other ones",
        "  --help         print this",
        "");

    int port = 8080;
    String host = "127.0.0.1";
    double timeout = 60;
    long maxRows = Long.MAX_VALUE;
    int queries = 2 * Runtime.getRuntime().availableProcessors();
    boolean allowsService;
    final Map<String, Path> files = new LinkedHashMap<>();

    private Options() {}

    /** The options, or null if help is asked for. Throws IllegalArgumentException. */
    static Options of(String... arguments) {
        List<String> all = List.of(arguments);
        if (all.contains("--help") || all.equals(List.of("help"))) {
            return null;
        }
        if (all.isEmpty() || !all.get(0).equals("serve")) {
            throw new IllegalArgumentException("the command is 'serve'");
        }
        Options options = new Options();
        for (Iterator<String> rest = all.subList(1, all.size()).iterator(); rest.hasNext();) {
            options.take(rest.next(), rest);
        }
        if (options.files.isEmpty()) {
            throw new IllegalArgumentException("no NAME=FILE");
        }
        return options;
    }

    private void take(String word, Iterator<String> rest) {
        switch (word) {
            case "--port": port = (int) number(word, rest, 0, 65_535); break;
            case "--host": host = value(word, rest); break;
            case "--timeout": timeout = number(word, rest, 0.001, 1e6); break;
            case "--max-rows": maxRows = (long) number(word, rest, 1, 1e15); break;
            case "--queries": queries = (int) number(word, rest, 1, 10_000); break;
            case "--allow-service": allowsService = true; break;
            default: file(word);
        }
    }

    private void file(String word) {
        String[] parts = word.split("=", 2);
        if (word.startsWith("-") || parts.length < 2) {
            throw new IllegalArgumentException("not an option or NAME=FILE: " + word);
        }
        if (!parts[0].matches("[A-Za-z0-9][A-Za-z0-9._-]*")) {
            throw new IllegalArgumentException("not a name of letters, digits, '.', '_' and '-': " + parts[0]);
        }
        if (files.put(parts[0], Path.of(parts[1])) != null) {
            throw new IllegalArgumentException("two files have the name " + parts[0]);
        }
    }

    private static String value(String word, Iterator<String> rest) {
        if (!rest.hasNext()) {
            throw new IllegalArgumentException(word + " needs a value");
        }
        return rest.next();
    }

    private static double number(String word, Iterator<String> rest, double least, double most) {
        String text = value(word, rest);
        double number = Double.NaN;
        if (text.matches("\\d+(\\.\\d+)?")) {
            number = Double.parseDouble(text);
        }
        if (!(number >= least && number <= most)) {
            throw new IllegalArgumentException(word + " has a bad value: " + text);
        }
        return number;
    }
}
