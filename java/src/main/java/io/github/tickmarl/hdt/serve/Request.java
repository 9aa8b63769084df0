package io.github.tickmarl.hdt.serve;

import com.sun.net.httpserver.HttpExchange;
import java.io.IOException;
import java.net.URLDecoder;
import java.nio.ByteBuffer;
import java.nio.charset.CharacterCodingException;
import java.nio.charset.StandardCharsets;
import java.util.ArrayList;
import java.util.List;
import java.util.Locale;

/** A request of SPARQL 1.1 Protocol: its query, or none. */
final class Request {
    private static final int MOST = 1 << 20; // bytes of a body

    /** The query, or null if there is none. */
    final String query;

    private Request(String query) {
        this.query = query;
    }

    static Request of(HttpExchange exchange) throws IOException, Refused {
        String form = exchange.getRequestURI().getRawQuery();
        String method = exchange.getRequestMethod();
        if (!method.equals("POST")) {
            return new Request(query(form == null ? "" : form));
        }
        String type = exchange.getRequestHeaders().getFirst("Content-Type");
        type = type == null ? "" : type.split(";", 2)[0].trim().toLowerCase(Locale.ROOT);
        String body = body(exchange);
        if (type.equals("application/x-www-form-urlencoded")) {
            return posted(query(body));
        }
        if (type.equals("application/sparql-query")) {
            query(form == null ? "" : form); // (other graphs are refused)
            return posted(body);
        }
        throw new Refused(415, "the body is neither application/sparql-query nor application/x-www-form-urlencoded");
    }

    private static Request posted(String query) throws Refused {
        if (query == null) {
            throw new Refused(400, "no query");
        }
        return new Request(query);
    }

    private static String body(HttpExchange exchange) throws IOException, Refused {
        byte[] bytes = exchange.getRequestBody().readNBytes(MOST + 1);
        if (bytes.length > MOST) {
            throw new Refused(413, "the query has more than " + MOST + " bytes");
        }
        try {
            return StandardCharsets.UTF_8.newDecoder().decode(ByteBuffer.wrap(bytes)).toString();
        } catch (CharacterCodingException error) {
            throw new Refused(400, "the query is not UTF-8");
        }
    }

    /** The query of a form, or null. */
    private static String query(String form) throws Refused {
        List<String> queries = new ArrayList<>();
        for (String pair : form.split("&")) {
            String[] parts = pair.split("=", 2);
            String name = decoded(parts[0]);
            if (name.equals("query")) {
                queries.add(decoded(parts.length == 2 ? parts[1] : ""));
            } else if (name.equals("default-graph-uri") || name.equals("named-graph-uri")) {
                throw new Refused(403, name + ": this server has one graph, and fetches no others");
            } else if (name.equals("update")) {
                throw new Refused(403, "an update: this server changes nothing");
            }
        }
        if (queries.size() > 1) {
            throw new Refused(400, "more than one query");
        }
        return queries.isEmpty() ? null : queries.get(0);
    }

    private static String decoded(String text) throws Refused {
        try {
            return URLDecoder.decode(text, StandardCharsets.UTF_8);
        } catch (IllegalArgumentException error) {
            throw new Refused(400, "a bad escape in the form: " + error.getMessage());
        }
    }
}
