package io.github.tickmarl.hdt.serve;

import com.sun.net.httpserver.Headers;
import com.sun.net.httpserver.HttpExchange;
import com.sun.net.httpserver.HttpServer;
import java.io.IOException;
import java.net.InetSocketAddress;
import java.nio.charset.StandardCharsets;
import java.util.LinkedHashMap;
import java.util.Map;
import java.util.concurrent.ExecutorService;
import java.util.concurrent.Executors;
import java.util.concurrent.Semaphore;
import org.apache.jena.query.Query;
import org.apache.jena.rdf.model.Model;
import org.apache.jena.riot.RDFDataMgr;

/** The server: pages at / and /NAME, and the service at /NAME/sparql. */
final class Endpoint implements AutoCloseable {
    private static final int OTHERS = 16; // threads besides those of queries, for pages and refusals
    private static final int RETRY_AFTER = 2; // seconds

    private final Options options;
    private final HttpServer server;
    private final ExecutorService threads;
    private final Semaphore running;
    private final Map<String, Source> sources = new LinkedHashMap<>();

    Endpoint(Options options) throws IOException {
        this.options = options;
        for (Map.Entry<String, java.nio.file.Path> it : options.files.entrySet()) {
            sources.put(it.getKey(), new Source(it.getKey(), it.getValue()));
        }
        running = new Semaphore(options.queries);
        server = HttpServer.create(new InetSocketAddress(options.host, options.port), 128);
        threads = Executors.newFixedThreadPool(options.queries + OTHERS);
        server.setExecutor(threads);
        server.createContext("/", this::handle);
    }

    void start() {
        server.start();
    }

    /** Where the server is. */
    String address() {
        return "http://" + options.host + ":" + server.getAddress().getPort() + "/";
    }

    @Override
    public void close() {
        server.stop(0);
        threads.shutdownNow();
        sources.values().forEach(Source::close);
    }

    private void handle(HttpExchange exchange) throws IOException {
        try (exchange) {
            exchange.getResponseHeaders().set("Access-Control-Allow-Origin", "*");
            exchange.getResponseHeaders().set("Access-Control-Expose-Headers", "Tickmarl-Max-Rows, Retry-After");
            try {
                route(exchange);
            } catch (Refused error) {
                if (error.status == 503) {
                    exchange.getResponseHeaders().set("Retry-After", String.valueOf(RETRY_AFTER));
                }
                send(exchange, error.status, "text/plain; charset=utf-8", error.getMessage() + "\n");
            } catch (RuntimeException | Error error) {
                System.err.println("tickmarl-hdt: " + exchange.getRequestURI().getRawPath() + ": " + error);
                send(exchange, 500, "text/plain; charset=utf-8", "an error of this server\n");
            }
        }
    }

    private void route(HttpExchange exchange) throws IOException, Refused {
        String method = exchange.getRequestMethod();
        String[] path = exchange.getRequestURI().getPath().split("/", -1);
        if (method.equals("OPTIONS")) {
            Headers headers = exchange.getResponseHeaders();
            headers.set("Access-Control-Allow-Methods", "GET, HEAD, POST, OPTIONS");
            headers.set("Access-Control-Allow-Headers", "Accept, Content-Type");
            headers.set("Access-Control-Max-Age", "86400");
            exchange.sendResponseHeaders(204, -1);
            return;
        }
        if (!method.equals("GET") && !method.equals("HEAD") && !method.equals("POST")) {
            exchange.getResponseHeaders().set("Allow", "GET, HEAD, POST, OPTIONS");
            throw new Refused(405, "the method is none of GET, HEAD, POST and OPTIONS");
        }
        if (path.length == 2 && (path[1].equals("page.js") || path[1].equals("page.css"))) {
            send(exchange, 200, path[1].endsWith("js") ? "text/javascript" : "text/css", Page.resource(path[1]));
        } else if (path.length == 2 && path[1].isEmpty()) {
            page(exchange, Page.list(sources.keySet()));
        } else if (path.length == 2) {
            try (Source.Lease lease = source(path[1]).take()) {
                page(exchange, Page.of(path[1], lease.graph.size(), lease.examples()));
            }
        } else if (path.length == 3 && path[2].equals("sparql")) {
            service(exchange, source(path[1]));
        } else {
            throw new Refused(404, "nothing is here");
        }
    }

    private Source source(String name) throws Refused {
        Source source = sources.get(name);
        if (source == null) {
            throw new Refused(404, "no file has the name " + name.replaceAll("[^A-Za-z0-9._-]", "?"));
        }
        return source;
    }

    private static void page(HttpExchange exchange, String html) throws IOException {
        exchange.getResponseHeaders().set("Content-Security-Policy",
            "default-src 'none'; script-src 'self'; style-src 'self'; connect-src 'self'; form-action 'self'");
        send(exchange, 200, "text/html; charset=utf-8", html);
    }

    private void service(HttpExchange exchange, Source source) throws IOException, Refused {
        Request request = Request.of(exchange);
        String accept = String.join(",", exchange.getRequestHeaders().getOrDefault("Accept", java.util.List.of()));
        exchange.getResponseHeaders().set("Vary", "Accept");
        if (request.query == null) {
            describe(exchange, source, accept);
            return;
        }
        Query query = Checks.query(request.query, options.allowsService);
        Answer answer = new Answer(query, accept, options);
        if (!running.tryAcquire()) {
            throw new Refused(503, "as many queries are running as may: " + options.queries);
        }
        try (Source.Lease lease = source.take(); Spool out = new Spool()) {
            answer.write(lease.graph, out);
            if (answer.isCut()) {
                exchange.getResponseHeaders().set("Tickmarl-Max-Rows", String.valueOf(options.maxRows));
            }
            send(exchange, answer.type, out);
        } finally {
            running.release();
        }
    }

    private void describe(HttpExchange exchange, Source source, String accept) throws IOException, Refused {
        String type = Formats.chosen(accept, Formats.GRAPHS);
        if (type == null) {
            int status = accept.contains("sparql-results") ? 400 : 406;
            throw new Refused(status, "no query; without one this is a description of the service, in one of: "
                + String.join(", ", Formats.GRAPHS.keySet()));
        }
        String host = exchange.getRequestHeaders().getFirst("Host");
        boolean isHost = host != null && host.matches("[A-Za-z0-9.:\\[\\]-]{1,255}");
        String at = (isHost ? "http://" + host + "/" : address()) + source.name + "/sparql";
        try (Source.Lease lease = source.take(); Spool out = new Spool()) {
            Model model = Description.of(lease.graph, at, options.allowsService);
            RDFDataMgr.write(out, model, Formats.GRAPHS.get(type));
            send(exchange, type, out);
        }
    }

    private static void send(HttpExchange exchange, String type, Spool out) throws IOException {
        exchange.getResponseHeaders().set("Content-Type", type.startsWith("text/") ? type + "; charset=utf-8" : type);
        boolean isHead = exchange.getRequestMethod().equals("HEAD");
        if (isHead) {
            exchange.getResponseHeaders().set("Content-Length", String.valueOf(out.size()));
        }
        exchange.sendResponseHeaders(200, isHead || out.size() == 0 ? -1 : out.size());
        if (!isHead) {
            out.copyTo(exchange.getResponseBody());
        }
    }

    private static void send(HttpExchange exchange, int status, String type, String text) throws IOException {
        byte[] bytes = text.getBytes(StandardCharsets.UTF_8);
        exchange.getResponseHeaders().set("Content-Type", type);
        exchange.getResponseHeaders().set("X-Content-Type-Options", "nosniff");
        boolean isHead = exchange.getRequestMethod().equals("HEAD");
        exchange.sendResponseHeaders(status, isHead || bytes.length == 0 ? -1 : bytes.length);
        if (!isHead) {
            exchange.getResponseBody().write(bytes);
        }
    }
}
