package io.github.tickmarl.hdt.serve;

import java.io.IOException;
import java.io.InputStream;
import java.nio.charset.StandardCharsets;
import java.util.Collection;
import java.util.List;

/** The pages of the server. */
final class Page {
    private Page() {}

    static String resource(String name) throws IOException {
        try (InputStream in = Page.class.getResourceAsStream(name)) {
            return new String(in.readAllBytes(), StandardCharsets.UTF_8);
        }
    }

    private static String escaped(String text) {
        return text.replace("&", "&amp;").replace("<", "&lt;").replace(">", "&gt;").replace("\"", "&quot;");
    }

    /** The page that lists the files. */
    static String list(Collection<String> names) throws IOException {
        StringBuilder list = new StringBuilder("<ul>\n");
        for (String name : names) {
            list.append("<li><a href=\"/").append(name).append("\">").append(name).append("</a></li>\n");
        }
        return page("HDT files", list.append("</ul>\n").toString());
    }

    /** The page to ask a file. */
    static String of(String name, long triples, List<String[]> examples) throws IOException {
        StringBuilder list = new StringBuilder();
        for (String[] it : examples) {
            list.append("<li><button type=\"button\" data-query=\"").append(escaped(it[1])).append("\">")
                .append(escaped(it[0])).append("</button></li>\n");
        }
        return page(name, resource("ask.html").replace("@ACTION@", "/" + name + "/sparql")
            .replace("@TRIPLES@", String.format(java.util.Locale.ROOT, "%,d", triples))
            .replace("@QUERY@", escaped(examples.get(0)[1])).replace("@EXAMPLES@", list));
    }

    private static String page(String title, String body) throws IOException {
        return resource("page.html").replace("@TITLE@", escaped(title)).replace("@BODY@", body);
    }
}
