package io.github.tickmarl.hdt;

import java.util.Random;

/** A graph of products, offers, reviews and people, like that of the Berlin SPARQL Benchmark. */
final class Shop {
    private static final String V = "http://shop.example/v#";
    private static final String I = "http://shop.example/i/";
    private static final String XSD = "http://www.w3.org/2001/XMLSchema#";
    private static final String RDF_TYPE = "<http://www.w3.org/1999/02/22-rdf-syntax-ns#type>";
    private static final String RDFS = "http://www.w3.org/2000/01/rdf-schema#";
    private static final String FOAF = "http://xmlns.com/foaf/0.1/";
    private static final String[] COUNTRIES = {"DE", "US", "FR", "GB", "JP", "CN", "IT", "ES", "AT", "RU"};
    private static final String[] WORDS = {"bamin", "kegel", "lotor", "vupekon", "niminer", "podar", "rasunum",
        "setor"};

    private final Random random = new Random(7);
    private final StringBuilder text = new StringBuilder();
    private final int products;

    private Shop(int products) {
        this.products = products;
    }

    /** N-Triples: some 30 triples for each product. */
    static String graph(int products) {
        Shop shop = new Shop(products);
        shop.classes();
        shop.people();
        for (int i = 0; i < products; i++) {
            shop.product(i);
        }
        return shop.text.toString();
    }

    private void add(String subject, String predicate, String object) {
        text.append(subject.startsWith("_:") ? subject : iri(subject)).append(' ').append(predicate).append(' ')
            .append(object).append(" .\n");
    }

    private static String iri(String name) {
        return '<' + I + name + '>';
    }

    private static String v(String name) {
        return '<' + V + name + '>';
    }

    private static String typed(Object value, String type) {
        return '"' + value.toString() + "\"^^<" + XSD + type + '>';
    }

    private int below(int bound) {
        return random.nextInt(bound);
    }

    private String words(int count) {
        StringBuilder words = new StringBuilder();
        for (int i = 0; i < count; i++) {
            words.append(i == 0 ? "" : " ").append(WORDS[below(WORDS.length)]);
        }
        return words.toString();
    }

    private String country() {
        return iri("country/" + COUNTRIES[below(COUNTRIES.length)]);
    }

    private String day() {
        return String.format("%d-%02d-%02d", 2015 + below(10), 1 + below(12), 1 + below(28));
    }

    private void classes() {
        for (String country : COUNTRIES) {
            add("country/" + country, RDF_TYPE, v("Country"));
            add("country/" + country, '<' + RDFS + "label>", '"' + country + '"');
        }
        for (int i = 0; i < 150; i++) {
            add("type/" + i, RDF_TYPE, v("ProductType"));
            if (i > 0) {
                add("type/" + i, '<' + RDFS + "subClassOf>", iri("type/" + (i - 1) / 4));
            }
        }
        for (String kind : new String[] {"Producer", "Vendor"}) {
            for (int i = 0; i < 10; i++) {
                String name = kind.toLowerCase(java.util.Locale.ROOT) + "/" + i;
                add(name, RDF_TYPE, v(kind));
                add(name, '<' + RDFS + "label>", '"' + words(1) + '"');
                add(name, v("country"), country());
            }
        }
    }

    private void people() {
        for (int i = 0; i < products / 2; i++) {
            String name = "person/" + i;
            add(name, RDF_TYPE, '<' + FOAF + "Person>");
            add(name, '<' + FOAF + "name>", '"' + words(2) + '"');
            add(name, v("country"), country());
            for (int j = 0; j < 3; j++) {
                add(name, '<' + FOAF + "knows>", iri("person/" + below(products / 2)));
            }
            if (i % 5 == 0) {
                add(name, v("address"), "_:a" + i);
                add("_:a" + i, v("street"), '"' + words(2) + '"');
                add("_:a" + i, v("zip"), String.format("\"%05d\"", below(2000)));
            }
        }
    }

    private void product(int i) {
        String name = "product/" + i;
        add(name, RDF_TYPE, v("Product"));
        add(name, RDF_TYPE, iri("type/" + (30 + below(120))));
        add(name, '<' + RDFS + "label>", '"' + words(3) + "\"@en");
        if (below(5) < 3) {
            add(name, '<' + RDFS + "label>", '"' + words(3) + "\"@" + new String[] {"de", "de-AT", "de-at"}[below(3)]);
        }
        add(name, v("producer"), iri("producer/" + below(10)));
        for (int j = 0; j < 3; j++) {
            add(name, v("feature"), iri("feature/" + below(40)));
        }
        add(name, v("size"), typed(1 + below(2000), "integer"));
        if (below(2) == 0) {
            add(name, v("weight"), typed(below(10000) / 100.0, "decimal"));
        }
        add(name, v("released"), typed(day(), "date"));
        for (int j = 0; j < 2; j++) {
            String offer = "offer/" + (2 * i + j);
            add(offer, RDF_TYPE, v("Offer"));
            add(offer, v("product"), iri("product/" + below(products * 9 / 10)));
            add(offer, v("vendor"), iri("vendor/" + below(10)));
            add(offer, v("price"), typed((100 + below(99900)) / 100.0, "decimal"));
            add(offer, v("days"), typed(1 + below(14), "integer"));
        }
        review(i);
    }

    private void review(int i) {
        String name = "review/" + i;
        add(name, RDF_TYPE, v("Review"));
        add(name, v("reviewFor"), iri("product/" + below(products)));
        add(name, v("reviewer"), iri("person/" + below(products / 2)));
        add(name, v("title"), '"' + words(4) + "\"@" + new String[] {"en", "de", "fr"}[below(3)]);
        add(name, v("date"), typed(day() + "T12:00:00", "dateTime"));
        if (below(10) < 7) {
            add(name, v("rating"), typed(1 + below(10), "integer"));
        }
        if (below(10) < 3) {
            add(name, v("score"), typed(below(100) / 10.0 + "E0", "double"));
        }
    }
}
