package io.github.tickmarl.hdt;

import java.io.IOException;
import java.io.InputStream;
import java.nio.file.Files;
import java.nio.file.Path;
import java.util.ArrayList;
import java.util.List;
import org.apache.jena.atlas.json.JSON;
import org.apache.jena.atlas.json.JsonArray;
import org.apache.jena.atlas.json.JsonException;
import org.apache.jena.atlas.json.JsonObject;
import org.apache.jena.atlas.json.JsonValue;

/** The manifest of a folder of parts, as hdt.parts of Python writes it. */
final class Manifest {
    static final String NAME = "manifest.json";
    private static final int MOST_BYTES = 32 << 20;
    private static final int MOST_PARTS = 65_536;

    private Manifest() {}

    /** Opens the files of a folder. A part without triples is null. */
    static List<HdtGraph> open(Path folder) throws IOException {
        Path path = folder.resolve(NAME);
        List<HdtGraph> parts = new ArrayList<>();
        boolean done = false;
        try {
            JsonArray rows = rows(path);
            for (int number = 0; number < rows.size(); number++) {
                parts.add(part(folder, number, rows.get(number).getAsObject()));
            }
            done = true;
            return parts;
        } catch (JsonException | ArithmeticException | NullPointerException | NumberFormatException error) {
            throw new IOException(path + " is not the manifest of a graph in parts: " + error.getMessage(), error);
        } finally {
            if (!done) {
                parts.stream().filter(part -> part != null).forEach(HdtGraph::close);
            }
        }
    }

    private static JsonArray rows(Path path) throws IOException {
        byte[] text;
        try (InputStream in = Files.newInputStream(path)) {
            text = in.readNBytes(MOST_BYTES + 1);
        }
        if (text.length > MOST_BYTES) {
            throw new JsonException("more than " + MOST_BYTES + " bytes");
        }
        JsonObject all = JSON.parse(new java.io.ByteArrayInputStream(text));
        JsonValue kind = all.get("kind");
        JsonValue version = all.get("version");
        if (kind == null || !kind.isString() || !kind.getAsString().value().equals("hdt-parts")
            || version == null || number(all, "version") != 1) {
            throw new JsonException("its kind is not hdt-parts, version 1");
        }
        JsonArray rows = all.get("parts").getAsArray();
        if (rows.isEmpty() || rows.size() > MOST_PARTS) {
            throw new JsonException(rows.size() + " parts");
        }
        return rows;
    }

    private static long number(JsonObject row, String name) {
        JsonValue value = row.get(name);
        if (value == null || !value.isNumber()) {
            throw new JsonException(name + " is not a number");
        }
        return value.getAsNumber().value().longValue();
    }

    private static HdtGraph part(Path folder, int number, JsonObject row) throws IOException {
        String name = row.get("file").getAsString().value();
        if (name.isEmpty()) {
            return null;
        }
        if (!name.equals(String.format("part-%05d.hdt", number))) {
            throw new JsonException("the file of part " + number + " is " + name);
        }
        Path path = folder.resolve(name);
        if (Files.exists(path) && Files.size(path) != number(row, "bytes")) {
            throw new IOException(path + " is not the file of the manifest: it has another size");
        }
        HdtFile file = HdtFile.open(path);
        if (file.triples() != number(row, "triples")) {
            file.close();
            throw new IOException(path + " is not the file of the manifest: it has " + file.triples() + " triples");
        }
        return new HdtGraph(file);
    }
}
