package io.github.tickmarl.hdt.serve;

import io.github.tickmarl.hdt.HdtGraph;
import io.github.tickmarl.hdt.Role;
import java.io.StringReader;
import org.apache.jena.graph.Graph;
import org.apache.jena.rdf.model.Model;
import org.apache.jena.rdf.model.ModelFactory;
import org.apache.jena.rdf.model.Property;
import org.apache.jena.rdf.model.Resource;
import org.apache.jena.riot.Lang;
import org.apache.jena.riot.RDFParser;
import org.apache.jena.riot.RiotException;
import org.apache.jena.riot.system.ErrorHandlerFactory;
import org.apache.jena.vocabulary.RDF;

/** The description of a service, by SPARQL 1.1 Service Description, with the metadata of the file's header. */
final class Description {
    private static final String SD = "http://www.w3.org/ns/sparql-service-description#";
    private static final String VOID = "http://rdfs.org/ns/void#";
    private static final String FORMATS = "http://www.w3.org/ns/formats/";

    private Description() {}

    static Model of(Graph graph, String endpoint, boolean allowsService) {
        Model model = ModelFactory.createDefaultModel();
        model.setNsPrefix("sd", SD).setNsPrefix("void", VOID).setNsPrefix("formats", FORMATS);
        Resource service = model.createResource().addProperty(RDF.type, model.createResource(SD + "Service"));
        service.addProperty(sd("endpoint"), model.createResource(endpoint));
        service.addProperty(sd("supportedLanguage"), model.createResource(SD + "SPARQL11Query"));
        for (String format : new String[] {"SPARQL_Results_JSON", "SPARQL_Results_XML", "SPARQL_Results_CSV",
            "SPARQL_Results_TSV", "Turtle", "N-Triples", "JSON-LD", "RDF_XML"}) {
            service.addProperty(sd("resultFormat"), model.createResource(FORMATS + format));
        }
        if (allowsService) {
            service.addProperty(sd("feature"), model.createResource(SD + "BasicFederatedQuery"));
        }
        Resource of = model.createResource().addProperty(RDF.type, model.createResource(SD + "Graph"));
        Resource dataset = model.createResource().addProperty(RDF.type, model.createResource(SD + "Dataset"));
        service.addProperty(sd("defaultDataset"), dataset.addProperty(sd("defaultGraph"), of));
        counts(graph, of);
        return model;
    }

    private static Property sd(String name) {
        return org.apache.jena.rdf.model.ResourceFactory.createProperty(SD + name);
    }

    private static void counts(Graph graph, Resource of) {
        Model model = of.getModel();
        if (!(graph instanceof HdtGraph)) {
            of.addLiteral(model.createProperty(VOID + "triples"), (long) graph.size());
            return;
        }
        HdtGraph it = (HdtGraph) graph;
        of.addLiteral(model.createProperty(VOID + "triples"), it.file().triples());
        of.addLiteral(model.createProperty(VOID + "distinctSubjects"), it.file().strings(Role.SUBJECT));
        of.addLiteral(model.createProperty(VOID + "properties"), it.file().strings(Role.PREDICATE));
        of.addLiteral(model.createProperty(VOID + "distinctObjects"), it.file().strings(Role.OBJECT));
        Model header = ModelFactory.createDefaultModel();
        try {
            RDFParser.create().source(new StringReader(it.file().header())).lang(Lang.NTRIPLES)
                .errorHandler(ErrorHandlerFactory.errorHandlerStrictNoLogging).parse(header);
            model.add(header);
        } catch (RiotException error) {
            return; // (nothing checks a header: this one has no metadata)
        }
    }
}
