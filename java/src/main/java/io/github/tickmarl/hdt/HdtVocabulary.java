package io.github.tickmarl.hdt;

import org.apache.jena.rdf.model.Property;
import org.apache.jena.rdf.model.Resource;
import org.apache.jena.rdf.model.ResourceFactory;

/** The terms of Jena's configurations that name HDT files. */
public final class HdtVocabulary {
    /** The namespace, usually with the prefix {@code tickmarl:}. */
    public static final String NAMESPACE = "https://tickmarl.github.io/hdt#";
    /** The class of models that are HDT files: {@code tickmarl:HDTGraph}. */
    public static final Resource HDT_GRAPH = ResourceFactory.createResource(NAMESPACE + "HDTGraph");
    /** The path of a file or a folder of parts, a string or an IRI {@code file:..}: {@code tickmarl:file}. */
    public static final Property FILE = ResourceFactory.createProperty(NAMESPACE + "file");

    private HdtVocabulary() {}
}
