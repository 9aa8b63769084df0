package io.github.tickmarl.hdt;

import org.apache.jena.assembler.Assembler;
import org.apache.jena.query.ARQ;
import org.apache.jena.sparql.core.assembler.AssemblerUtils;
import org.apache.jena.sparql.engine.main.OpExecutor;
import org.apache.jena.sparql.engine.main.OpExecutorFactory;
import org.apache.jena.sparql.engine.main.QC;
import org.apache.jena.sys.JenaSubsystemLifecycle;

/**
 * What Jena runs when it is initialised: queries over HDT files are joined over IDs, and configurations may name
 * files.
 */
public final class InitHdt implements JenaSubsystemLifecycle {
    private static final int LEVEL = 60; // after ARQ and TDB

    /** Jena makes one, by its service loader. */
    public InitHdt() {}

    @Override
    public void start() {
        OpExecutorFactory other = QC.getFactory(ARQ.getContext());
        OpExecutorFactory otherwise = other == null ? OpExecutor.stdFactory : other;
        QC.setFactory(ARQ.getContext(), context ->
            context.getActiveGraph() instanceof HdtGraph ? new HdtExecutor(context) : otherwise.create(context));
        AssemblerUtils.registerAssembler(Assembler.general, HdtVocabulary.HDT_GRAPH, new HdtFactory());
    }

    @Override
    public void stop() {}

    @Override
    public int level() {
        return LEVEL;
    }
}
