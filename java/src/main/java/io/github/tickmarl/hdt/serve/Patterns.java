package io.github.tickmarl.hdt.serve;

import java.util.List;
import java.util.regex.Matcher;
import java.util.regex.Pattern;
import org.apache.jena.query.QueryCancelledException;
import org.apache.jena.sparql.algebra.TransformCopy;
import org.apache.jena.sparql.algebra.Transformer;
import org.apache.jena.sparql.algebra.optimize.Optimize;
import org.apache.jena.sparql.algebra.optimize.RewriteFactory;
import org.apache.jena.sparql.expr.E_Regex;
import org.apache.jena.sparql.expr.E_StrReplace;
import org.apache.jena.sparql.expr.Expr;
import org.apache.jena.sparql.expr.ExprEvalException;
import org.apache.jena.sparql.expr.ExprException;
import org.apache.jena.sparql.expr.ExprFunctionN;
import org.apache.jena.sparql.expr.ExprList;
import org.apache.jena.sparql.expr.ExprTransformCopy;
import org.apache.jena.sparql.expr.NodeValue;
import org.apache.jena.sparql.expr.RegexJava;
import org.apache.jena.sparql.expr.nodevalue.NodeFunctions;
import org.apache.jena.sparql.expr.nodevalue.XSDFuncOp;

/**
 * Regular expressions that end with the time of their query. ARQ looks at that between solutions only, and a pattern,
 * as one with a back reference, may take exponential time for one string.
 */
final class Patterns extends ExprTransformCopy {
    private static final int LOOK = 1 << 12; // characters between two looks at the clock, a power of two

    private final long end; // as of System.nanoTime

    private Patterns(long end) {
        this.end = end;
    }

    /** What ARQ does before it runs a query, with REGEX and REPLACE that end in so many seconds. */
    static RewriteFactory within(double seconds) {
        Patterns patterns = new Patterns(System.nanoTime() + (long) (1e9 * seconds));
        return context -> op -> Optimize.getFactory().create(context)
            .rewrite(Transformer.transformSkipService(new TransformCopy(), patterns, op));
    }

    @Override
    public Expr transform(ExprFunctionN function, ExprList args) {
        return function instanceof E_Regex ? new Regex(args)
            : function instanceof E_StrReplace ? new Replace(args) : super.transform(function, args);
    }

    private static String string(List<NodeValue> args, int index) {
        return NodeFunctions.checkAndGetStringLiteral("REGEX", args.get(index)).getLiteralLexicalForm();
    }

    /** A function whose second argument is a pattern. A bad one is an error of the expression; ARQ ends the query. */
    private abstract class Matching extends ExprFunctionN {
        private final int flagsAt; // the index of the argument with the flags, if it is there
        private Pattern last;
        private String made; // what the last one was made of

        Matching(String name, ExprList args, int flagsAt) {
            super(name, args);
            this.flagsAt = flagsAt;
        }

        Pattern pattern(List<NodeValue> args) {
            String flags = args.size() > flagsAt ? string(args, flagsAt) : "";
            String key = flags + '/' + string(args, 1);
            if (!key.equals(made)) {
                try {
                    last = RegexJava.makePattern("REGEX", string(args, 1), flags);
                } catch (ExprException error) {
                    throw new ExprEvalException(error.getMessage(), error);
                }
                made = key;
            }
            return last;
        }

        Matcher matcher(List<NodeValue> args) {
            return pattern(args).matcher(new Timed(string(args, 0)));
        }
    }

    private final class Regex extends Matching {
        Regex(ExprList args) {
            super("regex", args, 2);
        }

        @Override
        public NodeValue eval(List<NodeValue> args) {
            return NodeValue.booleanReturn(matcher(args).find());
        }

        @Override
        public Expr copy(ExprList args) {
            return new Regex(args);
        }
    }

    private final class Replace extends Matching {
        Replace(ExprList args) {
            super("replace", args, 3);
        }

        /** ARQ replaces what was found in time. */
        @Override
        public NodeValue eval(List<NodeValue> args) {
            Matcher matcher = matcher(args);
            while (matcher.find()) {
                continue;
            }
            return XSDFuncOp.strReplace(args.get(0), pattern(args), args.get(2));
        }

        @Override
        public Expr copy(ExprList args) {
            return new Replace(args);
        }
    }

    /** A string that is read until the end of the time. */
    private final class Timed implements CharSequence {
        private final String text;
        private int read;

        Timed(String text) {
            this.text = text;
        }

        @Override
        public char charAt(int index) {
            if ((++read & LOOK - 1) == 0 && System.nanoTime() - end > 0) {
                throw new QueryCancelledException();
            }
            return text.charAt(index);
        }

        @Override
        public int length() {
            return text.length();
        }

        @Override
        public CharSequence subSequence(int from, int to) {
            return text.substring(from, to);
        }

        @Override
        public String toString() {
            return text;
        }
    }
}
