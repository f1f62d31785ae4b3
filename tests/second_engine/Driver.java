// Apache Jena ARQ as a program that answers line by line on standard output:
//   LOAD file    a TriG file takes the place of the data; answers "loaded N", the triples of all its graphs
//   QUERY text   a SPARQL query on one line; answers "rows N", then N lines of terms with tabs between,
//                an unbound variable as "-"; or "failed" and Jena's message.
import java.io.BufferedReader;
import java.io.InputStreamReader;
import java.io.PrintStream;
import java.nio.charset.StandardCharsets;
import java.util.ArrayList;
import java.util.Iterator;
import java.util.List;

import org.apache.jena.graph.Node;
import org.apache.jena.query.ARQ;
import org.apache.jena.query.Dataset;
import org.apache.jena.query.DatasetFactory;
import org.apache.jena.query.Query;
import org.apache.jena.query.QueryExecution;
import org.apache.jena.query.QueryExecutionFactory;
import org.apache.jena.query.QueryFactory;
import org.apache.jena.query.ResultSet;
import org.apache.jena.query.Syntax;
import org.apache.jena.riot.RDFDataMgr;
import org.apache.jena.sparql.core.Var;
import org.apache.jena.sparql.engine.binding.Binding;
import org.apache.jena.sparql.engine.main.StageBuilder;
import org.apache.jena.sparql.engine.main.solver.PatternMatchData;

public class Driver {
    public static void main(String[] arguments) throws Exception {
        ARQ.init();
        // The stock stage generator reorders patterns and fails where a literal reaches predicate position.
        StageBuilder.setGenerator(ARQ.getContext(), (pattern, input, context) ->
            PatternMatchData.execute(context.getActiveGraph(), pattern, input, null, context));
        BufferedReader lines = new BufferedReader(new InputStreamReader(System.in, StandardCharsets.UTF_8));
        PrintStream out = new PrintStream(System.out, false, StandardCharsets.UTF_8);
        Dataset data = DatasetFactory.create();
        for (String line = lines.readLine(); line != null; line = lines.readLine()) {
            if (line.startsWith("LOAD ")) {
                data = DatasetFactory.create();
                RDFDataMgr.read(data, line.substring(5));
                out.println("loaded " + triples(data));
            } else if (line.startsWith("QUERY ")) {
                answer(data, line.substring(6), out);
            }
            out.flush();
        }
    }

    static long triples(Dataset data) {
        long all = 0;
        for (Iterator<String> names = data.listNames(); names.hasNext();) all += data.getNamedModel(names.next()).size();
        return all;
    }

    static void answer(Dataset data, String text, PrintStream out) {
        List<String> rows = new ArrayList<>();
        try {
            Query query = QueryFactory.create(text, Syntax.syntaxSPARQL_11);
            try (QueryExecution execution = QueryExecutionFactory.create(query, data)) {
                ResultSet results = execution.execSelect();
                while (results.hasNext()) rows.add(row(query.getProjectVars(), results.nextBinding()));
            }
        } catch (Exception fault) {
            out.println("failed " + fault.toString().replace('\n', ' '));
            return;
        }
        out.println("rows " + rows.size());
        for (String row : rows) out.println(row);
    }

    static String row(List<Var> variables, Binding binding) {
        StringBuilder row = new StringBuilder();
        for (Var variable : variables) {
            if (row.length() > 0) row.append('\t');
            row.append(term(binding.get(variable)));
        }
        return row.toString();
    }

    static String term(Node node) {
        if (node == null) return "-";
        if (node.isURI()) return "<" + node.getURI() + ">";
        if (node.isLiteral()) return node.getLiteralLexicalForm() + "^^" + node.getLiteralDatatypeURI();
        return node.toString();
    }
}
