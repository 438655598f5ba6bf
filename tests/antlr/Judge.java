import java.io.BufferedReader;
import java.io.InputStreamReader;
import org.antlr.v4.Tool;
import org.antlr.v4.runtime.CharStream;
import org.antlr.v4.runtime.CharStreams;
import org.antlr.v4.runtime.CommonTokenStream;
import org.antlr.v4.runtime.Lexer;
import org.antlr.v4.runtime.Parser;
import org.antlr.v4.runtime.Token;
import org.antlr.v4.runtime.TokenStream;
import org.antlr.v4.runtime.tree.ParseTree;
import org.antlr.v4.tool.ANTLRMessage;
import org.antlr.v4.tool.ANTLRToolListener;

/** Asks ANTLR's tool about many grammars in one process, and has a generated parser group a phrase. For judge.py. */
public class Judge {
    public static void main(String[] words) throws Exception {
        if (words.length == 1 && words[0].equals("tool")) {
            judgeGrammars();
        } else if (words.length == 4 && words[0].equals("phrase")) {
            System.out.println(grouped(words[1], words[2], words[3]));
        } else {
            throw new IllegalArgumentException("usage: Judge tool < PATHS; Judge phrase GRAMMAR RULE PHRASE");
        }
    }

    /** Prints the version; then, of each grammar whose path is read, each error on a line of its own, and a line with a dot. */
    private static void judgeGrammars() throws Exception {
        BufferedReader paths = new BufferedReader(new InputStreamReader(System.in));
        System.out.println(Tool.VERSION);
        for (String path = paths.readLine(); path != null; path = paths.readLine()) {
            Tool tool = new Tool();
            tool.removeListeners();
            tool.addListener(new Errors(tool));
            tool.loadGrammar(path); // all of the tool's checks; no parser is written
            System.out.println(".");
        }
    }

    /** Prints errors as the tool does, each on one line; leaves out warnings. */
    private static class Errors implements ANTLRToolListener {
        private final Tool tool;

        Errors(Tool tool) {
            this.tool = tool;
        }

        @Override
        public void info(String text) {}

        @Override
        public void error(ANTLRMessage message) {
            String text = tool.errMgr.getMessageTemplate(message).render();
            System.out.println(text.replaceAll("\\s+", " "));
        }

        @Override
        public void warning(ANTLRMessage message) {}
    }

    /** A phrase as a rule of a generated parser reads it up to its end, with parentheses around each group of more than one part. */
    private static String grouped(String grammar, String rule, String phrase) throws Exception {
        CharStream text = CharStreams.fromString(phrase);
        Lexer lexer = (Lexer) Class.forName(grammar + "Lexer").getConstructor(CharStream.class).newInstance(text);
        TokenStream tokens = new CommonTokenStream(lexer);
        Parser parser = (Parser) Class.forName(grammar + "Parser").getConstructor(TokenStream.class).newInstance(tokens);
        ParseTree tree = (ParseTree) parser.getClass().getMethod(rule).invoke(parser);
        boolean whole = parser.getNumberOfSyntaxErrors() == 0 && tokens.LA(1) == Token.EOF;
        return whole ? group(tree.getChild(0)) : "not read as a whole";
    }

    private static String group(ParseTree tree) {
        if (tree.getChildCount() == 0) {
            return tree.getText();
        }
        if (tree.getChildCount() == 1) {
            return group(tree.getChild(0));
        }
        StringBuilder parts = new StringBuilder();
        for (int place = 0; place < tree.getChildCount(); place++) {
            String part = group(tree.getChild(place));
            parts.append(place == 0 ? "" : " ").append(part.contains(" ") ? "(" + part + ")" : part);
        }
        return parts.toString();
    }
}
