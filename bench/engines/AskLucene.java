import java.io.BufferedReader;
import java.io.BufferedWriter;
import java.io.IOException;
import java.io.InputStreamReader;
import java.io.OutputStreamWriter;
import java.nio.charset.StandardCharsets;
import java.nio.file.Files;
import java.nio.file.Path;
import java.nio.file.Paths;
import java.util.ArrayList;
import java.util.Arrays;
import java.util.Iterator;
import java.util.List;
import java.util.stream.Stream;
import org.apache.lucene.analysis.core.WhitespaceAnalyzer;
import org.apache.lucene.document.Document;
import org.apache.lucene.document.Field;
import org.apache.lucene.document.TextField;
import org.apache.lucene.index.DirectoryReader;
import org.apache.lucene.index.IndexWriter;
import org.apache.lucene.index.IndexWriterConfig;
import org.apache.lucene.index.LeafReaderContext;
import org.apache.lucene.index.LogDocMergePolicy;
import org.apache.lucene.index.SerialMergeScheduler;
import org.apache.lucene.index.Term;
import org.apache.lucene.search.BooleanClause.Occur;
import org.apache.lucene.search.BooleanQuery;
import org.apache.lucene.search.DisjunctionMaxQuery;
import org.apache.lucene.search.IndexSearcher;
import org.apache.lucene.search.MatchNoDocsQuery;
import org.apache.lucene.search.PhraseQuery;
import org.apache.lucene.search.PrefixQuery;
import org.apache.lucene.search.Query;
import org.apache.lucene.search.ScoreDoc;
import org.apache.lucene.search.ScoreMode;
import org.apache.lucene.search.SimpleCollector;
import org.apache.lucene.search.TermQuery;
import org.apache.lucene.store.MMapDirectory;

/**
 * Lucene (Debian's liblucene8-java): answers scripts as the program qm_search does. The index stands in a folder of its
 * own below the one that is named, in one segment, whose documents keep their order, and goes at the end.
 */
public final class AskLucene {
    private static final String FIELD = "words";
    private final IndexWriter writer;
    private IndexSearcher searcher;

    private AskLucene(Path folder) throws IOException {
        IndexWriterConfig how = new IndexWriterConfig(new WhitespaceAnalyzer());
        how.setMergePolicy(new LogDocMergePolicy()).setMergeScheduler(new SerialMergeScheduler());
        how.setRAMBufferSizeMB(256);
        writer = new IndexWriter(new MMapDirectory(folder), how);
        build();
    }

    private void build() throws IOException {
        writer.forceMerge(1);
        searcher = new IndexSearcher(DirectoryReader.open(writer));
        // what was asked is worked out each time
        searcher.setQueryCache(null);
    }

    private void add(String words) throws IOException {
        Document document = new Document();
        document.add(new TextField(FIELD, words, Field.Store.NO));
        writer.addDocument(document);
    }

    /** The query, or null where Lucene has none that means the same. */
    private static Query query(Iterator<String> parts) {
        switch (parts.next()) {
            case "none":
                return new MatchNoDocsQuery();
            case "term":
                return word(parts.next());
            case "phrase":
                return phrase(parts);
            case "prefix":
                parts.next();
                parts.next();
                return new PrefixQuery(new Term(FIELD, parts.next()));
            case "bool":
                return bool(parts);
            case "max":
                return greatest(parts);
            default:
                return null;
        }
    }

    private static Query word(String word) {
        return new TermQuery(new Term(FIELD, word));
    }

    private static Query phrase(Iterator<String> parts) {
        if (!parts.next().equals("0")) {
            return null;
        }
        PhraseQuery.Builder made = new PhraseQuery.Builder();
        for (int count = Integer.parseInt(parts.next()); count > 0; count--) {
            made.add(new Term(FIELD, parts.next()));
        }
        return made.build();
    }

    private static Query bool(Iterator<String> parts) {
        BooleanQuery.Builder made = new BooleanQuery.Builder();
        made.setMinimumNumberShouldMatch(Integer.parseInt(parts.next()));
        for (int count = Integer.parseInt(parts.next()); count > 0; count--) {
            String sign = parts.next();
            parts.next();
            Occur occur = sign.equals("+") ? Occur.MUST : sign.equals("?") ? Occur.SHOULD : Occur.MUST_NOT;
            made.add(word(parts.next()), occur);
        }
        return made.build();
    }

    private static Query greatest(Iterator<String> parts) {
        float tie = Integer.parseInt(parts.next()) / 1000f;
        List<Query> words = new ArrayList<>();
        for (int count = Integer.parseInt(parts.next()); count > 0; count--) {
            parts.next();
            words.add(word(parts.next()));
        }
        return new DisjunctionMaxQuery(words, tie);
    }

    private void top(Query query, int most, StringBuilder out) throws IOException {
        for (ScoreDoc it : searcher.search(query, most).scoreDocs) {
            out.append(it.doc).append(':').append(it.score).append(' ');
        }
    }

    private void docs(Query query, StringBuilder out) throws IOException {
        searcher.search(query, new SimpleCollector() {
            private int base;

            @Override
            protected void doSetNextReader(LeafReaderContext context) {
                base = context.docBase;
            }

            @Override
            public void collect(int document) {
                out.append(base + document).append(' ');
            }

            @Override
            public ScoreMode scoreMode() {
                return ScoreMode.COMPLETE_NO_SCORES;
            }
        });
    }

    private void answer(String line, StringBuilder out) throws IOException {
        Iterator<String> parts = Arrays.asList(line.split(" ")).iterator();
        String verb = parts.next();
        int most = verb.equals("top") ? Integer.parseInt(parts.next()) : 0;
        boolean isAsked = verb.equals("top") || verb.equals("docs") || verb.equals("count");
        Query query = isAsked ? query(parts) : null;
        if (query == null) {
            out.append("not asked ");
        } else if (verb.equals("top")) {
            top(query, most, out);
        } else if (verb.equals("docs")) {
            docs(query, out);
        } else {
            out.append(searcher.count(query)).append(' ');
        }
        out.setLength(Math.max(out.length() - 1, 0));
    }

    public static void main(String[] words) throws IOException {
        BooleanQuery.setMaxClauseCount(1 << 20);
        Path folder = Files.createTempDirectory(Paths.get(words[0]), "index");
        AskLucene engine = new AskLucene(folder);
        BufferedReader in = new BufferedReader(new InputStreamReader(System.in, StandardCharsets.UTF_8), 1 << 16);
        BufferedWriter out = new BufferedWriter(new OutputStreamWriter(System.out, StandardCharsets.UTF_8), 1 << 16);
        boolean isBuilt = true;
        StringBuilder answer = new StringBuilder();
        for (String line = in.readLine(); line != null; line = in.readLine()) {
            if (line.startsWith("doc ")) {
                engine.add(line.substring(4));
                isBuilt = false;
                continue;
            }
            if (!isBuilt) {
                engine.build();
                isBuilt = true;
            }
            answer.setLength(0);
            engine.answer(line, answer);
            out.append(answer).append('\n');
            if (!in.ready()) {
                out.flush();
            }
        }
        out.flush();
        engine.writer.rollback();
        try (Stream<Path> files = Files.list(folder)) {
            files.forEach(file -> file.toFile().delete());
        }
        Files.delete(folder);
    }
}
