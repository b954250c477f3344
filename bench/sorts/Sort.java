// The lines of standard input in the order of a collator's keys at Tertiary: of ICU4J's root, or, where bench/sort.sh reads
// java.text for com.ibm.icu.text, of the JDK's.
import com.ibm.icu.text.CollationKey;
import com.ibm.icu.text.Collator;
import java.io.BufferedReader;
import java.io.InputStreamReader;
import java.io.PrintStream;
import java.nio.charset.StandardCharsets;
import java.util.ArrayList;
import java.util.Collections;
import java.util.List;
import java.util.Locale;

public class Sort {
    public static void main(String[] words) throws java.io.IOException {
        Collator collator = Collator.getInstance(Locale.ROOT);
        collator.setStrength(Collator.TERTIARY);
        collator.setDecomposition(Collator.CANONICAL_DECOMPOSITION);
        BufferedReader in = new BufferedReader(new InputStreamReader(System.in, StandardCharsets.UTF_8));
        List<CollationKey> keys = new ArrayList<>();
        for (String name; (name = in.readLine()) != null; ) keys.add(collator.getCollationKey(name));
        Collections.sort(keys);
        StringBuilder sorted = new StringBuilder();
        for (CollationKey key : keys) sorted.append(key.getSourceString()).append('\n');
        new PrintStream(System.out, false, "UTF-8").append(sorted).flush();
    }
}
