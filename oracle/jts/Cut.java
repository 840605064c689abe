import java.io.BufferedReader;
import java.io.IOException;
import java.io.InputStreamReader;
import java.util.Map;
import java.util.TreeMap;
import org.locationtech.jts.geom.Geometry;
import org.locationtech.jts.io.ParseException;
import org.locationtech.jts.io.WKTReader;

/** Puts pairs of outlines from standard input to JTS, and counts where its matrix isn't the library's. */
public final class Cut {
    private static final int SHOWN = 20;

    private final Map<String, Long> counts = new TreeMap<>();
    private final WKTReader reader = new WKTReader();
    private long pairs = 0;
    private long differ = 0;

    public static void main(String[] arguments) throws IOException, ParseException {
        Cut cut = new Cut();
        BufferedReader lines = new BufferedReader(new InputStreamReader(System.in));
        for (String line = lines.readLine(); line != null; line = lines.readLine()) {
            cut.take(line.split(";"));
        }
        System.exit(cut.report());
    }

    /** Words: the library's letters, A and B. */
    private void take(String[] words) throws ParseException {
        Geometry a = reader.read(words[1]);
        Geometry b = reader.read(words[2]);
        String said = a.relate(b).toString();
        boolean valid = a.isValid() && b.isValid();
        pairs++;
        counts.merge(said, 1L, Long::sum);
        if ((!valid || !said.equals(words[0])) && differ++ < SHOWN) {
            System.out.println("DIFFERENT: " + said + (valid ? "" : ", not valid") + ": " + String.join(" ", words));
        }
    }

    private int report() {
        counts.forEach((said, count) -> System.out.println(said + ": " + count));
        System.out.println(pairs + " pairs, " + differ + " differ");
        return differ == 0 && pairs > 0 ? 0 : 1;
    }
}
