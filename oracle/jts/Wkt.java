import java.io.BufferedReader;
import java.io.IOException;
import java.io.InputStreamReader;
import java.util.Map;
import java.util.TreeMap;
import org.locationtech.jts.geom.Coordinate;
import org.locationtech.jts.geom.Geometry;
import org.locationtech.jts.io.ParseException;
import org.locationtech.jts.io.WKTReader;
import org.locationtech.jts.io.WKTWriter;

/**
 * Has JTS read texts that the library read or wrote, from standard input in the form that ../wkt/list.c says, and
 * counts where its shapes aren't the library's. A text that the library wrote JTS must also write in the same bytes.
 */
public final class Wkt {
    private static final int SHOWN = 20;
    private static final String[] TYPES = {"Point", "LineString", "Polygon"};

    private final WKTReader reader = new WKTReader();
    private final WKTWriter writer = new WKTWriter();
    private final Map<String, Long> counts = new TreeMap<>();
    private long differ = 0;

    public static void main(String[] arguments) throws IOException {
        Wkt wkt = new Wkt();
        BufferedReader lines = new BufferedReader(new InputStreamReader(System.in));
        for (String line = lines.readLine(); line != null; line = lines.readLine()) {
            wkt.take(line);
        }
        System.exit(wkt.report());
    }

    private void take(String line) {
        int tab = line.indexOf('\t');
        String[] words = line.substring(0, tab).split(" ");
        String text = line.substring(tab + 1);
        boolean written = words[0].equals("W");
        String type = TYPES[Integer.parseInt(words[1]) - 1];
        count(written ? "written by the library, read by JTS: " + type : "read by the library and by JTS: " + type);
        try {
            Geometry geometry = reader.read(text);
            if (!isShape(geometry, type, words)) {
                differs("JTS reads " + geometry, line);
            } else if (written && !writer.write(geometry).equals(text)) {
                differs("JTS writes " + geometry, line);
            }
        } catch (ParseException refused) {
            differs("JTS refuses it", line);
        }
    }

    /** Its kind and its corners in order, from the third word on; a ring has the first corner again at the end. */
    private static boolean isShape(Geometry geometry, String type, String[] words) {
        int corners = (words.length - 2) / 2;
        int pairs = type.equals("Polygon") ? corners + 1 : corners;
        Coordinate[] read = geometry.getCoordinates();
        if (!geometry.getGeometryType().equals(type) || read.length != pairs) {
            return false;
        }
        for (int i = 0; i < pairs; i++) {
            int at = 2 + 2 * (i % corners);
            if (read[i].x != Integer.parseInt(words[at]) || read[i].y != Integer.parseInt(words[at + 1])) {
                return false;
            }
        }
        return true;
    }

    private void differs(String what, String line) {
        if (differ++ < SHOWN) {
            System.out.println("DIFFERENT: " + what + ": " + line);
        }
    }

    private void count(String what) {
        counts.merge(what, 1L, Long::sum);
    }

    private int report() {
        counts.forEach((what, count) -> System.out.println(what + ": " + count));
        System.out.println(differ + " differ");
        return differ == 0 && !counts.isEmpty() ? 0 : 1;
    }
}
