import java.io.BufferedReader;
import java.io.IOException;
import java.io.InputStreamReader;
import java.util.Map;
import java.util.TreeMap;
import org.locationtech.jts.algorithm.PointLocator;
import org.locationtech.jts.algorithm.RayCrossingCounter;
import org.locationtech.jts.algorithm.locate.IndexedPointInAreaLocator;
import org.locationtech.jts.geom.Polygon;

/** Puts outlines and points from standard input to JTS, and counts where its answers aren't the library's. */
public final class Outlines {
    private static final int SHOWN = 20;

    private final Map<String, Long> counts = new TreeMap<>();
    private long differ = 0;

    public static void main(String[] arguments) throws IOException {
        Outlines outlines = new Outlines();
        BufferedReader lines = new BufferedReader(new InputStreamReader(System.in));
        for (String line = lines.readLine(); line != null; line = lines.readLine()) {
            outlines.take(new OutlineCase(line));
        }
        System.exit(outlines.report());
    }

    private void take(OutlineCase asked) {
        Polygon polygon = asked.polygon();
        String kind = asked.simple ? "simple outlines, " : "other outlines, ";
        count(kind + "`Geometry.isValid`", 1);
        if (polygon.isValid() != asked.simple) {
            differs("isValid", asked, 0, polygon.isValid() ? 1 : 0);
        }
        count(kind + "`RayCrossingCounter.locatePointInRing`", asked.points.length);
        for (int i = 0; i < asked.points.length; i++) {
            compare("RayCrossingCounter", asked, i, RayCrossingCounter.locatePointInRing(asked.points[i], asked.ring));
        }
        if (asked.simple) {
            locate(kind, asked, polygon);
        }
    }

    private void locate(String kind, OutlineCase asked, Polygon polygon) {
        PointLocator locator = new PointLocator();
        IndexedPointInAreaLocator indexed = new IndexedPointInAreaLocator(polygon);
        count(kind + "`PointLocator.locate`", asked.points.length);
        count(kind + "`IndexedPointInAreaLocator.locate`", asked.points.length);
        for (int i = 0; i < asked.points.length; i++) {
            compare("PointLocator", asked, i, locator.locate(asked.points[i], polygon));
            compare("IndexedPointInAreaLocator", asked, i, indexed.locate(asked.points[i]));
        }
    }

    private void compare(String call, OutlineCase asked, int point, int location) {
        if (location + 1 != asked.answers[point]) {
            differs(call, asked, point, location + 1);
        }
    }

    private void differs(String call, OutlineCase asked, int point, int said) {
        if (differ++ < SHOWN) {
            System.out.println("DIFFERENT: " + call + " " + said + ": " + asked.shown(point));
        }
    }

    private void count(String what, long more) {
        counts.merge(what, more, Long::sum);
    }

    private int report() {
        counts.forEach((what, count) -> System.out.println(what + ": " + count));
        System.out.println(differ + " differ");
        return differ == 0 && !counts.isEmpty() ? 0 : 1;
    }
}
