import java.util.Arrays;
import org.locationtech.jts.geom.Coordinate;
import org.locationtech.jts.geom.GeometryFactory;
import org.locationtech.jts.geom.Polygon;

/** An outline, its points and the library's answers, from a line in the form that ../outlines/list.c says. */
final class OutlineCase {
    private static final GeometryFactory FACTORY = new GeometryFactory();

    final boolean simple;
    /** The corners, with the first one again at the end. */
    final Coordinate[] ring;
    final Coordinate[] points;
    /** 1, 2 and 3 for Inside, OnBoundary and Outside: one more than JTS's numbers. */
    final long[] answers;

    OutlineCase(String line) {
        String[] words = line.split(" ");
        int corners = Integer.parseInt(words[1]);
        simple = words[0].equals("S");
        ring = new Coordinate[corners + 1];
        for (int i = 0; i < corners; i++) {
            ring[i] = coordinate(words, 2 + 2 * i);
        }
        ring[corners] = ring[0].copy();
        int from = 2 + 2 * corners;
        points = new Coordinate[(words.length - from) / 3];
        answers = new long[points.length];
        for (int i = 0; i < points.length; i++) {
            points[i] = coordinate(words, from + 3 * i);
            answers[i] = Long.parseLong(words[from + 3 * i + 2]);
        }
    }

    private static Coordinate coordinate(String[] words, int at) {
        return new Coordinate(Integer.parseInt(words[at]), Integer.parseInt(words[at + 1]));
    }

    Polygon polygon() {
        return FACTORY.createPolygon(ring);
    }

    String shown(int point) {
        return points[point] + " in " + Arrays.toString(ring) + ", the library " + answers[point];
    }
}
