import java.io.BufferedReader;
import java.io.FileReader;
import java.io.IOException;
import java.lang.reflect.InvocationTargetException;
import java.lang.reflect.Method;
import java.nio.ByteBuffer;
import java.util.Map;
import java.util.TreeMap;
import org.locationtech.jts.algorithm.BoundaryNodeRule;
import org.locationtech.jts.geom.Coordinate;
import org.locationtech.jts.geom.Envelope;
import org.locationtech.jts.geom.Geometry;
import org.locationtech.jts.geom.GeometryFactory;
import org.locationtech.jts.geom.IntersectionMatrix;
import org.locationtech.jts.geom.Location;
import org.locationtech.jts.geom.Position;
import org.locationtech.jts.geom.Quadrant;
import org.locationtech.jts.geom.TopologyException;
import org.locationtech.jts.geomgraph.Edge;
import org.locationtech.jts.geomgraph.EdgeEnd;
import org.locationtech.jts.geomgraph.GeometryGraph;
import org.locationtech.jts.geomgraph.Label;
import org.locationtech.jts.operation.relate.EdgeEndBundle;
import org.locationtech.jts.operation.relate.EdgeEndBundleStar;
import org.locationtech.jts.operation.relate.RelateNode;
import org.locationtech.jts.util.AssertionFailedException;

/** Puts the cases of a file to JTS's own classes, and counts where its answers aren't the foretold ones. */
public class Stars {
    private static final Coordinate NODE = new Coordinate(0, 0);
    private static final BoundaryNodeRule RULE = BoundaryNodeRule.OGC_SFS_BOUNDARY_RULE;
    private static final int[] LOCATIONS = {Location.NONE, Location.INTERIOR, Location.BOUNDARY, Location.EXTERIOR};
    private static final int[] PLACES = {Position.ON, Position.LEFT, Position.RIGHT};
    private static final int SHOWN = 20;

    private final Map<String, long[]> counts = new TreeMap<>();
    private final Map<String, String> smallest = new TreeMap<>();
    private final GeometryGraph[][] graphs = graphs();
    private int differ = 0;

    public static void main(String[] arguments) throws IOException {
        Stars stars = new Stars();
        try (BufferedReader cases = new BufferedReader(new FileReader(arguments[0]))) {
            for (String line = cases.readLine(); line != null; line = cases.readLine()) {
                if (!line.startsWith("#")) {
                    stars.take(line);
                }
            }
        }
        System.exit(stars.report());
    }

    /** A geometry of each kind for A and for B: no area, and areas with the node inside, on the edge and outside. */
    private static GeometryGraph[][] graphs() {
        GeometryFactory factory = new GeometryFactory();
        Geometry[] geometries = {
            factory.createPoint(NODE),
            factory.toGeometry(new Envelope(-1, 1, -1, 1)),
            factory.toGeometry(new Envelope(0, 2, -1, 1)),
            factory.toGeometry(new Envelope(5, 6, 5, 6)),
        };
        GeometryGraph[][] graphs = new GeometryGraph[2][4];
        for (int geometry = 0; geometry < 2; geometry++) {
            for (int code = 0; code < 4; code++) {
                graphs[geometry][code] = new GeometryGraph(geometry, geometries[code]);
            }
        }
        return graphs;
    }

    private void take(String line) {
        String[] words = line.split(" ");
        switch (words[0]) {
            case "D" -> direction(line, words);
            case "B" -> bundle(line, words);
            case "S" -> star(line, words);
            case "P" -> label(line, words);
            case "N" -> node(line, words);
            default -> throw new IllegalArgumentException(line);
        }
    }

    private void judge(String kind, String line, String due, String said) {
        long[] count = counts.computeIfAbsent(kind, key -> new long[2]);
        count[0]++;
        String least = smallest.get(kind);
        if (least == null || line.length() < least.length()) {
            smallest.put(kind, line);
        }
        if (!due.equals(said)) {
            count[1]++;
            if (differ++ < SHOWN) {
                System.out.println("DIFFERENCE " + line + "\n    JTS: " + said);
            }
        }
    }

    private int report() {
        System.out.println("| compared | cases | differ |");
        System.out.println("|---|---:|---:|");
        counts.forEach((kind, count) -> System.out.println("| " + kind + " | " + count[0] + " | " + count[1] + " |"));
        System.out.println();
        smallest.forEach((kind, line) -> {
            if (kind.contains("document 01")) {
                System.out.println(kind + ", a smallest case: " + line);
            }
        });
        System.out.println(differ + " differences that aren't listed");
        return differ == 0 ? 0 : 1;
    }

    private void direction(String line, String[] words) {
        double[] parts = new double[4];
        for (int i = 0; i < 4; i++) {
            parts[i] = Double.parseDouble(words[1 + i]);
        }
        EdgeEnd one = new EdgeEnd(null, NODE, new Coordinate(parts[0], parts[1]));
        EdgeEnd other = new EdgeEnd(null, NODE, new Coordinate(parts[2], parts[3]));
        String due = words[5] + " " + words[6] + " " + words[7];
        String quadrants = Quadrant.quadrant(parts[0], parts[1]) + " " + Quadrant.quadrant(parts[2], parts[3]) + " ";
        judge("Quadrant, EdgeEnd.compareTo", line, due, quadrants + Integer.signum(one.compareTo(other)));
        judge("EdgeEnd.compareDirection", line, due, quadrants + Integer.signum(one.compareDirection(other)));
    }

    private void bundle(String line, String[] words) {
        EdgeEndBundle bundle = null;
        for (EdgeEnd end : ends(words[1])) {
            if (bundle == null) {
                bundle = new EdgeEndBundle(end);
            } else {
                bundle.insert(end);
            }
        }
        bundle.computeLabel(RULE);
        judge("EdgeEndBundle.computeLabel", line, words[2], hex(bundle.getLabel()));
    }

    private void star(String line, String[] words) {
        EdgeEndBundleStar star = new EdgeEndBundleStar();
        for (EdgeEnd end : ends(words[5])) {
            star.insert(end);
        }
        GeometryGraph[] graph = {graphs[0][code(words[1])], graphs[1][code(words[2])]};
        String said;
        try {
            star.computeLabelling(graph);
            said = "same " + labels(star) + " " + poured(star, code(words[3]), code(words[4]));
        } catch (TopologyException | AssertionFailedException thrown) {
            said = thrown(thrown) + " - -";
        }
        judge(starKind(words[6]), line, words[6] + " " + words[7] + " " + words[8], said);
    }

    private static String starKind(String foretold) {
        return switch (foretold) {
            case "same" -> "EdgeEndBundleStar, updateIM: as document 01 and request R-6";
            case "conflict" -> "EdgeEndBundleStar: throws on a side conflict (document 01 compares no sides)";
            case "left" -> "EdgeEndBundleStar: throws on a left without a right (document 01 walks on)";
            case "single" -> "EdgeEndBundleStar: throws on a right without a left (document 01: refusal 9)";
            default -> throw new IllegalArgumentException(foretold);
        };
    }

    private static String thrown(RuntimeException thrown) {
        String message = thrown.getMessage();
        if (message.startsWith("side location conflict")) {
            return "conflict";
        }
        if (message.startsWith("Should never reach here: found single null side")) {
            return "single";
        }
        return message.equals("found single null side") ? "left" : message;
    }

    private static String labels(EdgeEndBundleStar star) {
        StringBuilder labels = new StringBuilder();
        for (Object bundle : star.getEdges()) {
            labels.append(hex(((EdgeEnd) bundle).getLabel()));
        }
        return labels.length() == 0 ? "-" : labels.toString();
    }

    /** A star's pouring isn't public in JTS; the rest is. */
    private static String poured(EdgeEndBundleStar star, int nodeA, int nodeB) {
        IntersectionMatrix matrix = new IntersectionMatrix("FFFFFFFF2");
        RelateNode node = new RelateNode(NODE, star);
        node.setLabel(0, LOCATIONS[nodeA]);
        node.setLabel(1, LOCATIONS[nodeB]);
        node.updateIM(matrix);
        try {
            UPDATE.invoke(star, matrix);
        } catch (IllegalAccessException | InvocationTargetException error) {
            throw new IllegalStateException(error);
        }
        return matrix.toString();
    }

    private static final Method UPDATE = update();

    private static Method update() {
        try {
            Method update = EdgeEndBundleStar.class.getDeclaredMethod("updateIM", IntersectionMatrix.class);
            update.setAccessible(true);
            return update;
        } catch (NoSuchMethodException error) {
            throw new IllegalStateException(error);
        }
    }

    private void label(String line, String[] words) {
        IntersectionMatrix matrix = new IntersectionMatrix(words[2]);
        Edge.updateIM(label(bytes(words[1]), 0), matrix);
        judge("Edge.updateIM", line, words[3], matrix.toString());
    }

    private void node(String line, String[] words) {
        IntersectionMatrix matrix = new IntersectionMatrix(words[3]);
        RelateNode node = new RelateNode(NODE, new EdgeEndBundleStar());
        node.setLabel(0, LOCATIONS[code(words[1])]);
        node.setLabel(1, LOCATIONS[code(words[2])]);
        node.updateIM(matrix);
        judge("RelateNode.updateIM", line, words[4], matrix.toString());
    }

    private static int code(String word) {
        return Integer.parseInt(word);
    }

    private static byte[] bytes(String hex) {
        if (hex.equals("-")) {
            return new byte[0];
        }
        byte[] bytes = new byte[hex.length() / 2];
        for (int i = 0; i < bytes.length; i++) {
            bytes[i] = (byte) Integer.parseInt(hex, 2 * i, 2 * i + 2, 16);
        }
        return bytes;
    }

    private static EdgeEnd[] ends(String hex) {
        ByteBuffer bytes = ByteBuffer.wrap(bytes(hex));
        EdgeEnd[] ends = new EdgeEnd[bytes.capacity() / 15];
        for (int i = 0; i < ends.length; i++) {
            Coordinate towards = new Coordinate(bytes.getInt(15 * i), bytes.getInt(15 * i + 4));
            ends[i] = new EdgeEnd(null, NODE, towards, label(bytes.array(), 15 * i + 8));
        }
        return ends;
    }

    private static Label label(byte[] bytes, int at) {
        boolean area = bytes[at] == 1;
        Label label = area ? new Label(Location.NONE, Location.NONE, Location.NONE) : new Label(Location.NONE);
        for (int geometry = 0; geometry < 2; geometry++) {
            for (int place = 0; place < (area ? 3 : 1); place++) {
                label.setLocation(geometry, PLACES[place], LOCATIONS[bytes[at + 1 + 3 * geometry + place]]);
            }
        }
        return label;
    }

    private static String hex(Label label) {
        StringBuilder hex = new StringBuilder(label.isArea() ? "01" : "00");
        for (int geometry = 0; geometry < 2; geometry++) {
            for (int place : PLACES) {
                int location = label.getLocation(geometry, place);
                int code = 0;
                while (LOCATIONS[code] != location) {
                    code++;
                }
                hex.append('0').append(code);
            }
        }
        return hex.toString();
    }
}
