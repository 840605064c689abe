import java.io.BufferedReader;
import java.io.FileReader;
import java.io.IOException;
import java.util.ArrayList;
import java.util.Arrays;
import java.util.List;
import org.locationtech.jts.algorithm.PointLocator;
import org.locationtech.jts.algorithm.RayCrossingCounter;
import org.locationtech.jts.algorithm.locate.IndexedPointInAreaLocator;
import org.locationtech.jts.geom.Polygon;

/**
 * Times JTS on the inputs of ../geos/outline_bench.c and prints lines for its table. A line `B corners ns` says our
 * time and begins a size. Polygons and indexes are built, and Java's compiler has had its rounds, before the clock
 * starts.
 */
public final class OutlineBench {
    private static final int WARM_UP = 100;
    private static final int ROUNDS = 200;
    private static final String[] NAMES = {
        "RayCrossingCounter.locatePointInRing", "PointLocator.locate", "IndexedPointInAreaLocator.locate",
    };
    private static final Side[] SIDES = {OutlineBench::count, OutlineBench::locate, OutlineBench::locateIndexed};

    /** Goes through all points and gives the sum of the answers. */
    private interface Side {
        long run(Size size);
    }

    /** The outlines of one count of corners. */
    private static final class Size {
        final double ours;
        final List<OutlineCase> cases = new ArrayList<>();
        final List<Polygon> polygons = new ArrayList<>();
        final List<IndexedPointInAreaLocator> indexed = new ArrayList<>();
        int points = 0;
        long sum = 0;

        Size(double ours) {
            this.ours = ours;
        }

        void add(OutlineCase asked) {
            Polygon polygon = asked.polygon();
            cases.add(asked);
            polygons.add(polygon);
            indexed.add(new IndexedPointInAreaLocator(polygon));
            points += asked.points.length;
            sum += Arrays.stream(asked.answers).sum();
        }
    }

    public static void main(String[] arguments) throws IOException {
        List<Size> sizes = read(arguments[0]);
        List<double[]> best = new ArrayList<>();
        for (Size size : sizes) {
            best.add(best(size));
        }
        for (int side = 0; side < SIDES.length; side++) {
            print(NAMES[side], side, sizes, best);
        }
    }

    private static List<Size> read(String file) throws IOException {
        List<Size> sizes = new ArrayList<>();
        try (BufferedReader lines = new BufferedReader(new FileReader(file))) {
            for (String line = lines.readLine(); line != null; line = lines.readLine()) {
                if (line.startsWith("B ")) {
                    sizes.add(new Size(Double.parseDouble(line.split(" ")[2])));
                } else {
                    sizes.get(sizes.size() - 1).add(new OutlineCase(line));
                }
            }
        }
        return sizes;
    }

    private static long count(Size size) {
        long sum = 0;
        for (OutlineCase asked : size.cases) {
            for (int i = 0; i < asked.points.length; i++) {
                sum += RayCrossingCounter.locatePointInRing(asked.points[i], asked.ring) + 1;
            }
        }
        return sum;
    }

    private static long locate(Size size) {
        PointLocator locator = new PointLocator();
        long sum = 0;
        for (int n = 0; n < size.cases.size(); n++) {
            OutlineCase asked = size.cases.get(n);
            for (int i = 0; i < asked.points.length; i++) {
                sum += locator.locate(asked.points[i], size.polygons.get(n)) + 1;
            }
        }
        return sum;
    }

    private static long locateIndexed(Size size) {
        long sum = 0;
        for (int n = 0; n < size.cases.size(); n++) {
            OutlineCase asked = size.cases.get(n);
            for (int i = 0; i < asked.points.length; i++) {
                sum += size.indexed.get(n).locate(asked.points[i]) + 1;
            }
        }
        return sum;
    }

    /** Nanoseconds a point. The sum of the answers must be the library's, so that no call can be left out. */
    private static double round(Size size, Side side) {
        long from = System.nanoTime();
        long sum = side.run(size);
        double each = (double) (System.nanoTime() - from) / size.points;
        if (sum != size.sum) {
            throw new IllegalStateException("JTS and the library differ");
        }
        return each;
    }

    /** The best of the rounds, the sides turn by turn. */
    private static double[] best(Size size) {
        double[] best = new double[SIDES.length];
        Arrays.fill(best, Double.MAX_VALUE);
        for (int n = 0; n < WARM_UP + ROUNDS; n++) {
            for (int side = 0; side < SIDES.length; side++) {
                double each = round(size, SIDES[side]);
                best[side] = n < WARM_UP ? best[side] : Math.min(best[side], each);
            }
        }
        return best;
    }

    private static void print(String name, int side, List<Size> sizes, List<double[]> best) {
        StringBuilder line = new StringBuilder("| JTS, `" + name + "` |");
        for (int n = 0; n < sizes.size(); n++) {
            double each = best.get(n)[side];
            double ratio = each / sizes.get(n).ours;
            line.append(String.format(ratio < 10 ? " %.1f | %.2f |" : " %.1f | %.0f |", each, ratio));
        }
        System.out.println(line);
    }
}
