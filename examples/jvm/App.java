import java.lang.ref.*;
import java.util.*;
import java.util.function.*;
import java.lang.management.ManagementFactory;
import com.sun.management.HotSpotDiagnosticMXBean;

/** Builds data, and dumps the heap right before and right after each collection: App SIZE ROUNDS FOLDER [fault | cleared]. */
public class App {
    record Point(int x, double y, long z, Point[] next) {}
    static final Map<String, Object> table = new HashMap<>();
    static final TreeMap<Integer, List<Object>> tree = new TreeMap<>();
    static final WeakHashMap<Object, String> weak = new WeakHashMap<>();
    static final List<Supplier<Integer>> closures = new ArrayList<>();
    static Object[] odd = new Object[70000];
    static final List<Reference<Object>> references = new ArrayList<>();
    static final ReferenceQueue<Object> queue = new ReferenceQueue<>();
    static LinkedList<Object> victim;
    static WeakReference<Object> toVictim;
    static byte[] bytes = new byte[100001];

    static void fill(int round, int size) {
        Random random = new Random(round);
        for (int i = 0; i < size; i++) {
            String key = "key" + (round * size + i);
            Point[] self = new Point[2];
            Point p = new Point(-i, 1.5 * i, i % 5 == 0 ? -i : i, self);
            self[0] = p;
            table.put(key, i % 3 == 0 ? p : new LinkedList<Object>(List.of(i, key, 'c')));
            if (i == size / 2) {
                table.put(key, victim = new LinkedList<>(List.of(1, 2, 3)));
                toVictim = new WeakReference<>(victim);
            }
            if (i % 4 == 0) { int captured = i; closures.add(() -> captured * 3); }
            if (i % 7 == 0) tree.computeIfAbsent(random.nextInt(1000), k -> new ArrayList<>()).add(new StringBuilder(key));
            if (i % 9 == 0) weak.put(i % 2 == 0 ? key : new Object(), "w" + i);
            if (i % 11 == 0) odd[random.nextInt(odd.length)] = p;
            if (i % 12 == 0) references.add(new WeakReference<>(i % 24 == 0 ? p : new Point(i, 0, 0, self)));
            if (i % 15 == 0) references.add(new SoftReference<>(new StringBuilder(key)));
            if (i % 16 == 0) references.add(new SoftReference<>(new Object[] {new WeakReference<>(p)}));
            if (i % 17 == 0) references.add(new PhantomReference<>(i % 34 == 0 ? p : new Object(), queue));
            bytes[i % bytes.length] ^= (byte) i;
        }
        if (round % 2 == 1) table.keySet().removeIf(k -> k.hashCode() % 2 == 0);
    }

    /** Flips a bit of an object behind the collector's back. */
    static void flipOneBit() throws Exception {
        var f = sun.misc.Unsafe.class.getDeclaredField("theUnsafe");
        f.setAccessible(true);
        var u = (sun.misc.Unsafe) f.get(null);
        long at = u.objectFieldOffset(LinkedList.class.getDeclaredField("size"));
        u.putInt(victim, at, u.getInt(victim, at) ^ 16);
    }

    public static void main(String[] args) throws Exception {
        int size = Integer.parseInt(args[0]), rounds = Integer.parseInt(args[1]);
        String folder = args[2];
        String fault = args.length > 3 ? args[3] : "";
        var bean = ManagementFactory.getPlatformMXBean(HotSpotDiagnosticMXBean.class);
        for (int r = 0; r < rounds; r++) {
            fill(r, size);
            long t0 = System.nanoTime();
            bean.dumpHeap(folder + "/" + r + "a.hprof", false);
            long t1 = System.nanoTime();
            System.gc();
            long t2 = System.nanoTime();
            if (fault.equals("fault") && r == rounds - 1) flipOneBit();
            if (fault.equals("cleared") && r == rounds - 1) toVictim.clear();
            bean.dumpHeap(folder + "/" + r + "b.hprof", false);
            System.out.printf("collection of %.1f ms, dump of %.0f ms%n", (t2 - t1) / 1e6, (t1 - t0) / 1e6);
        }
    }
}
