package dchm.client;

import com.google.common.collect.testing.ConcurrentMapTestSuiteBuilder;
import com.google.common.collect.testing.FeatureSpecificTestSuiteBuilder;
import com.google.common.collect.testing.OneSizeTestContainerGenerator;
import com.google.common.collect.testing.SampleElements;
import com.google.common.collect.testing.TestMapGenerator;
import com.google.common.collect.testing.TestStringMapGenerator;
import com.google.common.collect.testing.features.CollectionFeature;
import com.google.common.collect.testing.features.CollectionSize;
import com.google.common.collect.testing.features.MapFeature;
import java.util.AbstractMap.SimpleImmutableEntry;
import java.util.Arrays;
import java.util.Collections;
import java.util.List;
import java.util.Map;
import junit.framework.Test;
import junit.framework.TestFailure;
import junit.framework.TestResult;
import junit.framework.TestSuite;

/**
 * The suites of Guava's testlib for a ConcurrentMap, against the real server: those of the map itself, and all, with
 * those of its views; for texts and for numbers. The last line is `N passed, M failed`. With the word `first` it ends at
 * the first failure, which is enough of a client that is known to be wrong.
 */
public final class GuavaSuites {
    /** How many tests Guava 31.1 has of the map itself, and with those of views. */
    private static final int TESTS = 325, TESTS_WITH_VIEWS = 916;
    private static boolean endsAtFirst;
    private static int passed;
    private static int failed;

    private GuavaSuites() {
    }

    /** Makes maps with given entries; the entries of the map before are removed. */
    private static final class Maker {
        private final DchmClient client;
        private KnownKeys<?> last;

        Maker(DchmClient client) {
            this.client = client;
        }

        <V> Map<String, V> filled(DchmMap<V> map, List<? extends Map.Entry<String, V>> entries) {
            if (last != null) {
                last.keys().forEach(client.map()::remove);
            }
            KnownKeys<V> made = new KnownKeys<>(map);
            last = made;
            entries.forEach(entry -> made.put(entry.getKey(), entry.getValue()));
            return made;
        }
    }

    private static final class Texts extends TestStringMapGenerator {
        private final Maker maker;

        Texts(Maker maker) {
            this.maker = maker;
        }

        @Override
        protected Map<String, String> create(Map.Entry<String, String>[] entries) {
            return maker.filled(maker.client.texts(), Arrays.asList(entries));
        }
    }

    private static final class Numbers implements TestMapGenerator<String, Long> {
        private final Maker maker;

        Numbers(Maker maker) {
            this.maker = maker;
        }

        private static Map.Entry<String, Long> entry(String key, long value) {
            return new SimpleImmutableEntry<>(key, value);
        }

        @Override
        public SampleElements<Map.Entry<String, Long>> samples() {
            return new SampleElements<>(entry("", 0), entry("\u00e9", Long.MIN_VALUE), entry("\ud83d\ude00", -1),
                entry("four", Long.MAX_VALUE), entry("Aa", 5));
        }

        @Override
        @SuppressWarnings("unchecked")
        public Map<String, Long> create(Object... elements) {
            return maker.filled(maker.client.longs(),
                Arrays.stream(elements).map(element -> (Map.Entry<String, Long>) element).toList());
        }

        @Override
        @SuppressWarnings("unchecked")
        public Map.Entry<String, Long>[] createArray(int length) {
            return new Map.Entry[length];
        }

        @Override
        public Iterable<Map.Entry<String, Long>> order(List<Map.Entry<String, Long>> insertionOrder) {
            return insertionOrder;
        }

        @Override
        public String[] createKeyArray(int length) {
            return new String[length];
        }

        @Override
        public Long[] createValueArray(int length) {
            return new Long[length];
        }
    }

    /** The suites without those of keySet, values and entrySet. */
    private static final class WithoutViews<V> extends ConcurrentMapTestSuiteBuilder<String, V> {
        WithoutViews(TestMapGenerator<String, V> generator) {
            usingGenerator(generator);
        }

        @Override
        protected List<TestSuite> createDerivedSuites(FeatureSpecificTestSuiteBuilder<?,
            ? extends OneSizeTestContainerGenerator<Map<String, V>, Map.Entry<String, V>>> parent) {
            return List.of();
        }
    }

    private static Test suite(ConcurrentMapTestSuiteBuilder<String, ?> builder, String name) {
        return builder.named(name).withFeatures(MapFeature.GENERAL_PURPOSE, MapFeature.RESTRICTS_KEYS,
            MapFeature.RESTRICTS_VALUES, CollectionSize.ANY, CollectionFeature.NON_STANDARD_TOSTRING,
            CollectionFeature.SUPPORTS_ITERATOR_REMOVE).createTestSuite();
    }

    private static void run(String name, int least, ConcurrentMapTestSuiteBuilder<String, ?> builder) {
        TestResult result = new TestResult() {
            @Override
            public boolean shouldStop() {
                return super.shouldStop() || endsAtFirst && errorCount() + failureCount() + failed > 0;
            }
        };
        suite(builder, name).run(result);
        for (List<TestFailure> failures : List.of(Collections.list(result.errors()), Collections.list(result.failures()))) {
            failures.forEach(failure -> System.out.println("FAILED " + name + ": " + failure.failedTest() + ": "
                + failure.trace()));
        }
        int wrong = result.errorCount() + result.failureCount();
        if (result.runCount() < least && wrong == 0) {
            System.out.printf("FAILED %s: %d tests, not %d%n", name, result.runCount(), least);
            wrong++;
        }
        System.out.printf("%s: %d tests, %d wrong%n", name, result.runCount(), wrong);
        passed += result.runCount() - Math.min(wrong, result.runCount());
        failed += wrong;
    }

    public static void main(String[] words) throws Exception {
        endsAtFirst = words.length > 0 && words[0].equals("first");
        try (Server server = Server.real(); DchmClient client = server.client()) {
            Maker maker = new Maker(client);
            run("texts", TESTS, new WithoutViews<>(new Texts(maker)));
            run("numbers", TESTS, new WithoutViews<>(new Numbers(maker)));
            run("texts, with views", TESTS_WITH_VIEWS, ConcurrentMapTestSuiteBuilder.using(new Texts(maker)));
            run("numbers, with views", TESTS_WITH_VIEWS, ConcurrentMapTestSuiteBuilder.using(new Numbers(maker)));
        }
        System.out.printf("%d passed, %d failed%n", passed, failed);
        System.exit(failed == 0 ? 0 : 1);
    }
}
