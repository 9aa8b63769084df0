package io.github.tickmarl.hdt;

import static org.junit.jupiter.api.Assertions.assertEquals;
import static org.junit.jupiter.api.Assertions.assertFalse;
import static org.junit.jupiter.api.Assertions.assertTrue;

import java.util.ArrayList;
import java.util.HashMap;
import java.util.List;
import java.util.Map;
import java.util.Random;
import org.junit.jupiter.api.Test;

/** Sets of keys, beside those of Java. */
class LongTableTest {
    private static long[] key(Random random, int width, int bound) {
        return random.longs(width, 0, bound).toArray();
    }

    private static List<Long> list(long[] key) {
        List<Long> list = new ArrayList<>();
        for (long number : key) {
            list.add(number);
        }
        return list;
    }

    @Test
    void besideMaps() {
        Random random = new Random(1);
        for (int width = 0; width < 4; width++) {
            LongTable table = new LongTable(width);
            Map<List<Long>, Integer> wanted = new HashMap<>();
            for (int i = 0; i < 20_000; i++) {
                long[] key = key(random, width, i % 2 == 0 ? 40 : 1 << 30);
                assertEquals(wanted.containsKey(list(key)), table.contains(key));
                int index = wanted.computeIfAbsent(list(key), it -> wanted.size());
                assertEquals(index, table.add(key));
                assertEquals(wanted.size(), table.size());
                for (int place = 0; place < width; place++) {
                    assertEquals(key[place], table.get(index, place));
                }
            }
        }
    }

    /** Wherever the keys of small sets fall, a set that is as full as sets become finds them, and misses others. */
    @Test
    void full() {
        Random random = new Random(2);
        for (int set = 0; set < 500_000; set++) {
            LongTable table = new LongTable(1);
            long[] key = new long[1];
            for (int i = 0; i < 17; i++) {
                key[0] = random.nextLong();
                assertFalse(table.contains(key));
                assertEquals(i, table.add(key));
            }
            assertTrue(table.contains(key));
        }
    }
}
