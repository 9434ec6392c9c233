package examples;

import dchm.client.DchmClient;
import dchm.client.Fn;
import java.util.concurrent.ConcurrentMap;

/** A first program: First PORT. */
public final class First {
    private First() {
    }

    /**
     * Puts, adds, and reads.
     *
     * @param words the port of the server
     */
    public static void main(String[] words) {
        try (DchmClient client = DchmClient.connect(Integer.parseInt(words[0]))) {
            ConcurrentMap<String, Long> stock = client.longs();
            stock.put("stock", 5L);
            long left = stock.merge("stock", -2L, Fn.SUM);     // one call of the server
            stock.compute("stock", (key, old) -> old * 2);     // a read and a conditional change
            System.out.println(left + " " + stock.get("stock"));
        }
    }
}
