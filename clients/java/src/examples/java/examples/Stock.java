package examples;

import static examples.Recipe.repeated;
import static examples.Recipe.say;

import dchm.client.DchmMap;
import java.util.LinkedHashMap;
import java.util.List;
import java.util.Map;
import java.util.UUID;
import java.util.concurrent.ThreadLocalRandom;
import java.util.stream.Collectors;

/**
 * A stock with quantities and reservations, though servers and workers are killed: Stock PORT WORKER. A stock is the text
 * `VERSION;LEFT;ORDER=QUANTITY@TIME,..`. What becomes of an order is decided once, by the first putIfAbsent of its name;
 * then the stock follows. So a reservation whose worker died is released by any other. `sold` and `released` are printed
 * with item, order and quantity, `none` if too few are left.
 */
public final class Stock {
    private static final List<String> ITEMS = List.of("apples", "pears");
    private static final long BEGIN = 2000;
    /** Longer than any order takes. */
    private static final double PATIENCE_SECONDS = 2;
    /** At most so many reservations at a time fit into the text. */
    private static final int MOST_RESERVED = 60;
    private static final String SOLD = "sold", RELEASED = "released";
    private final DchmMap<String> map;
    private final String item;

    private Stock(DchmMap<String> map, String item) {
        this.map = map;
        this.item = item;
    }

    /** A text of a stock, how many are left, and the reservations as `QUANTITY@TIME` by their orders. */
    private record Found(String text, long left, Map<String, String> orders) {
        static Found of(String text) {
            String[] parts = (text == null ? "0;" + BEGIN + ";" : text).split(";", 3);
            Map<String, String> orders = new LinkedHashMap<>();
            for (String order : parts[2].isEmpty() ? new String[0] : parts[2].split(",")) {
                orders.put(order.substring(0, order.indexOf('=')), order.substring(order.indexOf('=') + 1));
            }
            return new Found(text, Long.parseLong(parts[1]), orders);
        }

        long quantity(String order) {
            return Long.parseLong(orders.get(order).split("@")[0]);
        }

        double time(String order) {
            return Double.parseDouble(orders.get(order).split("@")[1]);
        }

        /** The text behind this one. Versions only rise, so no text comes back. */
        String next(long leftThen, Map<String, String> ordersThen) {
            long version = text == null ? 1 : Long.parseLong(text.substring(0, text.indexOf(';'))) + 1;
            return version + ";" + leftThen + ";" + ordersThen.entrySet().stream()
                .map(order -> order.getKey() + "=" + order.getValue()).collect(Collectors.joining(","));
        }
    }

    private Found read() throws InterruptedException {
        return Found.of(repeated(() -> map.get("stock:" + item)));
    }

    private void change(Found old, long left, Map<String, String> orders) throws InterruptedException {
        Recipe.change(map, "stock:" + item, old.text, old.next(left, orders));
    }

    /** Whether so many are reserved for the order, which is a new name. */
    boolean reserve(String order, long quantity) throws InterruptedException {
        double begin = Recipe.now();
        while (true) {
            Found found = read();
            if (found.orders.containsKey(order)) {
                return true;
            }
            if (found.left < quantity) {
                return false;
            }
            if (found.orders.size() < MOST_RESERVED) {
                Map<String, String> orders = new LinkedHashMap<>(found.orders);
                orders.put(order, quantity + "@" + begin);
                change(found, found.left - quantity, orders);
            } else {
                releaseOld(begin);
                Thread.sleep(Recipe.PAUSE_MILLIS);
            }
        }
    }

    /** What became of an order that is reserved: this end, or the one that was decided before. */
    String decide(String order, String end) throws InterruptedException {
        String before = repeated(() -> map.putIfAbsent("order:" + order, end));
        String decided = before == null ? end : before;
        for (Found found = read(); found.orders.containsKey(order); found = read()) {
            Map<String, String> orders = new LinkedHashMap<>(found.orders);
            orders.remove(order);
            change(found, found.left + (decided.equals(RELEASED) ? found.quantity(order) : 0), orders);
        }
        return decided;
    }

    /** Releases the reservations whose workers seem to be gone. One that sells after that is told that it was released. */
    void releaseOld(double now) throws InterruptedException {
        Found found = read();
        for (String order : found.orders.keySet()) {
            if (found.time(order) + PATIENCE_SECONDS < now) {
                decide(order, RELEASED);
            }
        }
    }

    private void work() throws InterruptedException {
        String order = UUID.randomUUID().toString();
        long quantity = 1 + ThreadLocalRandom.current().nextInt(3);
        if (!reserve(order, quantity)) {
            say("none", item);
            Thread.sleep(Recipe.PAUSE_MILLIS);
            return;
        }
        String end = decide(order, ThreadLocalRandom.current().nextInt(3) == 0 ? RELEASED : SOLD);
        say(end, item, order, quantity);
        releaseOld(Recipe.now());
    }

    /**
     * Sells and releases.
     *
     * @param words the port of the server and the worker's name
     * @throws Exception if it can't go on
     */
    public static void main(String[] words) throws Exception {
        Recipe.run(words, (client, worker) ->
            new Stock(client.texts(), ITEMS.get(ThreadLocalRandom.current().nextInt(ITEMS.size()))).work());
    }
}
