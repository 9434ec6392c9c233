package examples;

import static examples.Recipe.repeated;
import static examples.Recipe.say;

import dchm.client.DchmMap;
import java.util.UUID;
import java.util.function.Supplier;

/**
 * Requests that are carried out once, though they come often, and servers and workers are killed: CarriedOnce PORT WORKER.
 * A worker claims a request under its name and the time. If it dies, another takes the claim over once its time is over.
 * Then the work may be begun twice, so it is done under the request's name: here as a key of the map, elsewhere as the
 * idempotency key of a payment. `carried N` and `took N` are printed of each work that is begun and each claim that is
 * taken over, and `told N RESULT` once a result is known.
 */
public final class CarriedOnce {
    /** Longer than any work takes. */
    private static final double PATIENCE_SECONDS = 1;
    private static final String DONE = "done ";
    private static int next;

    private CarriedOnce() {
    }

    /**
     * The result of the work for this request, of this call or another; null while another worker is at it. Nobody else
     * ever writes this claim, so each change from or to it may be repeated.
     */
    static String once(DchmMap<String> map, String name, String worker, Supplier<String> work) throws InterruptedException {
        String key = "request:" + name;
        String claim = "claim " + worker + " " + UUID.randomUUID() + " " + Recipe.now();
        String holder = repeated(() -> map.putIfAbsent(key, claim));
        holder = holder == null ? claim : holder;
        if (!holder.equals(claim) && !holder.startsWith(DONE)) {
            if (Recipe.now() < Double.parseDouble(holder.substring(holder.lastIndexOf(' ') + 1)) + PATIENCE_SECONDS) {
                return null;
            }
            Recipe.change(map, key, holder, claim);
            holder = repeated(() -> map.get(key));
            if (holder.equals(claim)) {
                say("took", name);
            }
        }
        if (holder.equals(claim)) {
            Recipe.change(map, key, claim, DONE + work.get());
            // The result of another, if that one took the claim over.
            holder = repeated(() -> map.get(key));
        }
        return holder.startsWith(DONE) ? holder.substring(DONE.length()) : null;
    }

    /** Work that has one effect, however often it is done: the first charge under the request's name stands. */
    private static String charge(DchmMap<String> map, int number, String worker) {
        say("carried", number);
        String charged = "by-" + worker + "-" + UUID.randomUUID();
        try {
            String first = repeated(() -> map.putIfAbsent("charge:" + number, charged));
            return first == null ? charged : first;
        } catch (InterruptedException error) {
            throw new IllegalStateException(error);
        }
    }

    /**
     * Carries out one request after the other.
     *
     * @param words the port of the server and the worker's name
     * @throws Exception if it can't go on
     */
    public static void main(String[] words) throws Exception {
        Recipe.run(words, (client, worker) -> {
            int number = next++;
            String result = null;
            while (result == null) {
                result = once(client.texts(), Integer.toString(number), worker, () -> charge(client.texts(), number, worker));
                if (result == null) {
                    Thread.sleep(Recipe.PAUSE_MILLIS);
                }
            }
            say("told", number, result);
        });
    }
}
