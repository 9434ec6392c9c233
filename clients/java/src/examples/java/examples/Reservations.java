package examples;

import dchm.client.DchmClient;
import dchm.client.NotMadeException;
import dchm.client.OutcomeOpenException;
import java.util.UUID;
import java.util.concurrent.ConcurrentMap;

/**
 * Seats that are sold once, also if the server is killed and started again: Reservations PORT. Buyers want one seat
 * after the other until the standard input ends. `sold SEAT ORDER` is printed of each seat that a buyer got.
 */
public final class Reservations {
    private static final int BUYERS = 16;
    private static final int PAUSE_MILLIS = 20;
    private final ConcurrentMap<String, String> seats;

    private Reservations(ConcurrentMap<String, String> seats) {
        this.seats = seats;
    }

    /**
     * Whether this order gets the seat. Nobody else writes the order's name, and the seat is never given back. So the
     * change may be repeated if its outcome is open: null or the own name says that it was made.
     */
    private boolean reserve(int seat, String order) throws InterruptedException {
        while (true) {
            try {
                String holder = seats.putIfAbsent("seat:" + seat, order);
                return holder == null || holder.equals(order);
            } catch (OutcomeOpenException | NotMadeException error) {
                Thread.sleep(PAUSE_MILLIS);
            }
        }
    }

    /**
     * Sells seats.
     *
     * @param words the port of the server
     * @throws Exception if it can't go on
     */
    public static void main(String[] words) throws Exception {
        try (DchmClient client = DchmClient.connect(Integer.parseInt(words[0]))) {
            Reservations reservations = new Reservations(client.texts());
            Workers.run(BUYERS, (number, goesOn) -> {
                for (int seat = 0; goesOn.getAsBoolean(); seat++) {
                    String order = UUID.randomUUID().toString();
                    if (reservations.reserve(seat, order)) {
                        System.out.println("sold " + seat + " " + order);
                    }
                }
            });
        }
    }
}
