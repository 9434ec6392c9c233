package dchm.client;

import java.io.IOException;
import java.util.stream.LongStream;

/**
 * Orders of events of a {@link Lane}, drawn at random: LaneSearch SEEDS [FIRST]. No request is sent twice or torn, each
 * call ends once and by its deadline, and what it is told is true. A failure names its seed. The last line is
 * `N passed, M failed`, with a seed as a test.
 */
public final class LaneSearch {
    private static final int EVENTS = 150, SETTLING = 400;
    private static final long MILLI = 1_000_000;
    private final LaneWorld world;
    private final int calm;

    private LaneSearch(long seed) {
        world = new LaneWorld(seed);
        // How seldom what breaks a connection happens, so that some plays have long ones.
        calm = 1 + world.random.nextInt(40);
    }

    private void event() {
        switch (world.random.nextInt(16)) {
            case 0, 1, 2 -> world.begin(world.random.nextInt(3) > 0, world.random.nextBoolean());
            case 3, 4 -> world.stepThread();
            case 5 -> connecting();
            case 6, 7, 8 -> world.write();
            case 9 -> world.resume();
            case 10, 11 -> serve();
            case 12, 13 -> world.read(1 + world.random.nextInt(40));
            case 14 -> world.later(MILLI * world.random.nextInt(world.random.nextInt(8) == 0 ? 200 : 4));
            default -> rare();
        }
    }

    private void serve() {
        if (world.line != null) {
            world.serve(world.line, 1 + world.random.nextInt(60));
        }
    }

    private void connecting() {
        if (world.random.nextInt(4) > 0) {
            world.connects();
        } else {
            world.lane.failed(new IOException("refused"), world.now);
        }
    }

    private void rare() {
        if (!world.calls.isEmpty() && world.random.nextInt(4) == 0) {
            world.giveUp();
            world.check();
        }
        if (world.random.nextInt(calm) > 0 || world.line == null) {
            return;
        }
        switch (world.random.nextInt(6)) {
            case 0, 1 -> lose();
            case 2 -> lie("HTTP/1.1 400 Bad Request\r\n".getBytes());
            case 3 -> lie(new byte[] {0, 2, Wire.WAS, 0});
            case 4 -> lie(new byte[] {0, 2, (byte) (Wire.REFUSED + Wire.FAILED), 0});
            default -> {
                if (world.random.nextInt(3) == 0) {
                    world.close();
                }
            }
        }
    }

    private void lose() {
        world.lane.lost(world.line.stream, new IOException("reset"), world.now);
    }

    /** The server sends what it must not, and is gone. */
    private void lie(byte[] bytes) {
        if (world.line.toClient.isEmpty()) {
            world.cameBytes(bytes);
            lose();
        }
    }

    /** The server that has lost a connection takes what is on its way, or some of it. */
    private void serveEnded() {
        for (LaneWorld.Line line : world.ended) {
            world.serve(line, world.random.nextInt(200));
        }
    }

    private void play() {
        for (int i = 0; i < EVENTS; i++) {
            if (!world.isClosed || world.random.nextInt(4) == 0) {
                event();
            }
            world.check();
            if (world.random.nextInt(8) == 0) {
                serveEnded();
            }
        }
        settle();
    }

    /** From here on nothing fails: what goes on ends, and a new call is made, without a wait for a deadline. */
    private void settle() {
        for (int i = 0; i < 2; i++) {
            world.begin(true, i == 0);
        }
        LaneWorld.Known last = world.calls.get(world.calls.size() - 1);
        for (int i = 0; i < SETTLING && !last.call.isDone(); i++) {
            world.stepThread();
            world.connects();
            world.write();
            world.resume();
            serve();
            world.read(60);
            world.gathered();
            if (world.line == null && !world.isClosed) {
                world.later(MILLI);
            }
            world.check();
        }
        serveEnded();
        if (!last.call.isDone()) {
            throw new LaneWorld.Wrong("call " + last.number + " is stuck: " + world.lane);
        }
        boolean isRightEnd = world.isClosed ? true : last.got == 1 || last.call.due <= world.now || isRefused(last);
        if (!isRightEnd) {
            throw new LaneWorld.Wrong("call " + last.number + " isn't made by a server that answers");
        }
        idles();
    }

    private static boolean isRefused(LaneWorld.Known last) {
        try {
            last.call.reply();
            return false;
        } catch (NotMadeException error) {
            // Its place was taken by those that waited, or its attempt was one that failed.
            return true;
        } catch (DchmException error) {
            return false;
        }
    }

    private void idles() {
        if (world.idle > 0 && world.line != null) {
            // An attempt ends first, and what it leaves.
            for (int i = 0; i < 3; i++) {
                world.later(world.idle + world.timeout + 300 * MILLI);
                world.check();
            }
            if (world.line != null) {
                throw new LaneWorld.Wrong("a connection without a call goes on: " + world.lane);
            }
        }
    }

    private static String fault(long seed) {
        try {
            new LaneSearch(seed).play();
            return null;
        } catch (RuntimeException error) {
            return "FAILED seed " + seed + ": " + error + " at " + error.getStackTrace()[0];
        }
    }

    public static void main(String[] words) {
        long seeds = Long.parseLong(words[0]);
        long first = words.length > 1 ? Long.parseLong(words[1]) : 1;
        long failed = LongStream.range(first, first + seeds).parallel().mapToObj(LaneSearch::fault).filter(fault -> fault != null)
            .peek(System.out::println).limit(20).count();
        System.out.printf("%d passed, %d failed%n", seeds - failed, failed);
        System.exit(failed == 0 ? 0 : 1);
    }
}
