package dchm.client;

import java.io.BufferedReader;
import java.io.IOException;
import java.io.InputStreamReader;
import java.nio.file.Files;
import java.nio.file.Path;
import java.time.Duration;
import java.util.ArrayList;
import java.util.Comparator;
import java.util.List;
import java.util.concurrent.ThreadLocalRandom;
import java.util.stream.Stream;

/**
 * A server of a test's own: {@code dchm serve} of the program that the property {@code dchm} names, or the stand-in
 * that the property {@code standin} names.
 */
final class Server implements AutoCloseable {
    /** So much that no slow machine comes near it. */
    static final Duration LONG = Duration.ofMinutes(2);
    /** For a call whose reply never comes. */
    static final Duration SHORT = Duration.ofSeconds(1);
    static final int MOST_TURNS = 1200;
    static final int TURN_MILLIS = 50;
    private static final String PROGRAM = System.getProperty("dchm");
    private static final String STAND_IN = System.getProperty("standin");
    private static final String PYTHON = System.getProperty("python", "python3");
    /** Ports below those that the system gives to clients of its own choice. */
    private static final int FIRST_PORT = 12_000, END_PORT = 32_000;
    private static final int MOST_PORTS = 20;
    final int port;
    private final Path room;
    private final Process process;

    private Server(Path room, Process process, int port) {
        this.room = room;
        this.process = process;
        this.port = port;
    }

    /** The program, over an empty map, with these options. */
    static Server real(String... options) throws IOException, InterruptedException {
        return real(Files.createTempDirectory("dchm-client-"), options);
    }

    /** The program, over an empty map, at a Unix socket too. */
    static Server realAtSocket() throws IOException, InterruptedException {
        Path room = Files.createTempDirectory("dchm-client-");
        return real(room, "--socket", room.resolve("socket").toString());
    }

    private static Server real(Path room, String... options) throws IOException, InterruptedException {
        String map = room.resolve("map").toString();
        Files.createDirectory(room.resolve("map"));
        new ProcessBuilder(PROGRAM, "init", map).redirectOutput(room.resolve("init").toFile()).start().waitFor();
        for (int turn = 0; turn < MOST_PORTS; turn++) {
            int port = ThreadLocalRandom.current().nextInt(FIRST_PORT, END_PORT);
            List<String> words = new ArrayList<>(List.of(PROGRAM, "serve", map, "--port", Integer.toString(port)));
            words.addAll(List.of(options));
            Process process = started(words, room);
            if (("listening " + port).equals(firstLine(process))) {
                return new Server(room, process, port);
            }
            process.destroyForcibly().waitFor();
        }
        throw new IOException("no server listens: " + Files.readString(room.resolve("errors")));
    }

    /** The stand-in with these rules. */
    static Server standIn(String... rules) throws IOException, InterruptedException {
        Path room = Files.createTempDirectory("dchm-client-");
        return standIn(room, List.of(), rules);
    }

    /** The stand-in at a Unix socket. */
    static Server atSocket(String... rules) throws IOException, InterruptedException {
        Path room = Files.createTempDirectory("dchm-client-");
        return standIn(room, List.of("--unix", room.resolve("socket").toString()), rules);
    }

    private static Server standIn(Path room, List<String> options, String... rules) throws IOException {
        List<String> words = new ArrayList<>(List.of(PYTHON, STAND_IN, "--journal", room.resolve("journal").toString()));
        words.addAll(options);
        words.addAll(List.of(rules));
        Process process = started(words, room);
        String said = firstLine(process);
        if (said == null || !said.startsWith("listening ")) {
            throw new IOException("the stand-in doesn't listen: " + Files.readString(room.resolve("errors")));
        }
        return new Server(room, process, options.isEmpty() ? Integer.parseInt(said.substring("listening ".length())) : 0);
    }

    private static Process started(List<String> words, Path room) throws IOException {
        Process process = new ProcessBuilder(words)
            .redirectError(ProcessBuilder.Redirect.appendTo(room.resolve("errors").toFile())).start();
        Runtime.getRuntime().addShutdownHook(new Thread(process::destroyForcibly));
        return process;
    }

    private static String firstLine(Process process) throws IOException {
        return new BufferedReader(new InputStreamReader(process.getInputStream())).readLine();
    }

    /** Sends a signal to the server, such as `STOP`. */
    void signal(String name) throws IOException, InterruptedException {
        new ProcessBuilder("kill", "-" + name, Long.toString(process.pid())).start().waitFor();
    }

    Path socket() {
        return room.resolve("socket");
    }

    /** The options of a client that waits for this server as long as it takes. */
    DchmClient.Builder options() {
        return DchmClient.at(port).connectTimeout(LONG).timeout(LONG).wholeMapTimeout(LONG).idle(LONG);
    }

    DchmClient client() {
        return options().connect();
    }

    /** The frames of the journal's lines of one kind, `got` or `sent`, without probes. */
    List<String> frames(String kind) throws IOException {
        List<String> frames = new ArrayList<>();
        for (String line : Files.readAllLines(room.resolve("journal"))) {
            String[] words = line.split(" ");
            if (words[0].equals(kind)) {
                frames.add(words[2]);
            }
        }
        return frames;
    }

    /** How often the stand-in got this request. */
    long received(byte[] frame) throws IOException {
        String sought = java.util.HexFormat.of().withUpperCase().formatHex(frame);
        return frames("got").stream().filter(sought::equals).count();
    }

    /** A condition that is to hold in the end. */
    interface Condition {
        boolean holds() throws Exception;
    }

    /** Whether it holds within a bounded number of looks. */
    static boolean waitUntil(Condition condition) throws Exception {
        for (int turn = 0; turn < MOST_TURNS; turn++) {
            if (condition.holds()) {
                return true;
            }
            Thread.sleep(TURN_MILLIS);
        }
        return false;
    }

    @Override
    public void close() throws IOException, InterruptedException {
        process.destroyForcibly().waitFor();
        try (Stream<Path> files = Files.walk(room)) {
            for (Path file : files.sorted(Comparator.reverseOrder()).toList()) {
                Files.delete(file);
            }
        }
    }
}
