package dchm.client;

import static org.junit.Assert.assertArrayEquals;
import static org.junit.Assert.assertEquals;
import static org.junit.Assert.assertThrows;
import static org.junit.Assert.assertTrue;

import java.nio.ByteBuffer;
import java.nio.charset.StandardCharsets;
import java.nio.file.Files;
import java.nio.file.Path;
import java.util.ArrayList;
import java.util.Arrays;
import java.util.HexFormat;
import java.util.List;
import java.util.Map;
import java.util.OptionalLong;
import java.util.concurrent.Callable;
import org.junit.Test;

/** Each row of docs/PROTOCOL.md that shows bytes: the client sends these, and says what the reply says. */
public final class PageTest {
    /** A request and its reply, as the page shows them. */
    private record Row(byte[] request, byte[] reply) {
        int method() {
            return request.length > 2 ? request[2] : -1;
        }

        @Override
        public String toString() {
            return HexFormat.of().formatHex(request);
        }
    }

    private static final List<List<String>> COLUMNS = List.of(List.of("Request", "Reply"), List.of("Frame", "Reply frame"));
    private static final Map<Integer, Fn<Object>> FUNCTIONS = Map.of(1, Fn.constant(), 2, Fn.drop(), 3, Fn.keep(),
        4, Fn.SUM.any(), 5, Fn.MAX.any(), 6, Fn.MIN.any(), 7, Fn.CONCAT.any(), 8, Fn.SUM_NONZERO.any(), 9, Fn.SUM_EXACT.any());

    private static List<String> cells(String line) {
        return Arrays.stream(line.substring(1, line.length() - 1).split("\\|")).map(String::strip).toList();
    }

    private static byte[] bytes(String cell) {
        return HexFormat.of().parseHex(cell.replace("`", "").replace(" ", ""));
    }

    /** The rows of the page, in order. */
    private static List<Row> rows() throws Exception {
        List<Row> rows = new ArrayList<>();
        int request = -1;
        int reply = -1;
        for (String line : Files.readAllLines(Path.of(System.getProperty("page")))) {
            if (!line.startsWith("|")) {
                request = -1;
                continue;
            }
            List<String> cells = cells(line);
            for (List<String> columns : COLUMNS) {
                if (cells.containsAll(columns)) {
                    request = cells.indexOf(columns.get(0));
                    reply = cells.indexOf(columns.get(1));
                }
            }
            if (request >= 0 && cells.get(request).startsWith("`")) {
                rows.add(new Row(bytes(cells.get(request)), bytes(cells.get(reply))));
            }
        }
        return rows;
    }

    // ---- a second reading of a frame, for this test alone

    private static Object value(ByteBuffer from) {
        int kind = from.get();
        if (kind == 0) {
            return null;
        }
        return kind == 1 ? (Object) from.getLong() : text(from);
    }

    private static String text(ByteBuffer from) {
        byte[] bytes = new byte[from.getShort()];
        from.get(bytes);
        return new String(bytes, StandardCharsets.UTF_8);
    }

    /** The call of the public methods that is to make a request; null if there is none, as of a wrong request. */
    private static Callable<Object> call(DchmMap<Object> map, Row row) {
        ByteBuffer from = ByteBuffer.wrap(row.request, 3, row.request.length - 3);
        if (row.method() >= Wire.COUNT) {
            return null;
        }
        String key = text(from);
        return switch (row.method()) {
            case Wire.GET -> () -> map.get(key);
            case Wire.CONTAINS_KEY -> () -> map.containsKey(key);
            case Wire.PUT -> with(value(from), value -> map.put(key, value));
            case Wire.PUT_IF_ABSENT -> with(value(from), value -> map.putIfAbsent(key, value));
            case Wire.REMOVE -> () -> map.remove(key);
            case Wire.REMOVE_IF -> with(value(from), value -> map.remove(key, value));
            case Wire.REPLACE -> with(value(from), value -> map.replace(key, value));
            case Wire.REPLACE_IF -> with(value(from), old -> map.replace(key, old, value(from)));
            default -> {
                Fn<Object> function = FUNCTIONS.get((int) from.get());
                Object value = value(from);
                yield switch (row.method()) {
                    case Wire.COMPUTE -> () -> map.compute(key, function, value);
                    case Wire.COMPUTE_IF_ABSENT -> () -> map.computeIfAbsent(key, function, value);
                    case Wire.COMPUTE_IF_PRESENT -> () -> map.computeIfPresent(key, function, value);
                    default -> () -> map.merge(key, value, function);
                };
            }
        };
    }

    private static Callable<Object> with(Object value, java.util.function.Function<Object, Object> call) {
        return () -> call.apply(value);
    }

    /** What a reply says: a value, or an exception's class. */
    private static Object told(Row row) {
        ByteBuffer from = ByteBuffer.wrap(row.reply, 2, row.reply.length - 2);
        int status = from.get() & 0xFF;
        Object value = value(from);
        return switch (status) {
            case 0, 1 -> value;
            case 2 -> value.equals(1L);
            case 3 -> List.of(ClassCastException.class, IllegalArgumentException.class, ArithmeticException.class)
                .get((int) (long) value - 1);
            default -> RefusedException.class;
        };
    }

    private static Object came(Callable<Object> call) {
        try {
            return call.call();
        } catch (Exception error) {
            return error.getClass();
        }
    }

    private static void wasSent(Server server, Row row) throws Exception {
        List<String> got = server.frames("got");
        List<String> sent = server.frames("sent");
        HexFormat hex = HexFormat.of().withUpperCase();
        assertEquals(hex.formatHex(row.request), got.get(got.size() - 1));
        assertEquals(hex.formatHex(row.reply), sent.get(sent.size() - 1));
    }

    @Test
    public void the_methods_of_a_key_are_sent_and_told_as_the_page_shows() throws Exception {
        int played = 0;
        try (Server server = Server.standIn(); DchmClient client = server.client()) {
            for (Row row : rows()) {
                boolean isGetOrDefault = row.method() == 2;
                if (row.method() < 1 || row.method() >= Wire.COUNT || told(row) == RefusedException.class) {
                    continue;
                }
                Callable<Object> call = isGetOrDefault ? () -> raw(client, row) : call(client.map(), row);
                assertEquals(row.toString(), told(row), came(call));
                wasSent(server, row);
                played++;
            }
        }
        assertTrue("only " + played + " rows", played >= 18);
    }

    private static Object raw(DchmClient client, Row row) {
        Wire.Reply reply = ((ServerClient) client).ask(new byte[0], row.request);
        return reply.status() == Wire.DID ? (Object) reply.isDone() : reply.value();
    }

    @Test
    public void the_methods_of_the_whole_map_are_sent_and_told_as_the_page_shows() throws Exception {
        int played = 0;
        try (Server server = Server.standIn(); DchmClient client = server.client()) {
            client.map().putAll(Map.of("a", 5L, "b", 7L));
            List<Row> rows = rows().stream().filter(row -> row.method() >= Wire.COUNT && told(row) != RefusedException.class).toList();
            for (Row row : rows) {
                if (played == rows.size() - 2) {
                    client.map().remove("b");
                    client.map().put("c", "x");
                }
                assertArrayEquals(row.toString(), row.request, whole(row));
                assertEquals(row.toString(), told(row), came(() -> ((ServerClient) client).askWhole(row.request).value()));
                wasSent(server, row);
                played++;
            }
            assertEquals(5L, client.map().get("a"));
            assertEquals(OptionalLong.of(5), onlyNumbers(client).reduceToLong(Fn.SUM));
        }
        assertTrue("only " + played + " rows", played >= 7);
    }

    private static DchmMap<Long> onlyNumbers(DchmClient client) {
        client.map().remove("c");
        return client.longs();
    }

    /** The frame that the client makes of the parts of a request of the whole map. */
    private static byte[] whole(Row row) {
        ByteBuffer from = ByteBuffer.wrap(row.request, 3, row.request.length - 3);
        if (row.method() == Wire.COUNT) {
            return Wire.count();
        }
        if (row.method() == Wire.SEARCH) {
            return Wire.search(from.getLong(), value(from));
        }
        @SuppressWarnings({"unchecked", "rawtypes"})
        Fn<Long> function = (Fn) FUNCTIONS.get((int) from.get());
        return Wire.reduce(function, from.getLong());
    }

    @Test
    public void wrong_requests_are_told_as_the_page_shows() throws Exception {
        int played = 0;
        try (Server server = Server.standIn(); DchmClient client = server.client()) {
            for (Row row : rows()) {
                if (told(row) != RefusedException.class) {
                    continue;
                }
                boolean isEmpty = row.request.length == 2;
                byte[] frame = isEmpty ? row.request : Arrays.copyOf(row.request, row.request.length);
                if (isEmpty) {
                    // No request of a client, so its reply alone is one of the page's.
                    assertEquals(6, Wire.reply(Arrays.copyOfRange(row.reply, 2, 4)).status() - Wire.REFUSED);
                } else {
                    RefusedException refused = assertThrows(RefusedException.class, () -> ((ServerClient) client).ask(new byte[0], frame));
                    assertEquals(row.toString(), row.reply[2] & 0x7F, refused.number());
                    assertEquals(row.toString(), refused.number() == 7, refused.mayTryAgain());
                    wasSent(server, row);
                }
                played++;
            }
        }
        assertTrue("only " + played + " rows", played >= 11);
    }

    @Test
    public void the_page_has_no_row_that_is_left_out() throws Exception {
        long wrong = rows().stream().filter(row -> told(row) == RefusedException.class).count();
        long whole = rows().stream().filter(row -> row.method() >= Wire.COUNT && told(row) != RefusedException.class).count();
        long keyed = rows().stream().filter(row -> row.method() >= 1 && row.method() < Wire.COUNT
            && told(row) != RefusedException.class).count();
        assertEquals(rows().size(), wrong + whole + keyed);
        long shown = Files.readAllLines(Path.of(System.getProperty("page"))).stream()
            .filter(line -> line.matches("\\|.*\\| `[0-9A-F]{4}[0-9A-F ]*` \\| `[0-9A-F]{4}[0-9A-F ]*` \\|.*")).count();
        assertEquals(shown, rows().size());
    }

    @Test
    public void each_status_of_the_page_is_known() throws Exception {
        int known = 0;
        for (String line : Files.readAllLines(Path.of(System.getProperty("page")))) {
            if (!line.matches("\\| `[0-9A-F]{2}` \\w+ \\|.*")) {
                continue;
            }
            List<String> cells = cells(line);
            int number = HexFormat.fromHexDigits(cells.get(0).substring(1, 3)) - Wire.REFUSED;
            assertEquals(cells.get(0).substring(5), Wire.refusalName(number));
            Wire.Reply reply = Wire.reply(new byte[] {(byte) (number + Wire.REFUSED), 0});
            byte[] change = Wire.request(Wire.REMOVE, Wire.key("a"));
            RuntimeException error = assertThrows(DchmException.class, () -> Told.checked(reply, change));
            boolean isOpen = cells.get(3).contains("may have been made");
            assertEquals(isOpen ? OutcomeOpenException.class : RefusedException.class, error.getClass());
            assertEquals(cells.get(3).startsWith("yes"), error instanceof RefusedException refused && refused.mayTryAgain());
            known++;
        }
        assertTrue("only " + known + " statuses", known >= 9);
    }

    @Test
    public void bytes_that_are_no_reply_are_none() {
        for (String body : List.of("", "00", "0003", "000100", "0002000261", "0000000000", "02010000000000000002",
            "030100000000000000", "03010000000000000004", "0400", "870000", "8701", "01020002616263")) {
            assertEquals(body, null, Wire.reply(HexFormat.of().parseHex(body)));
        }
    }

    @Test
    public void a_reply_that_is_longer_than_any_is_none() throws Exception {
        byte[] longest = new byte[2 + 4 + 4096];
        java.nio.ByteBuffer.wrap(longest).putShort((short) (longest.length - 2)).put((byte) Wire.NOW).put((byte) 2).putShort((short) 4096);
        List<Wire.Reply> replies = new java.util.ArrayList<>();
        assertEquals(null, taken(longest, replies));
        assertEquals(4096, ((String) replies.get(0).value()).length());
        assertTrue(taken(new byte[] {16, 5, 1}, replies).startsWith("bytes that are no reply"));
        assertEquals(1, replies.size());
    }

    private static String taken(byte[] bytes, List<Wire.Reply> replies) throws Exception {
        Incoming in = new Incoming(8192);
        in.readFrom(java.nio.channels.Channels.newChannel(new java.io.ByteArrayInputStream(bytes)));
        return in.take(replies);
    }
}
