package dchm.client;

import java.io.BufferedInputStream;
import java.io.DataInputStream;
import java.io.IOException;
import java.io.OutputStream;
import java.net.InetAddress;
import java.net.ServerSocket;
import java.net.Socket;
import java.util.Arrays;
import java.util.concurrent.CopyOnWriteArrayList;
import java.util.concurrent.atomic.AtomicInteger;

/** The other end of a test's connections, in this process. What it does with a connection is the test's. */
final class Peer implements AutoCloseable {
    /** What a peer does with one connection, until it returns. */
    interface Served {
        void serve(Socket socket, DataInputStream in, OutputStream out) throws Exception;
    }

    static final byte[] NOW_ABSENT = {0, 2, Wire.NOW, 0};
    final AtomicInteger connections = new AtomicInteger();
    private final ServerSocket listener;
    private final CopyOnWriteArrayList<Socket> sockets = new CopyOnWriteArrayList<>();

    Peer(Served served) throws IOException {
        listener = new ServerSocket(0, 50, InetAddress.getByAddress(new byte[] {127, 0, 0, 1}));
        inBackground(() -> {
            while (true) {
                Socket socket = listener.accept();
                sockets.add(socket);
                connections.incrementAndGet();
                inBackground(() -> {
                    DataInputStream in = new DataInputStream(new BufferedInputStream(socket.getInputStream(), 1 << 16));
                    served.serve(socket, in, socket.getOutputStream());
                });
            }
        });
    }

    /** Work of a thread of its own. */
    interface Work {
        void run() throws Exception;
    }

    static Thread inBackground(Work work) {
        Thread thread = new Thread(() -> {
            try {
                work.run();
            } catch (Exception error) {
                // The other end is gone, or the test has ended.
            }
        });
        thread.setDaemon(true);
        thread.start();
        return thread;
    }

    /** The body of the next request. */
    static byte[] body(DataInputStream in) throws IOException {
        byte[] body = new byte[in.readUnsignedShort()];
        in.readFully(body);
        return body;
    }

    /** The key of a request of one key, with the byte of its method before it. */
    static String named(byte[] body) {
        int length = (body[1] & 0xFF) << 8 | body[2] & 0xFF;
        return body[0] + " " + new String(Arrays.copyOfRange(body, 3, 3 + length));
    }

    /** Answers the first request, which is the client's probe. */
    static void answerProbe(DataInputStream in, OutputStream out) throws IOException {
        body(in);
        out.write(NOW_ABSENT);
    }

    DchmClient.Builder options() {
        return DchmClient.at(listener.getLocalPort());
    }

    @Override
    public void close() throws IOException {
        listener.close();
        for (Socket socket : sockets) {
            socket.close();
        }
    }
}
