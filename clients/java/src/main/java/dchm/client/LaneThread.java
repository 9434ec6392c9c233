package dchm.client;

import java.io.IOException;
import java.net.SocketAddress;
import java.util.concurrent.locks.LockSupport;

/** The thread of a lane: it connects and reads, while there is a connection or one is needed. */
final class LaneThread extends Thread {
    /** How often it looks for futures that are held up before it ends. */
    private static final int MOST_LINGERING = 1_000;
    private final Driver driver;
    private final SocketAddress address;

    LaneThread(Driver driver, SocketAddress address) {
        super("dchm " + address);
        setDaemon(true);
        this.driver = driver;
        this.address = address;
    }

    @Override
    public void run() {
        for (Lane.Step step = driver.step(); step != Lane.Step.END; step = driver.step()) {
            // An interrupt is nobody's on this thread.
            Thread.interrupted();
            if (step == Lane.Step.CONNECT) {
                connect();
            } else {
                LockSupport.parkNanos(this, driver.tick() - System.nanoTime());
            }
        }
        for (int i = 0; i < MOST_LINGERING && driver.completions().isHeldUp(); i++) {
            LockSupport.parkNanos(this, Completions.MOMENT_NANOS);
        }
    }

    private void connect() {
        try (Socket socket = new Socket(address)) {
            if (!isConnected(socket)) {
                return;
            }
            Connection connection = new Connection(driver, socket);
            if (driver.connected(connection)) {
                connection.serve();
            }
        } catch (IOException error) {
            driver.failed(Socket.reason(error, address));
        } catch (Throwable error) {
            driver.failed(error);
        }
    }

    /** Waits for the socket; returns whether it is connected before the attempt ends. */
    private boolean isConnected(Socket socket) throws IOException {
        boolean isConnected = socket.isConnected(1);
        while (!isConnected && driver.isConnecting()) {
            isConnected = socket.isConnected(driver.completions().millisToWait(driver.tick() - System.nanoTime()));
        }
        return isConnected;
    }
}
