package dchm.client;

import java.io.IOException;
import java.net.InetSocketAddress;
import java.net.SocketAddress;
import java.net.StandardProtocolFamily;
import java.net.StandardSocketOptions;
import java.net.UnixDomainSocketAddress;
import java.nio.ByteBuffer;
import java.nio.channels.ClosedSelectorException;
import java.nio.channels.SelectionKey;
import java.nio.channels.Selector;
import java.nio.channels.SocketChannel;
import java.nio.file.Files;
import java.nio.file.Path;

/**
 * A socket of TCP or of Unix, and what tells when it can be read or written. Its channel never blocks: a thread that is
 * interrupted while it writes would otherwise close it for all.
 */
final class Socket implements AutoCloseable {
    private final SocketChannel channel;
    private final Selector selector;
    private final SelectionKey key;

    /** Begins to connect. */
    Socket(SocketAddress address) throws IOException {
        boolean isTcp = address instanceof InetSocketAddress;
        selector = Selector.open();
        SocketChannel opened = null;
        try {
            opened = SocketChannel.open(isTcp ? StandardProtocolFamily.INET : StandardProtocolFamily.UNIX);
            opened.configureBlocking(false);
            if (isTcp) {
                opened.setOption(StandardSocketOptions.TCP_NODELAY, true);
            }
            boolean isConnected = opened.connect(address);
            key = opened.register(selector, isConnected ? SelectionKey.OP_READ : SelectionKey.OP_CONNECT);
        } catch (Throwable error) {
            selector.close();
            if (opened != null) {
                opened.close();
            }
            throw error;
        }
        channel = opened;
    }

    /** Why there is no connection, in words that name the cause. */
    static IOException reason(IOException error, SocketAddress address) {
        if (!(address instanceof UnixDomainSocketAddress unix)) {
            return error;
        }
        Path path = unix.getPath();
        if (Files.isDirectory(path) || Files.isRegularFile(path)) {
            return new IOException("there is a " + (Files.isDirectory(path) ? "directory" : "file") + " of this name, and no socket", error);
        }
        return error;
    }

    /** Whether it is connected, waited for so long at most; then it is told when it can be read. */
    boolean isConnected(long mostMillis) throws IOException {
        if (!channel.isConnected() && !channel.finishConnect()) {
            selector.select(mostMillis);
            selector.selectedKeys().clear();
            if (!channel.finishConnect()) {
                return false;
            }
        }
        key.interestOps(SelectionKey.OP_READ);
        return true;
    }

    /** Waits so long at most until it can be read, or written if that is to be told; returns whether it can be written. */
    boolean await(long mostMillis) throws IOException {
        // What a key is ready for is that of the last select that found something.
        boolean isReady = selector.select(mostMillis) > 0;
        selector.selectedKeys().clear();
        return isReady && key.isWritable();
    }

    void tellWhenWritable() {
        key.interestOpsOr(SelectionKey.OP_WRITE);
        selector.wakeup();
    }

    void tellNoMoreOfWriting() {
        key.interestOpsAnd(~SelectionKey.OP_WRITE);
    }

    /** Writes what it takes now. */
    void write(ByteBuffer bytes) throws IOException {
        channel.write(bytes);
    }

    /** Reads what is there; returns how many bytes, or -1 at the end. */
    int read(Incoming in) throws IOException {
        return in.readFrom(channel);
    }

    @Override
    public void close() {
        try {
            channel.close();
            selector.close();
        } catch (IOException | ClosedSelectorException error) {
            // Nothing is asked of it any more.
        }
    }
}
