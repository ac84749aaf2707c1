package ripsawbean;

import static java.nio.charset.StandardCharsets.UTF_8;

import java.io.ByteArrayOutputStream;
import java.net.http.HttpResponse.BodySubscriber;
import java.nio.ByteBuffer;
import java.time.Duration;
import java.util.ArrayDeque;
import java.util.List;
import java.util.Queue;
import java.util.concurrent.BlockingQueue;
import java.util.concurrent.CompletableFuture;
import java.util.concurrent.CompletionStage;
import java.util.concurrent.Flow.Subscription;
import java.util.concurrent.LinkedBlockingQueue;
import java.util.concurrent.TimeUnit;

/** The lines of a stream. One piece of it at a time is on its way, so what nobody reads stays at the server. */
final class Lines implements BodySubscriber<Lines> {
    /** Bytes, or the end: why it ended where it was cut. */
    private record Piece(byte[] data, Throwable end) {}

    private final BlockingQueue<Piece> pieces = new LinkedBlockingQueue<>();
    private final CompletableFuture<Subscription> source = new CompletableFuture<>();
    private final Queue<String> lines = new ArrayDeque<>();
    private final ByteArrayOutputStream rest = new ByteArrayOutputStream();

    @Override
    public CompletionStage<Lines> getBody() {
        return CompletableFuture.completedStage(this);
    }

    @Override
    public void onSubscribe(Subscription subscription) {
        source.complete(subscription);
        subscription.request(1);
    }

    @Override
    public void onNext(List<ByteBuffer> buffers) {
        ByteArrayOutputStream data = new ByteArrayOutputStream();
        for (ByteBuffer one : buffers) {
            byte[] some = new byte[one.remaining()];
            one.get(some);
            data.writeBytes(some);
        }
        pieces.add(new Piece(data.toByteArray(), null));
    }

    @Override
    public void onError(Throwable why) {
        pieces.add(new Piece(null, why));
    }

    @Override
    public void onComplete() {
        pieces.add(new Piece(null, new java.io.EOFException("it ended")));
    }

    /** The next line without its end, within so long. Half a line is none. */
    String next(Duration silence) throws Lost {
        while (lines.isEmpty()) {
            take(piece(silence));
        }
        return lines.remove();
    }

    /** All of it as text, where it is no stream. */
    String all(Duration silence) throws Lost {
        for (Piece one = piece(silence); one.data != null; one = piece(silence)) {
            rest.writeBytes(one.data);
            source.join().request(1);
        }
        return rest.toString(UTF_8);
    }

    private Piece piece(Duration silence) throws Lost {
        try {
            Piece found = pieces.poll(silence.toMillis(), TimeUnit.MILLISECONDS);
            if (found == null) {
                throw new Lost("nothing came for " + silence);
            }
            return found;
        } catch (InterruptedException why) {
            throw Wire.interrupted();
        }
    }

    private void take(Piece piece) throws Lost {
        if (piece.data == null) {
            throw new Lost(piece.end, true);
        }
        for (byte one : piece.data) {
            if (one == '\n') {
                lines.add(rest.toString(UTF_8));
                rest.reset();
            } else {
                rest.write(one);
            }
        }
        source.join().request(1);
    }

    void close() {
        source.thenAccept(Subscription::cancel);
        pieces.add(new Piece(null, new java.io.EOFException("it was closed")));
    }
}
