package ripsawbean;

import java.net.URI;
import java.net.http.HttpClient;
import java.net.http.HttpRequest;
import java.net.http.HttpRequest.BodyPublisher;
import java.net.http.HttpRequest.BodyPublishers;
import java.net.http.HttpResponse;
import java.net.http.HttpResponse.BodyHandler;
import java.net.http.HttpResponse.BodyHandlers;
import java.nio.ByteBuffer;
import java.time.Duration;
import java.util.Map;
import java.util.concurrent.CompletableFuture;
import java.util.concurrent.ExecutionException;
import java.util.concurrent.Flow.Subscriber;
import java.util.concurrent.TimeUnit;
import java.util.concurrent.TimeoutException;
import javax.net.ssl.SSLContext;

/** Requests and their answers, by the JDK's own client. */
final class Wire {
    private static final Duration CONNECTING = Duration.ofSeconds(2);
    private final HttpClient http;

    Wire(SSLContext context) {
        HttpClient.Builder builder = HttpClient.newBuilder().version(HttpClient.Version.HTTP_1_1)
                .connectTimeout(CONNECTING).followRedirects(HttpClient.Redirect.NEVER);
        http = (context == null ? builder : builder.sslContext(context)).build();
    }

    /** A body, of which it is known whether any of it was sent: without it the server does nothing. */
    private static final class Body implements BodyPublisher {
        private final BodyPublisher bytes;
        private volatile boolean wasSent;

        Body(byte[] bytes) {
            this.bytes = bytes == null ? BodyPublishers.noBody() : BodyPublishers.ofByteArray(bytes);
        }

        @Override
        public long contentLength() {
            return bytes.contentLength();
        }

        @Override
        public void subscribe(Subscriber<? super ByteBuffer> subscriber) {
            wasSent = true;
            bytes.subscribe(subscriber);
        }
    }

    /** A whole answer, within so long, whose head comes within the patience. */
    Answer answer(String url, String method, byte[] body, Map<String, String> headers, Duration longest, Duration patience)
            throws Lost {
        Body sent = new Body(body);
        var reply = http.sendAsync(request(url, method, sent, headers, patience), BodyHandlers.ofByteArray());
        HttpResponse<byte[]> found = within(reply, longest, sent);
        if (found.statusCode() == 502 || found.statusCode() == 504) {
            throw new Lost("the proxy answers " + found.statusCode());
        }
        return new Answer(found.statusCode(), found.headers(), found.body());
    }

    /** A stream whose head comes within the patience. */
    HttpResponse<Lines> stream(String url, Map<String, String> headers, Duration patience) throws Lost {
        BodyHandler<Lines> lines = info -> new Lines();
        Body none = new Body(null);
        return within(http.sendAsync(request(url, "GET", none, headers, patience), lines), patience, none);
    }

    private static HttpRequest request(String url, String method, Body body, Map<String, String> headers, Duration patience) {
        var request = HttpRequest.newBuilder(URI.create(url)).method(method, body).timeout(patience);
        headers.forEach(request::header);
        return request.build();
    }

    private static <T> T within(CompletableFuture<T> reply, Duration longest, Body body) throws Lost {
        try {
            return reply.get(longest.toNanos(), TimeUnit.NANOSECONDS);
        } catch (TimeoutException why) {
            reply.cancel(true);
            throw new Lost(why, body.wasSent);
        } catch (ExecutionException why) {
            throw new Lost(why.getCause(), body.wasSent);
        } catch (InterruptedException why) {
            reply.cancel(true);
            throw interrupted();
        }
    }

    /** The thread is to end. What it has sent may have been done. */
    static RuntimeException interrupted() {
        Thread.currentThread().interrupt();
        return new RipsawbeanException.OutcomeUnknown(0, Map.of("error", "interrupted", "why", "its thread was interrupted"));
    }
}
