package ripsawbean;

import java.io.IOException;
import java.io.InputStream;
import java.nio.file.Files;
import java.nio.file.Path;
import java.security.GeneralSecurityException;
import java.security.KeyStore;
import java.security.cert.Certificate;
import java.security.cert.CertificateFactory;
import java.time.Duration;
import javax.net.ssl.SSLContext;
import javax.net.ssl.TrustManagerFactory;

/** How a client connects: {@code new Options().token("..").timeout(..)}. */
public final class Options {
    String token;
    String identity;
    Duration timeout = Duration.ofSeconds(20);
    SSLContext context;

    /** What each request shows. */
    public Options token(String token) {
        this.token = token;
        return this;
    }

    /** The database that the client is for. Else that is the one that answers first. */
    public Options identity(String identity) {
        this.identity = identity;
        return this;
    }

    /** How long a call may take, with all that is tried again. */
    public Options timeout(Duration timeout) {
        this.timeout = timeout;
        return this;
    }

    /** Which certificates are trusted. */
    public Options context(SSLContext context) {
        this.context = context;
        return this;
    }

    /** The certificates of a file as openssl writes it are trusted, and no others. */
    public Options trusted(Path file) throws IOException, GeneralSecurityException {
        KeyStore trusted = KeyStore.getInstance(KeyStore.getDefaultType());
        trusted.load(null, null);
        try (InputStream certificates = Files.newInputStream(file)) {
            for (Certificate one : CertificateFactory.getInstance("X.509").generateCertificates(certificates)) {
                trusted.setCertificateEntry(Integer.toString(trusted.size()), one);
            }
        }
        TrustManagerFactory managers = TrustManagerFactory.getInstance(TrustManagerFactory.getDefaultAlgorithm());
        managers.init(trusted);
        SSLContext made = SSLContext.getInstance("TLS");
        made.init(null, managers.getTrustManagers(), null);
        return context(made);
    }
}
