import java.io.BufferedReader;
import java.io.InputStreamReader;
import java.nio.file.Files;
import java.nio.file.Path;
import java.security.Security;
import java.security.cert.CertPathValidator;
import java.security.cert.CertStore;
import java.security.cert.CertificateFactory;
import java.security.cert.CollectionCertStoreParameters;
import java.security.cert.PKIXParameters;
import java.security.cert.TrustAnchor;
import java.security.cert.X509CRL;
import java.security.cert.X509Certificate;
import java.util.ArrayList;
import java.util.Date;
import java.util.List;
import java.util.Set;

import org.bouncycastle.jce.provider.BouncyCastleProvider;

/** Says of paths of certificates what Bouncy Castle's validator by RFC 5280 6 says. A line of standard input has the seconds since
 * 1970, the file of the root, and those of the path from the signer upward, then of revocation lists, whose names end in .crl; each
 * has a line of standard output: `good`, or `refused` and why. */
class Judge {
    public static void main(String[] words) throws Exception {
        Security.addProvider(new BouncyCastleProvider());
        BufferedReader lines = new BufferedReader(new InputStreamReader(System.in));
        for (String line = lines.readLine(); line != null; line = lines.readLine()) {
            System.out.println(said(line.split(" ")));
        }
    }

    private static String said(String[] words) {
        try {
            CertificateFactory factory = CertificateFactory.getInstance("X.509", "BC");
            List<X509Certificate> path = new ArrayList<>();
            List<X509CRL> lists = new ArrayList<>();
            for (int at = 1; at < words.length; at++) {
                try (var input = Files.newInputStream(Path.of(words[at]))) {
                    if (words[at].endsWith(".crl")) {
                        lists.add((X509CRL) factory.generateCRL(input));
                    } else {
                        path.add((X509Certificate) factory.generateCertificate(input));
                    }
                }
            }
            PKIXParameters asked = new PKIXParameters(Set.of(new TrustAnchor(path.remove(0), null)));
            asked.setDate(new Date(1000 * Long.parseLong(words[0])));
            asked.setRevocationEnabled(!lists.isEmpty());
            asked.addCertStore(CertStore.getInstance("Collection", new CollectionCertStoreParameters(lists)));
            CertPathValidator.getInstance("PKIX", "BC").validate(factory.generateCertPath(path), asked);
            return "good";
        } catch (Exception fault) {
            return "refused " + String.valueOf(fault.getMessage()).replace('\n', ' ');
        }
    }
}
