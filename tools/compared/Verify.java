import java.nio.file.Files;
import java.nio.file.Path;
import java.util.Collection;
import org.bouncycastle.asn1.pkcs.PKCSObjectIdentifiers;
import org.bouncycastle.cert.X509CertificateHolder;
import org.bouncycastle.cms.CMSSignedData;
import org.bouncycastle.cms.SignerInformation;
import org.bouncycastle.cms.jcajce.JcaSimpleSignerInfoVerifierBuilder;

/** Verifies each signer of a file under the certificate in the file, with the classes that Bouncy Castle has for it. */
class Verify {
    public static void main(String[] words) throws Exception {
        CMSSignedData signed = new CMSSignedData(Files.readAllBytes(Path.of(words[0])));
        for (SignerInformation signer : signed.getSignerInfos().getSigners()) {
            @SuppressWarnings("unchecked")
            Collection<X509CertificateHolder> found = signed.getCertificates().getMatches(signer.getSID());
            X509CertificateHolder certificate = found.iterator().next();
            String said;
            try {
                said = signer.verify(new JcaSimpleSignerInfoVerifierBuilder().build(certificate)) ? "verified" : "not verified";
            } catch (Exception refused) {
                said = "not verified: " + refused.getMessage();
            }
            boolean stamped = signer.getUnsignedAttributes() != null
                && signer.getUnsignedAttributes().get(PKCSObjectIdentifiers.id_aa_signatureTimeStampToken) != null;
            System.out.println(said + (stamped ? ", a token is there" : ", no token"));
        }
    }
}
