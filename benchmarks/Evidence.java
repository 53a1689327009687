import java.nio.file.Files;
import java.nio.file.Path;
import java.util.Arrays;
import java.util.Date;
import org.bouncycastle.operator.DigestCalculatorProvider;
import org.bouncycastle.operator.jcajce.JcaDigestCalculatorProviderBuilder;
import org.bouncycastle.tsp.ers.ERSByteData;
import org.bouncycastle.tsp.ers.ERSEvidenceRecord;

/** Evidence.java RUNS DOCUMENT RECORD..: for each record the median time, in seconds, of so many turns in which Bouncy Castle reads it from
 * memory and says whether the document is in it, after as many turns that do not count. It verifies no signature, as cmsproof verifies none. */
class Evidence {
    public static void main(String[] words) throws Exception {
        int runs = Integer.parseInt(words[0]);
        byte[] document = Files.readAllBytes(Path.of(words[1]));
        DigestCalculatorProvider digests = new JcaDigestCalculatorProviderBuilder().build();
        for (int place = 2; place < words.length; place++) {
            byte[] octets = Files.readAllBytes(Path.of(words[place]));
            double[] taken = new double[2 * runs];
            String said = "present";
            for (int run = 0; run < taken.length; run++) {
                long begun = System.nanoTime();
                try {
                    new ERSEvidenceRecord(octets, digests).validatePresent(new ERSByteData(document), new Date());
                } catch (Exception refused) {
                    said = refused.getMessage();
                }
                taken[run] = (System.nanoTime() - begun) / 1e9;
            }
            double[] last = Arrays.copyOfRange(taken, runs, taken.length);
            Arrays.sort(last);
            System.out.printf("%.6f %s%n", last[runs / 2], said);
        }
    }
}
