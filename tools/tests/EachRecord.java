import java.io.BufferedReader;
import java.io.InputStreamReader;

/** Asks what Records.java asks, for each line of standard input, which has a record, a document and a day with tabs between them: a run of Java
 * takes longer than all that it is asked here. */
class EachRecord {
    public static void main(String[] none) throws Exception {
        BufferedReader lines = new BufferedReader(new InputStreamReader(System.in));
        for (String line = lines.readLine(); line != null; line = lines.readLine()) {
            Records.main(line.split("\t"));
        }
    }
}
