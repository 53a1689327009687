import com.sun.jna.*;
import com.sun.jna.ptr.LongByReference;
import java.nio.file.*;

public class Check {
    interface Cmsproof extends Library {
        int cmsproof_trust_read(Memory trust, byte[] list, long length, Memory said);
        int cmsproof_answers_read(Memory answers, byte[] list, long length, Memory said);
        int cmsproof_check(Memory trust, Memory answers, byte[] file, long length, byte[] content, long contentLength,
                           byte given, byte sha1, byte[] line, long room, LongByReference written, Memory said);
        void cmsproof_trust_free(Memory trust);
        void cmsproof_answers_free(Memory answers);
    }

    public static void main(String[] words) throws Exception {
        Cmsproof library = Native.load("libcmsproof.so.1", Cmsproof.class);
        byte[] list = Files.readAllBytes(Path.of(words[0])), asked = Files.readAllBytes(Path.of(words[1]));
        byte[] file = Files.readAllBytes(Path.of(words[2])), line = new byte[200];
        Memory trust = new Memory(16), answers = new Memory(16), said = new Memory(64);
        LongByReference written = new LongByReference();
        trust.clear();
        answers.clear();
        int status = library.cmsproof_trust_read(trust, list, list.length, said);
        if (status == 1) status = library.cmsproof_answers_read(answers, asked, asked.length, said);
        if (status == 1) status = library.cmsproof_check(trust, answers, file, file.length, new byte[1], 0, (byte) 0, (byte) 0,
                                                         line, line.length, written, said);
        if (written.getValue() <= line.length) System.out.print(new String(line, 0, (int) written.getValue(), "US-ASCII"));
        library.cmsproof_answers_free(answers);
        library.cmsproof_trust_free(trust);
        System.exit(status == 1 ? 0 : 1); // DONE: it is accepted
    }
}
