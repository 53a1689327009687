#!/bin/sh
# compared.sh: makes the files that docs/COMPARED.md shows, in the folder where it is run, with openssl and cmsproof on the PATH:
# letter.p7s, wrong.p7s, and old.p7s, whose signer's certificate expires as this ends; and the trust list trusted.txt.
set -eu
python3 "$(dirname "$0")/docs_samples.py"
mv content_stamped.p7s wrong.p7s
openssl req -new -newkey ec -pkeyopt ec_paramgen_curve:P-256 -nodes -keyout old.key -out old.csr -subj /O=Example/CN=old
printf '[issuer]\ndatabase = index.txt\nserial = number\nnew_certs_dir = .\npolicy = any\ndefault_md = sha256\n' > issuer.cnf
printf '[any]\norganizationName = optional\ncommonName = supplied\n' >> issuer.cnf
: > index.txt && echo 01 > number
openssl ca -batch -selfsign -notext -config issuer.cnf -name issuer -keyfile old.key -in old.csr -out old.pem \
    -startdate 20260101000000Z -enddate "$(date -u -d '+20 seconds' +%Y%m%d%H%M%SZ)"
openssl cms -sign -cades -binary -nodetach -outform DER -in letter.txt -signer old.pem -inkey old.key -out unstamped.p7s
cmsproof request --of unstamped.p7s --cert old.tsq
openssl ts -reply -config authority.cnf -queryfile old.tsq -out old.tsr
cmsproof match old.tsq old.tsr old.tok
cmsproof attach --signer 1 --token old.tok unstamped.p7s old.p7s
cmsproof-trust --signer signer.pem --signer old.pem --tsa authority.pem > trusted.txt
sleep 21
