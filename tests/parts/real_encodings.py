"""Returns encodings as people have them: certificates of the machine, what openssl makes, and the files of tests/data.
"""
import base64
import glob
import os
import subprocess

ANCHORS = "/etc/ssl/certs"
# Commands of openssl, run in order. Each writes the file named after -out (or -reqout).
COMMANDS = """
openssl genrsa -traditional -out rsa.pem 2048
openssl rsa -in rsa.pem -traditional -outform DER -out rsa.key
openssl pkcs8 -topk8 -nocrypt -in rsa.pem -outform DER -out rsa.p8
openssl pkcs8 -topk8 -passout pass:x -in rsa.pem -outform DER -out rsa.encrypted
openssl pkey -in rsa.pem -pubout -outform DER -out rsa.pub
openssl ecparam -name prime256v1 -genkey -noout -out ec.pem
openssl ec -in ec.pem -outform DER -out ec.key
openssl ec -in ec.pem -param_enc explicit -outform DER -out explicit.key
openssl pkcs8 -topk8 -nocrypt -in ec.pem -outform DER -out ec.p8
openssl pkey -in ec.pem -pubout -outform DER -out ec.pub
openssl genpkey -algorithm ed25519 -out ed.pem
openssl pkey -in ed.pem -outform DER -out ed.p8
openssl req -x509 -new -key rsa.pem -out rsa.cert -days 9 -subj /C=DE/O=Example/CN=a.example -config cnf -extensions extensions
openssl x509 -in rsa.cert -outform DER -out rsa.der
openssl req -x509 -new -key ec.pem -out ec.cert -days 9 -subj /C=DE/O=Example/CN=b.example -config cnf -extensions extensions
openssl x509 -in ec.cert -outform DER -out ec.der
openssl req -x509 -new -key ed.pem -outform DER -out ed.der -days 9 -subj /CN=c.example -config cnf
openssl req -new -key rsa.pem -outform DER -out rsa.request -subj /C=DE/O=Example/CN=d.example -config cnf
openssl req -new -key ec.pem -outform DER -out ec.request -subj /CN=e.example -config cnf -reqexts asked
openssl ca -gencrl -config ca -cert rsa.cert -keyfile rsa.pem -out list
openssl crl -in list -outform DER -out file.crl
openssl pkcs12 -export -in rsa.cert -inkey rsa.pem -passout pass:x -certpbe NONE -out clear.p12
openssl pkcs12 -export -in ec.cert -inkey ec.pem -passout pass:x -out file.p12
openssl crl2pkcs7 -nocrl -certfile rsa.cert -certfile ec.cert -outform DER -out file.p7
openssl cms -sign -binary -nodetach -in rsa.der -signer rsa.cert -inkey rsa.pem -outform DER -out signed.cms
openssl cms -sign -binary -stream -nodetach -in rsa.der -signer ec.cert -inkey ec.pem -outform DER -out stream.cms
openssl cms -encrypt -binary -in rsa.der -outform DER -out encrypted.cms rsa.cert
openssl cms -encrypt -binary -stream -in rsa.der -outform DER -out encrypted_stream.cms rsa.cert
openssl cms -data_create -binary -in rsa.der -outform DER -out data.cms
openssl ts -query -data rsa.der -sha256 -cert -out file.tsq
openssl ocsp -issuer rsa.cert -cert ec.cert -reqout file.ocsp
"""
CONFIGURATION = """
[req]
distinguished_name = name
[name]
[asked]
subjectAltName = DNS:e.example, IP:192.0.2.7
keyUsage = digitalSignature
[extensions]
basicConstraints = critical, CA:TRUE, pathlen:3
keyUsage = critical, keyCertSign, cRLSign
subjectKeyIdentifier = hash
authorityKeyIdentifier = keyid, issuer
subjectAltName = DNS:a.example, DNS:www.a.example, email:x@a.example
extendedKeyUsage = serverAuth, clientAuth
certificatePolicies = 1.3.6.1.4.1.99999.1
crlDistributionPoints = URI:http://a.example/list.crl
authorityInfoAccess = OCSP;URI:http://ocsp.a.example/
"""
CA = """
[ca]
default_ca = list
[list]
database = index
crlnumber = number
default_md = sha256
default_crl_days = 9
crl_extensions = extensions
[extensions]
authorityKeyIdentifier = keyid
"""
REVOKED = "R\t300101000000Z\t2{0}0101000000Z,keyCompromise\t1{0}\tunknown\t/CN=n{0}\n"


def octets_of(path):
    """Returns the octets of a file."""
    with open(path, "rb") as file:
        return file.read()


def anchors(step):
    """Yields the name and octets of every `step`-th certificate of the machine."""
    paths = {os.path.realpath(path) for path in glob.glob(os.path.join(ANCHORS, "*.pem"))}
    for path in sorted(paths)[::step]:
        body = octets_of(path).partition(b"-----BEGIN CERTIFICATE-----")[2].partition(b"-----END")[0]
        yield os.path.basename(path), base64.b64decode(body)


def made(part):
    """Yields the name and octets of each file that openssl makes in the folder of the part, except PEM."""
    for name, text in (("cnf", CONFIGURATION), ("ca", CA), ("index", "".join(map(REVOKED.format, range(9)))), ("number", "01\n")):
        part.write(name, text.encode())
    for line in COMMANDS.split("\n")[1:-1]:
        got = subprocess.run(line.split(), cwd=part.folder, stdin=subprocess.DEVNULL, capture_output=True, timeout=120)
        part.expect(line[:70], got.returncode == 0, got.stderr.decode(errors="replace"))
        words = line.split()
        name = words[words.index("-reqout" if "-reqout" in words else "-out") + 1]
        octets = octets_of(part.path(name)) if got.returncode == 0 else b"-"
        if not octets.startswith(b"-"):
            yield name, octets


def kept(root):
    """Yields the name and octets of the files of tests/data, and of the certificate in data."""
    for path in [*sorted(glob.glob(os.path.join(root, "tests", "data", "*"))), os.path.join(root, "data", "certificate.der")]:
        yield os.path.relpath(path, root), octets_of(path)


def encodings(part, step):
    """Returns the names and octets of all these encodings. Of the certificates of the machine every `step`-th is taken.
    """
    return [*anchors(step), *made(part), *kept(part.root)]
