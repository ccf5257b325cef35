"""Texts for tlvdump-show, with what is decoded of them: in a form that --as names, and as inputs whose form is found."""

# 32 octets, which differ.
COUNTED = bytes(range(32))


def unknown(text):
    """Returns the note of a text of unknown form."""
    return f'X1 text of no form that is known: "{text}"; known are PEM, hex dumps, hexadecimal, decimal numbers and base64'


# By the value of --as: the text, the octets decoded, and the line in which the text is refused, or 0.
NAMED = {
    "hex": [
        (b"3003020105", b"0\x03\x02\x01\x05", 0), (b"30 03\n02:01-05\r\n", b"0\x03\x02\x01\x05", 0),
        (b'\'aB\', "Cd"', b"\xab\xcd", 0), (b"30 0", b"0", 1), (b"3 0", b"", 1), (b"30 03 zz 02", b"0\x03", 1),
        (b"30.03", b"0", 1), (b"30\xff", b"0", 1), (b"{0x30, 0x03,\n 0X2}", b"0\x03\x02", 0),
        (b"unsigned char a[2] = {0x30, 0x03}; int n = 2;", b"0\x03", 0), (b'"\\x30\\x03" "\\x02"', b"0\x03\x02", 0),
        (b"0x30 and 0x03", b"0", 1), (b"0x3082, 0x01", b"", 1), (b"0x30u8, 0x03", b"", 1), (b"[0x30u8, 0x03, 0x02]", b"", 1),
        (b"0x, 0xg, 10x30", b"", 1), (b"{0x30, 0x03, 0x}", b"0\x03", 1), (b'"\\x30\\x03\\\n\\x02"', b"0\x03\x02", 0),
        (b"{0x30, 0x03, 0x02u}; int n = 3;", b"0\x03", 1), (b"{0x30, 0x03}; long n = 0x3082;", b"0\x03", 1),
        (b"{0x30, 0x03}; long n = 0x30, m = 3;", b"0\x03", 1), (b' \'30\',"03"\n\n', b"0\x03", 0),
        (b"01 02 03 04 05 06 07 08\r\n09:0A:0b:0C-0d\r\n0e", b"\x01\x02\x03\x04\x05\x06\x07\x08\t\n\x0b\x0c\r\x0e", 0),
        (b"01 02 03 04", b"\x01\x02\x03\x04", 0), (b"30030201\n05\n", b"0\x03\x02\x01\x05", 0),
        (b"\r\n3003\r\n020105\r\n", b"0\x03\x02\x01\x05", 0), (b"0000000000\n0000", b"\x00\x00\x00\x00\x00\x00\x00", 0),
        (b"0102030405060708090A0b0C0d0e", b"\x01\x02\x03\x04\x05\x06\x07\x08\t\n\x0b\x0c\r\x0e", 0),
        (b"30 03\n02:01 05\n", b"0\x03\x02\x01\x05", 0), (b"30 03\n\nzz 05", b"0\x03", 3), (b"0x30,\nand 0x03", b"0", 2),
        (b"\n0x30", b"", 2),
    ],
    "base64": [
        (b"MAMCAQU=", b"0\x03\x02\x01\x05", 0), (b"MAMCAQU", b"0\x03\x02\x01\x05", 0),
        (b"> MAMC\r\n> AQU=\r\n", b"0\x03\x02\x01\x05", 0), (b'"MAMC\\nAQU=\\n"', b"0\x03\x02\x01\x05", 0),
        (b"+/+/", b"\xfb\xff\xbf", 0), (b'"+\\/+\\/"', b"\xfb\xff\xbf", 0), (b"+\\\\/+/", b"", 1),
        (b"MAMCAQ===", b"0\x03\x02", 1), (b"MAMCA", b"0\x03\x02", 1), (b"MAMCAQV=", b"0\x03\x02", 1),
        (b"MAMC AQU= x", b"0\x03\x02", 1), (b"MAMC*AQU=", b"0\x03\x02", 1), (b"-_-_", b"\xfb\xff\xbf", 0), (b"-_+/", b"", 1),
        (b"-_\\/_", b"", 1), (b"\n\r\n", b"", 0), (b"MAMC", b"0\x03\x02", 0), (b"MAMC\nAQU=\n", b"0\x03\x02\x01\x05", 0),
        (b"MAMC\r\nAQU=\r\n", b"0\x03\x02\x01\x05", 0), (b"\nM\nA\n=\n=\n", b"0", 0),
        (b"0x30\n0x82\n", b"\xd3\x1d\xf4\xd3\x1f6", 0), (b"30030201", b"\xdfM7\xd3m5", 0),
        (b"AAAAAAAAAAAAAAAAAAAAAAAAAAAAAAAAAAAAAAAAAAAAAAAAAAAAAAAAAAAAAAAA\nAAAA", bytes(51), 0),
        (b"MAMC\n+/+_", b"0\x03\x02", 2), (b"MAMC\r\n\r\n*", b"0\x03\x02", 3),
    ],
    "numbers": [
        (b"[48, 130, -1]", b"0\x82\xff", 0), (b"[]byte{48,130,}", b"0\x82", 0), (b"new byte[]{48, -126}", b"0\x82", 0),
        (b'{"type":"Buffer","data":[48,130,1]}', b"0\x82\x01", 0), (b"[-128, 255]", b"\x80\xff", 0),
        (b"[5]byte{48, 3, 2, 1, 5}", b"0\x03\x02\x01\x05", 0), (b"int a[2] = {5, 0};", b"\x05\x00", 0),
        (b"[1, 2, 300]", b"\x01\x02", 1), (b"[1, 2, -129]", b"\x01\x02", 1), (b"[1, 2, 1x0]", b"\x01\x02", 1),
        (b"[1, 2, 1300]", b"\x01\x02", 1), (b"[1, 2,,3]", b"\x01\x02", 1), (b"[1, 2, 3", b"\x01\x02", 1),
        (b"[1, 2, }", b"\x01\x02", 1), (b"[1, 2] [3, 4]", b"\x01\x02", 1), (b"[1, 2, [3, 4]]", b"\x01\x02", 1),
        (b"\n[48, 3, 2, 1, -1]", b"0\x03\x02\x01\xff", 0), (b"[1, 2]\n[3, 4]", b"\x01\x02", 2),
    ],
    "dump": [
        (b"0000  30 03 02 01 05   0....", b"0\x03\x02\x01\x05", 0),
        (b"00000000: 3003 0201 05  0....\n", b"0\x03\x02\x01\x05", 0), (b"0x404040 <cert>:\t0x30\t0X03\n", b"0\x03", 0),
        (b"0x404040:\t0x30\t0xg3\n", b"", 1), (b"0x404040:\t0x30\t03\n", b"", 1),
        (b"00000000: 3003\n00000002: 0201\n00000005: 05\n", b"0\x03\x02\x01", 3),
        (b"0000000 0330 0102 0005\n0000005\n", b"", 1), (b"0000000 0330 0102 0005\n", b"", 1),
        (b"0000000 02010330 00000005\n0000005\n", b"", 1), (b"0000: 3003 0201 05\n0005: 06\n", b"0\x03\x02\x01\x05\x06", 0),
        (b"0000000 001460 000402 000005\n0000005\n", b"", 1),
        (b"00000000: 00110000 00000011 00000010  0..\n00000003: 00000001            .\n", b"", 1),
        (b"00000000: 3003\n00000002: 020\n", b"0\x03", 2),
        (
         b"00000000  30 31 32 33 34 35 36 37  38 39 3a 3b 3c 3d 3e 3f\n"
         b"00000010  30 31 32 33 34 35 36 37  38 3z 3a 3b 3c 3d 3e 3f\n00000020  30 31 32 33 34 35 36 37  38\n",
         b"0123456789:;<=>?", 2),
        (b"00000000: 3003 0201  0...00000004: 05    .", b"", 1), (b"\t0x0000:  3003 0201\t0x0004:  05", b"", 1),
        (b"0000000 30 31 32 33 34 35 36 37 38 39 3a 3b 3c 3d 3e 3f  0000020 40", b"", 1),
        (b"0000: 3030 3136  0016\n", b"0016", 0), (b"0000: 3031 0002: 3233\n", b"", 1), (b"0000: 3031  |01|\n", b"01", 0),
        (b"0000: 3031  \xc3\xa9\xc3\xa9\xc3\xa9\xc3\xa9\n", b"01", 0), (b"0000: 3031  |01||\n", b"", 1),
        (
         b"0000000 30 31 32 33 34 35 36 37 38 39 3a 3b 3c 3d 3e 3f\n"
         b"0000020 30 31 32 33 34 35 36 37 38 39 3a 3b 3c 3d 3e 3f\n0000050 30\n0000051\n",
         b"0123456789:;<=>?0123456789:;<=>?", 3),
        (b"00000000: 65623130  01be\n", b"", 1), (b"00000000: 30316265  01be\n", b"01be", 0),
        (b"00000000: 00110000 00110001  01\n", b"", 1), (b"no dump\n", b"", 2), (b"3003 0201 05\n", b"", 1),
        (
         b'00000000: 3082 0122 0405 0607 0809 0a0b 0c0d 0e0f  0.."............\n'
         b"00000010: 3031 32                                  012\n",
         b'0\x82\x01"\x04\x05\x06\x07\x08\t\n\x0b\x0c\r\x0e\x0f012', 0),
        (
         b'0000000: 3082 0122 0405 0607 0809 0a0b 0c0d 0e0f  0.."............\n'
         b"0000010: 3031 32                                  012\n",
         b'0\x82\x01"\x04\x05\x06\x07\x08\t\n\x0b\x0c\r\x0e\x0f012', 0),
        (
         b'00000000  30 82 01 22 04 05 06 07  08 09 0a 0b 0c 0d 0e 0f  |0.."............|\n'
         b"00000010  30 31 32                                          |012|\n00000013\n",
         b'0\x82\x01"\x04\x05\x06\x07\x08\t\n\x0b\x0c\r\x0e\x0f012', 0),
        (
         b"000000 30 82 01 22 04 05 06 07 08 09 0a 0b 0c 0d 0e 0f\n000010 30 31 32\n000013\n",
         b'0\x82\x01"\x04\x05\x06\x07\x08\t\n\x0b\x0c\r\x0e\x0f012', 0),
        (
         b"0000000 30 82 01 22 04 05 06 07 08 09 0a 0b 0c 0d 0e 0f\n0000020 30 31 32\n0000023\n",
         b'0\x82\x01"\x04\x05\x06\x07\x08\t\n\x0b\x0c\r\x0e\x0f012', 0),
        (
         b'0000   30 82 01 22 04 05 06 07 08 09 0a 0b 0c 0d 0e 0f   0.."............\r\n'
         b"0010   30 31 32                                          012\r\n",
         b'0\x82\x01"\x04\x05\x06\x07\x08\t\n\x0b\x0c\r\x0e\x0f012', 0),
        (
         b'\t0x0000:  3082 0122 0405 0607 0809 0a0b 0c0d 0e0f  0.."............\n'
         b"\t0x0010:  3031 32                                  012\n",
         b'0\x82\x01"\x04\x05\x06\x07\x08\t\n\x0b\x0c\r\x0e\x0f012', 0),
        (
         b"0x7fffffffe000:\t0x30\t0x82\t0x01\t0x22\t0x04\t0x05\t0x06\t0x07\n"
         b"0x7fffffffe008:\t0x08\t0x09\t0x0a\t0x0b\t0x0c\t0x0d\t0x0e\t0x0f\n0x7fffffffe010:\t0x30\t0x31\t0x32\n",
         b'0\x82\x01"\x04\x05\x06\x07\x08\t\n\x0b\x0c\r\x0e\x0f012', 0),
        (
         b"0x404040 <cert>:\t0x30\t0x82\t0x01\t0x22\t0x04\t0x05\t0x06\t0x07\n"
         b"0x404048 <cert+8>:\t0x08\t0x09\t0x0a\t0x0b\t0x0c\t0x0d\t0x0e\t0x0f\n0x404050 <cert+16>:\t0x30\t0x31\t0x32\n",
         b'0\x82\x01"\x04\x05\x06\x07\x08\t\n\x0b\x0c\r\x0e\x0f012', 0),
        (
         b'0000 - 30 82 01 22 04 05 06 07-08 09 0a 0b 0c 0d 0e 0f   0.."............\n'
         b"0010 - 30 31 32                                          012\n",
         b'0\x82\x01"\x04\x05\x06\x07\x08\t\n\x0b\x0c\r\x0e\x0f012', 0),
        (
         b"0000 zz\n2024\n0000  30 82 01 22 04 05 06 07 08 09 0a 0b 0c 0d 0e 0f\n0010  30 31 32\n0013\n",
         b'0\x82\x01"\x04\x05\x06\x07\x08\t\n\x0b\x0c\r\x0e\x0f012', 0),
        (
         b"\n           Path: C:\\a.der\n\n           00 01 02 03\n\n"
         b'00000000   30 82 01 22 04 05 06 07 08 09 0A 0B 0C 0D 0E 0F  0.."............\n'
         b"00000010   30 31 32                                         012\n",
         b'0\x82\x01"\x04\x05\x06\x07\x08\t\n\x0b\x0c\r\x0e\x0f012', 0),
    ],
    "pem": [
        (b"-----BEGIN A-----\nMAMC\nAQUw\nAwIB\n*BQ==\n-----END A-----\n", b"0\x03\x02\x01\x050\x03\x02\x01", 5),
        (b"\n-----BEGIN A-----\nMAMC\nMA*", b"0\x03\x02", 4),
        (b"-----BEGIN PGP MESSAGE-----\nVersion: x\n\nMAMC\n*\n-----END PGP MESSAGE-----\n", b"0\x03\x02", 5),
    ],
    "runs": [
        (b"<X>\nAAAAAAAAAAAAAAAAAAAAAAAAAAAAAAAAAAAAAAAA&#13;\nAAAAAAAAAAAAAAAAAAAA&#13;\n</X>", bytes(30), 2),
        (b"<X>AAAAAAAAAAAAAAAAAAAAAAAAAAAAAAAAAAAAAAAA\n  AAAAAAAAAAAAAAAAAAAA</X>", bytes(45), 0),
        (b"jpeg:: AAAAAAAAAAAAAAAAAAAAAAAAAAAAAAAAAAAAAAAA==\nsn: x", bytes(30), 1),
        (b"jpeg:: AAAAAAAAAAAAAAAAAAAAAAAAAAAAAAAAAAAAAAAA\n AAAAAAAAAAAAAAAAAAAA\nsn: x", bytes(45), 0),
        (b"tls.crt: AAAAAAAAAAAAAAAAAAAAAAAAAAAAAAAAAAAAAAAA\r\n  tls.key: AAAA", bytes(30), 0),
        (b"x: 'AAAAAAAAAAAAAAAAAAAAAAAAAAAAAAAAAAAAAAAA\n    AAAAAAAAAAAAAAAAAAAA'", bytes(45), 0),
        (b"see `AAAAAAAAAAAAAAAAAAAAAAAAAAAAAAAAAAAAAAAA\nAAAAAAAAAAAAAAAAAAAA`, and", bytes(45), 0),
        (b"(x AAAAAAAAAAAAAAAAAAAAAAAAAAAAAAAAAAAAAAAA\n   AAAAAAAAAAAAAAAAAAAA)", bytes(45), 0),
        (b"&quot;AAAAAAAAAAAAAAAAAAAAAAAAAAAAAAAAAAAAAAAA\r\nAAAAAAAAAAAAAAAAAAAA&quot;", bytes(45), 0),
        (b"<X>AAAAAAAAAAAAAAAAAAAAAAAAAAAAAAAAAAAAAAAA&#13;\nAAAAAAAAAAAAAAAAAAAA&#13;\n</X>", bytes(30), 1),
        (b"<X>AAAAAAAAAAAAAAAAAAAAAAAAAAAAAAAAAAAAAAAA&#xD;\n AAAAAAAAAAAAAAAAAAAA=&#xD;\n</X>", bytes(30), 1),
        (b"x:: AAAAAAAAAAAAAAAAAAAAAAAAAAAAAAAAAAAAAAAA \n AAAAAAAAAAAAAAAAAAAA= \ny: z", bytes(45), 2),
        (b"AAAAAAAAAAAAAAAAAAAAAAAAAAAAAAAAAAAAAAAA\t \r\nAAAAAAAAAAAAAAAAAAAA\t\r\n", bytes(45), 0),
        (b'{"c":"AAAAAAAAAAAAAAAAAAAAAAAAAAAAAAAAAAAAAAAA\\nAAAA\\r\\nAAA=\\n"}', bytes(35), 0),
        (b"$ base64 a.der\nAAAAAAAAAAAAAAAAAAAAAAAAAAAAAAAAAAAAAAAA\n", bytes(30), 0),
        (b"cat <<EOF\nAAAAAAAAAAAAAAAAAAAAAAAAAAAAAAAAAAAAAAAA\nAAA=\nEOF\n", bytes(32), 0),
        (b"AAAAAAAAAAAAAAAAAAAAAAAAAAAAAAAAAAAAAAAA\\tAAAA", bytes(30), 0),
        (b"A=AAAAAAAAAAAAAAAAAAAAAAAAAAAAAAAAAAAAAAAA\nB=AA", bytes(30), 0),
    ],
}
# The text, the status of --raw, the octets decoded, and the note.
TAKEN = [
    (b"00000000: 3003 0201 05                             0....\n", 0, b"0\x03\x02\x01\x05", "taken for a hex dump"),
    (b"3003020105\n", 0, b"0\x03\x02\x01\x05", "taken for hexadecimal"),
    (b"30:03:02:01:05\n", 0, b"0\x03\x02\x01\x05", "taken for hexadecimal"),
    (b' 30 03\r\n\'02\'-"01",\t05', 0, b"0\x03\x02\x01\x05", "taken for hexadecimal"),
    (b"30 03\n0000 02 01 05\n", 0, b"\x02\x01\x05", "taken for a hex dump"),
    (b"30 03 02 01 05\n1000 02 01 05\n", 0, b"0\x03\x02\x01\x05\x10\x00\x02\x01\x05", "taken for hexadecimal"),
    (b"char a[] = {0x30, 0x03, 0x02, 0x01, 0x05};\n", 0, b"0\x03\x02\x01\x05", "taken for hexadecimal"),
    (b"[48, 3, 2, 1, 5]", 0, b"0\x03\x02\x01\x05", "taken for decimal numbers"),
    (b"MAMCAQU=\n", 0, b"0\x03\x02\x01\x05", "taken for base64"),
    (b"BAEABAA\r\n", 0, b"\x04\x01\x00\x04\x00", "taken for base64"),
    (b"0x30\n0x03\n0x02\n0x01\n0x05\n", 0, b"0\x03\x02\x01\x05", "taken for hexadecimal"),
    (b"aGVsbG8=", 2, b"", unknown("aGVsbG8=")),
    (b"MAL7_w==", 0, b"0\x02\xfb\xff", "taken for base64"),
    (
     b'{"kty":"RSA","x5c":["MCIEIAABAgMEBQYHCAkKCwwNDg8QERITFBUWFxgZGhscHR4f","MCIEIAABAgMEBQYHCAkKCwwNDg8Q'
     b'ERITFBUWFxgZGhscHR4f"]}',
     0, (b'0"\x04 ' + COUNTED) * 2, "block 1: taken for base64 of line 1\nblock 2: taken for base64 of line 1"),
    (
     b"MIME-Version: 1.0\nContent-Type: application/pkcs7-mime; name=smime.p7m\nContent-Transfer-Encoding: base64\n"
     b"\nMCIEIAABAgMEBQYHCAkKCwwNDg8QERITFBUWFxgZ\nGhscHR4f\n",
     0, (b'0"\x04 ' + COUNTED), "taken for base64 of line 5"),
    (b"", 0, b"", ""),
    (b"0\x03\x02\x01\x05", 0, b"0\x03\x02\x01\x05", ""),
    (b"\x04+-----BEGIN X-----\nMAMCAQU=\n-----END X-----\n", 0, b"\x04+-----BEGIN X-----\nMAMCAQU=\n-----END X-----\n", ""),
    (b"\x0c+-----BEGIN X-----\nMAMCAQU=\n-----END X-----\n", 0, b"\x0c+-----BEGIN X-----\nMAMCAQU=\n-----END X-----\n", ""),
    (b"\x04\x03abc", 0, b"\x04\x03abc", ""),
    (b"\n \n", 0, b"\n \n", ""),
    (b"\xff\xfeab", 0, b"\xff\xfeab", ""),
    (b"MAMCAQU=\x00", 0, b"MAMCAQU=\x00", ""),
    (b"\xc9 aaaaaaaaaaaaaaaaaaaaaaaaaaaaaaaa", 0, b"\xc9 aaaaaaaaaaaaaaaaaaaaaaaaaaaaaaaa", ""),
    (b"Hello, world", 2, b"", unknown("Hello, world")),
    (b"\xef\xbb\xbfHello, world\n", 2, b"", unknown("Hello, world?")),
    (b"00 00 30 03", 2, b"", unknown("00 00 30 03")),
    (b"0", 2, b"", unknown("0")),
    (
     b"e3b0c44298fc1c149afbf4c8996fb92427ae41e4649b934ca495991b7852b855  empty.txt\n"
     b"ba7816bf8f01cfea414140de5dae2223b00361a396177a9cb410ff61f20015ad  letters.txt\n",
     2, b"", unknown("e3b0c44298fc1c149afbf4c8996fb924")),
    (
     b"\xd0\x9f\xd1\x80\xd0\xb8\xd0\xbc\xd0\xb5\xd1\x80 \xd1\x82\xd0\xb5\xd0\xba\xd1\x81\xd1\x82\xd0\xb0 \xd0\xb1"
     b"\xd0\xb5\xd0\xb7 \xd0\xba\xd0\xbe\xd0\xb4\xd0\xb8\xd1\x80\xd0\xbe\xd0\xb2\xd0\xb0\xd0\xbd\xd0\xb8\xd1\x8f",
     2, b"", unknown("???????????? ???????????? ??????")),
    (b"LS0tLS1CRUdJTiBYLS0tLS0KTUFNQ0FRVT0KLS0tLS1FTkQgWC0tLS0tCg==", 0, b"0\x03\x02\x01\x05", "taken for PEM, X, in base64"),
    (b"TUFNQ0FRVT0=", 0, b"0\x03\x02\x01\x05", "taken for base64, in base64"),
    (
     b"TFMwdExTMUNSVWRKVGlCWUxTMHRMUzBLVFVGTlEwRlJWVDBLTFMwdExTMUZUa1FnV0MwdExTMHRDZz09",
     0, b"0\x03\x02\x01\x05", "taken for PEM, X, in base64, in base64"),
    (
     b"VEZNd2RFeFRNVU5TVldSS1ZHbENXVXhUTUhSTVV6QkxWRlZHVGxFd1JsSldWREJMVEZNd2RFeFRNVVpVYTFGblYwTXdkRXhUTUhSRFp6MDk=",
     0, b"0\x03\x02\x01\x05", "taken for PEM, X, in base64, in base64, in base64"),
    (
     b"VkVaTmQyUkZlRlJOVlU1VFZsZFNTMVpIYkVOWFZYaFVUVWhTVFZWNlFreFdSbFpIVkd4RmQxSnNTbGRXUkVKTVZFWk5kMlJGZUZS"
     b"TlZWcFZZVEZHYmxZd1RYZGtSWGhVVFVoU1JGcDZNRGs9",
     2, b"", unknown("VkVaTmQyUkZlRlJOVlU1VFZsZFNTMVpI")),
    (b"MzAwMzAyMDEgMDUK", 0, b"0\x03\x02\x01\x05", "taken for hexadecimal, in base64"),
    (
     b"kind: Secret\ndata:\n  tls.crt: LS0tLS1CRUdJTiBYLS0tLS0KTUFNQ0FRVT0KLS0tLS1FTkQgWC0tLS0tCg==\n"
     b"  tls.key: LS0tLS1CRUdJTiBZLS0tLS0KTUFNQ0FRYz0KLS0tLS1FTkQgWS0tLS0tCg==\n",
     0, b"0\x03\x02\x01\x050\x03\x02\x01\x07",
     "block 1: taken for PEM, X, in base64 of line 3\nblock 2: taken for PEM, Y, in base64 of line 4"),
    (
     b"data:\n  tls.crt: LS0tLS1CRUdJTiBYLS0tLS0KTUFNQ0FRVT0KLS0tLS1FTkQgWC0tLS0tCgoK\n"
     b"  tls.key: LS0tLS1CRUdJTiBZLS0tLS0KTUFNQ0FRYz0KLS0tLS1FTkQgWS0tLS0tCg==\n",
     0, b"0\x03\x02\x01\x050\x03\x02\x01\x07",
     "block 1: taken for PEM, X, in base64 of line 2\nblock 2: taken for PEM, Y, in base64 of line 3"),
    (
     b"data:\n  a: MCMEIQABAgMEBQYHCAkKCwwNDg8QERITFBUWFxgZGhscHR4fIA==\n"
     b"  b: bm90aGluZyB0aGF0IGlzIGFuIGVuY29kaW5nIGF0IGFsbA==\n",
     0, (b"0#\x04!" + COUNTED + b" "), "taken for base64 of line 2"),
    (
     b"list:\n"
     b"- YTJsdVpEb2dVMlZqY21WMENtUmhkR0U2Q2lBZ2RHeHpMbU55ZERvZ1RGTXdkRXhUTVVOU1ZXUktWR2xDV1V4VE1IUk1VekJMVk"
     b"ZWR1RsRXdSbEpXVkRCTFRGTXdkRXhUTVVaVWExRm5WME13ZEV4VE1IUkRaejA5Q2lBZ2RHeHpMbXRsZVRvZ1RGTXdkRXhUTVVOU1"
     b"ZXUktWR2xDV2t4VE1IUk1VekJMVkZWR1RsRXdSbEpaZWpCTFRGTXdkRXhUTVVaVWExRm5WMU13ZEV4VE1IUkRaejA5Q2c9PQ==\n",
     0, b"0\x03\x02\x01\x050\x03\x02\x01\x07",
     "block 1: taken for PEM, X, in base64 of line 3, in base64, in base64 of line 2\n"
     "block 2: taken for PEM, Y, in base64 of line 4, in base64, in base64 of line 2"),
    (b"-----BEGIN X-----\nMAMCAQU=\n-----END X-----\n", 0, b"0\x03\x02\x01\x05", "taken for PEM, X"),
    (b"\xef\xbb\xbf-----BEGIN X-----\nMAMCAQU=\n-----END X-----\n", 0, b"0\x03\x02\x01\x05", "taken for PEM, X"),
    (
     b"\xfe\xff\x00-\x00-\x00-\x00-\x00-\x00B\x00E\x00G\x00I\x00N\x00 \x00X\x00-\x00-\x00-\x00-\x00-\x00\n"
     b"\x00M\x00A\x00M\x00C\x00A\x00Q\x00U\x00=\x00\n"
     b"\x00-\x00-\x00-\x00-\x00-\x00E\x00N\x00D\x00 \x00X\x00-\x00-\x00-\x00-\x00-\x00\n",
     0, b"0\x03\x02\x01\x05", "taken for PEM, X"),
    (
     b"\xff\xfe-\x00-\x00-\x00-\x00-\x00B\x00E\x00G\x00I\x00N\x00 \x00X\x00-\x00-\x00-\x00-\x00-\x00\n"
     b"\x00M\x00A\x00M\x00C\x00A\x00Q\x00U\x00=\x00\n"
     b"\x00-\x00-\x00-\x00-\x00-\x00E\x00N\x00D\x00 \x00X\x00-\x00-\x00-\x00-\x00-\x00\n\x00",
     0, b"0\x03\x02\x01\x05", "taken for PEM, X"),
    (
     b"subject=CN\n-----BEGIN X-----\nMAMCAQU=\n-----END X-----\n-----BEGIN Y-----\nMAMCAQc=\n",
     0, b"0\x03\x02\x01\x050\x03\x02\x01\x07", "block 1: taken for PEM, X\nblock 2: taken for PEM, Y; its end marker is missing"),
    (b"-----BEGIN Z-----\nProc-Type: 4,ENCRYPTED\n\nMAMC\n-----END Z-----\n", 2, b"", "taken for PEM, Z; X3 it is encrypted"),
    (
     b"-----BEGIN Z-----\nMAMC\nA*\n-----END Z-----\n",
     2, b"0\x03\x02", "taken for PEM, Z; X2 refused in line 3, where base64 is expected"),
]
