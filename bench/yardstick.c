/* The yardstick: a plain dumper in C with the layout of tlvdump, written to be read. Speeds are measured relative to its.

   usage: yardstick <INPUT       writes the dump of INPUT
          yardstick w <INPUT     walks INPUT in the same way, and writes nothing

   For a whole input without findings it writes the text of "tlvdump dump" (docs/FORMAT.md). It shows differently: contents
   of RELATIVE-OID, BMPString and UniversalString (as pairs), rows of a UTF8String that is not ASCII, arcs of 2^128 and more.
   There are no findings, no names of object identifiers, no options. Each read and write is of at most 4096 octets.
   fast_yardstick.c includes this file, and has a main of its own.
   Status: 0 if the input is whole, 2 if it is damaged or ends too early, 3 if a read or a write fails. */
#include <stdint.h>
#include <stdlib.h>
#include <string.h>
#include <unistd.h>

typedef unsigned char octet;
typedef uint64_t number;
typedef unsigned __int128 wide;
#ifndef PIECE
#define PIECE 4096 /* the most octets of a read or a write */
#endif
enum { HELD = 64, LINE = 1024, DEEPEST = 128, TYPES = 37 };

/* How contents are shown. Contents of more octets than MOST are shown in rows. */
enum kind { PAIRS, TRUTH, INTEGER, BITS, ARCS, TEXT, UTF8 };
static const octet MOST[] = {16, 16, 16, 9, HELD, HELD, HELD};

/* Universal types by tag number. Entry 0 stands for all other tags. */
static const octet KIND[TYPES] = {[1] = TRUTH, [2] = INTEGER, [3] = BITS, [6] = ARCS, [7] = TEXT, [10] = INTEGER, [12] = UTF8,
                                  [18] = TEXT, TEXT, TEXT, TEXT, TEXT, TEXT, TEXT, TEXT, TEXT, TEXT};
static const char NAME[TYPES][20] = {
    "", "BOOLEAN", "INTEGER", "BIT STRING", "OCTET STRING", "NULL", "OBJECT IDENTIFIER", "ObjectDescriptor", "EXTERNAL", "REAL",
    "ENUMERATED", "EMBEDDED PDV", "UTF8String", "RELATIVE-OID", "TIME", "", "SEQUENCE", "SET", "NumericString",
    "PrintableString", "TeletexString", "VideotexString", "IA5String", "UTCTime", "GeneralizedTime", "GraphicString",
    "VisibleString", "GeneralString", "UniversalString", "CHARACTER STRING", "BMPString", "DATE", "TIME-OF-DAY", "DATE-TIME",
    "DURATION", "OID-IRI", "RELATIVE-OID-IRI"};

/* The walk: what is expected next (from CONTENTS on: what was read), the offset, the last header, contents octets left. */
static enum stage { IDENTIFIER, TAG_NUMBER, FIRST_LENGTH, LATER_LENGTH, SECOND_ZERO, CONTENTS, END, REFUSED } stage;
static number offset, start, tag, length, left;
static int tag_class, is_constructed, is_indefinite, octets_of_number;
static number type; /* the index in the tables of types */
static enum kind kind;

/* The open elements, the input first: where they end, or the bound before which end-of-contents octets must come. */
static number bound[DEEPEST + 1] = {UINT64_MAX};
static char ends_by_zeros[DEEPEST + 1];
static size_t depth;

/* Octets read; octets of an unfinished value or row; the line being made; lines not yet written. Copies of a
   fixed size are fast, but go beyond the end. So there is more room. */
enum { MORE = 64 };
static octet piece[PIECE + MORE], held[HELD + MORE];
static char line[LINE + MORE], output[PIECE + MORE];
static size_t held_count, output_count;

static void write_output(void) {
    ssize_t count;
    for (size_t done = 0; done < output_count; done += (size_t)count)
        if ((count = write(1, output + done, output_count - done)) < 0) exit(3);
    output_count = 0;
}

/* Adds the line, whose text ends at END, to the output. */
static void put_line(char *end) {
    *end++ = '\n';
    const size_t count = (size_t)(end - line);
    if (output_count + count > PIECE) write_output();
    for (size_t it = 0; it < count; it += 64) memcpy(output + output_count + it, line + it, 64);
    output_count += count;
}

/* Parts of a line. Each of these functions adds text at TO and returns its end. */

static const char DIGIT[] = "0123456789abcdef";
static char TWO_DIGITS[100][2], PAIR[256][4]; /* in decimal; a space and two digits in hexadecimal */
static octet NAME_SIZE[TYPES];

static void fill_tables(void) {
    for (int it = 0; it < TYPES; it++) NAME_SIZE[it] = (octet)strlen(NAME[it]);
    for (int it = 0; it < 100; it++) TWO_DIGITS[it][0] = DIGIT[it / 10], TWO_DIGITS[it][1] = DIGIT[it % 10];
    for (int it = 0; it < 256; it++) PAIR[it][0] = ' ', PAIR[it][1] = DIGIT[it >> 4], PAIR[it][2] = DIGIT[it & 15];
}

static char *add_spaces(char *to, size_t count) {
    memset(to, ' ', 32);
    if (count > 32) memset(to + 32, ' ', count - 32);
    return to + count;
}

/* Adds IT in decimal, padded with spaces to WIDTH columns. WIDTH is 1, 6 or 8. */
static char *add_number(char *to, int width, number it) {
    number most = width == 8 ? 100000000 : width == 6 ? 1000000 : 10;
    for (; it >= most && width < 20; width++) most *= 10;
    memset(to, ' ', 8);
    char *const end = to + width, *at = end;
    for (; it > 99; it /= 100) memcpy(at -= 2, TWO_DIGITS[it % 100], 2);
    if (it > 9) memcpy(at - 2, TWO_DIGITS[it], 2);
    else at[-1] = DIGIT[it];
    return end;
}

static char *add_wide(char *to, wide it) {
    if (it >> 64 == 0) return add_number(to, 1, (number)it);
    to = add_wide(to, it / 10);
    *to++ = DIGIT[it % 10];
    return to;
}

/* The next functions add a space and the text of the octets in `held`. */

/* Adds at most 16 octets as pairs of digits. */
static char *add_pairs(char *to) {
#pragma GCC unroll 16
    for (int it = 0; it < 16; it++) memcpy(to + 3 * it, PAIR[held[it]], 4);
    return to + 3 * held_count;
}

static char *add_integer(char *to) {
    const int is_negative = held[0] >> 7;
    wide it = is_negative ? ~(wide)0 : 0;
    for (size_t at = 0; at < held_count; at++) it = it << 8 | held[at];
    return is_negative ? add_wide(stpcpy(to, " -"), -it) : add_wide(stpcpy(to, " "), it);
}

static char *add_bits(char *to) {
    const size_t bits = 8 * (held_count - 1) - held[0];
    to = stpcpy(add_number(stpcpy(to, " "), 1, bits), bits ? " bits " : " bits");
    for (size_t it = 0; it < bits; it++) *to++ = DIGIT[held[1 + it / 8] >> (7 - it % 8) & 1];
    return to;
}

static char *add_arcs(char *to) {
    int is_first = 1;
    wide arc = 0;
    for (size_t at = 0; at < held_count; at++) {
        arc = arc << 7 | (held[at] & 127);
        if (held[at] > 127) continue;
        if (is_first) { /* it encodes two arcs */
            to = stpcpy(to, arc < 40 ? " 0" : arc < 80 ? " 1" : " 2");
            arc -= arc < 40 ? 0 : arc < 80 ? 40 : 80;
        }
        to = add_wide(stpcpy(to, "."), arc);
        arc = is_first = 0;
    }
    return to;
}

static char *add_text(char *to) {
    to = stpcpy(to, " \"");
    for (size_t at = 0; at < held_count;) {
        unsigned it = held[at++];
        if (it >= ' ' && it <= '~') {
            if (it == '"' || it == '\\') *to++ = '\\';
            *to++ = (char)it;
        } else if (kind == UTF8 && it >= 0xc2) {
            int more = it < 0xe0 ? 1 : it < 0xf0 ? 2 : 3, shift = 20;
            for (it &= 63u >> more; more > 0 && at < held_count; more--) it = it << 6 | (held[at++] & 63);
            while (shift > 0 && it >> shift == 0) shift -= 4;
            for (to = stpcpy(to, "\\u{"); shift >= 0; shift -= 4) *to++ = DIGIT[it >> shift & 15];
            *to++ = '}';
        } else {
            to = stpcpy(stpcpy(to, "\\x"), PAIR[it] + 1);
        }
    }
    return stpcpy(to, "\"");
}

static char *add_value(char *to) {
    if (kind >= TEXT) return add_text(to);
    if (kind == INTEGER && held_count) return add_integer(to);
    if (kind == ARCS) return add_arcs(to);
    if (kind == TRUTH && held_count == 1) return stpcpy(to, held[0] ? " TRUE" : " FALSE");
    if (kind == BITS && held_count && held[0] <= (held_count > 1 ? 7 : 0)) return add_bits(to);
    return add_pairs(to);
}

/* Adds the offset and the length: the first columns of the line of an element. */
static char *add_columns(char *to) {
    to = stpcpy(add_number(to, 8, start), " ");
    return stpcpy(is_indefinite ? stpcpy(to, " indef") : add_number(to, 6, length), ": ");
}

static char *add_tag(char *to) {
    static const char CLASS[4][14] = {"[UNIVERSAL ", "[APPLICATION ", "[", "[PRIVATE "};
    static const octet CLASS_SIZE[] = {11, 13, 1, 9};
    if (NAME_SIZE[type]) return (char *)memcpy(to, NAME[type], 20) + NAME_SIZE[type];
    memcpy(to, CLASS[tag_class], 14);
    return stpcpy(add_number(to + CLASS_SIZE[tag_class], 1, tag), "]");
}

/* Adds the beginning of the line of an element, up to the tag. */
static char *add_front(char *to) { return add_tag(add_spaces(add_columns(to), 2 * depth)); }

/* Writes the octets in `held`: a value with the line of its element, or a row of a long value. */
static void put_held(int is_long) {
    char *to = is_long ? add_spaces(line, 18 + 2 * depth) : add_front(line);
    put_line(!is_long ? add_value(to) : kind < TEXT ? add_pairs(to) : add_text(to));
    held_count = 0;
}

/* Takes COUNT octets of a primitive, and writes what is complete. LEFT octets were missing before these. */
static void take_contents(const octet *at, size_t count) {
    const octet *end = at + count;
    number rest = left;
    kind = KIND[type];
    const int is_long = length > MOST[kind];
    const size_t full = is_long && kind < TEXT ? 16 : HELD;
    if (is_long && rest == length) { /* the line of the element comes before its rows */
        char *to = add_front(line);
        if (kind == BITS && *at <= 7) to = stpcpy(add_number(stpcpy(to, " "), 1, 8 * --rest - *at++), " bits");
        put_line(to);
    }
    do {
        size_t some = full - held_count < rest ? full - held_count : (size_t)rest;
        if (some > (size_t)(end - at)) some = (size_t)(end - at);
        memcpy(held + held_count, at, HELD);
        held_count += some, at += some, rest -= some;
        if (held_count == full || rest == 0) put_held(is_long);
    } while (at < end);
}

static void put_end(char *to) { put_line(stpcpy(add_spaces(to, 2 * depth), "}")); }

/* Takes an octet of a header or an end-of-contents octet. Returns the next stage. */
static enum stage take_header(octet next) {
    switch (stage) {
    case IDENTIFIER:
        start = offset - 1;
        if (next == 0) return SECOND_ZERO;
        tag_class = next >> 6;
        is_constructed = next >> 5 & 1;
        tag = next & 31;
        if (tag < 31) return FIRST_LENGTH;
        tag = octets_of_number = 0;
        return TAG_NUMBER;
    case TAG_NUMBER:
        tag = tag << 7 | (next & 127);
        return next < 128 ? FIRST_LENGTH : ++octets_of_number < 9 ? TAG_NUMBER : REFUSED;
    case FIRST_LENGTH:
        type = tag_class == 0 && tag < TYPES ? tag : 0;
        length = next < 128 ? next : 0;
        is_indefinite = next == 128;
        octets_of_number = next & 127; /* from here on, the number of octets missing */
        if (next < 128 || (is_indefinite && is_constructed)) return CONTENTS;
        return is_indefinite || next == 255 ? REFUSED : LATER_LENGTH;
    case LATER_LENGTH:
        length = length << 8 | next;
        return length >> 40 ? REFUSED : --octets_of_number ? LATER_LENGTH : CONTENTS;
    default: /* SECOND_ZERO */
        return next == 0 && ends_by_zeros[depth] ? END : REFUSED;
    }
}

/* Takes a piece of the input. Returns 0 if an octet of it is refused. */
static int take_piece(const octet *at, const octet *end, int writes) {
    while (at < end) {
        if (stage != CONTENTS) {
            if (offset++ == bound[depth]) return 0;
            stage = take_header(*at++);
            if (stage < CONTENTS) continue;
            if (stage == REFUSED || (stage == CONTENTS && length > bound[depth] - offset)) return 0;
            left = length;
        }
        if (stage == END) {
            depth--;
            if (writes) put_end(stpcpy(add_number(line, 8, start), "    end: "));
        } else if (is_constructed) {
            if (depth == DEEPEST) return 0;
            if (writes) put_line(stpcpy(add_front(line), " {"));
            bound[depth + 1] = is_indefinite ? bound[depth] : offset + length;
            ends_by_zeros[++depth] = (char)is_indefinite;
        } else {
            const size_t count = left < (number)(end - at) ? (size_t)left : (size_t)(end - at);
            if (writes && (count || !left)) take_contents(at, count);
            at += count;
            offset += count;
            left -= count;
            if (left) break;
        }
        stage = IDENTIFIER;
        while (offset == bound[depth] && !ends_by_zeros[depth]) {
            depth--;
            if (writes) put_end(add_spaces(line, 17));
        }
    }
    return 1;
}

/* Reads the input, and has TAKE take each piece of it. Returns the status. */
static int take_input(int (*take)(const octet *, const octet *, int), int writes) {
    int is_sound = 1;
    ssize_t got = 0;
    while (is_sound && (got = read(0, piece, PIECE)) > 0) is_sound = take(piece, piece + got, writes);
    write_output();
    return got < 0 ? 3 : is_sound && stage == IDENTIFIER && depth == 0 && offset ? 0 : 2;
}

#ifndef FAST
int main(int count, char **words) {
    fill_tables();
    return take_input(take_piece, count < 2 || words[1][0] != 'w');
}
#endif
