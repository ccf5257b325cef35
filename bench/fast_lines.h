/* What the fast yardstick writes: tables, parts of lines, values.

   Copies of a fixed size are fast, but go beyond the end of what is copied. What is written next is written over the
   rest. Reads go beyond the end too, and what they get there is not used. Input and output have room for both. */
#include <immintrin.h>

#define ALWAYS_INLINE static inline __attribute__((always_inline))
#define RARE static __attribute__((noinline, cold))
typedef __m128i octets_16;
typedef __m256i octets_32;

/* Tables */

enum { SHORT = 1000, LOW = 10000, INDEFINITE = SHORT, END_OF_CONTENTS };
static char LENGTH_COLUMN[SHORT + 2][8]; /* of a length below 1000, of INDEFINITE, and of END_OF_CONTENTS */
static char LOW_DIGITS[LOW][4];          /* the last four digits of an offset */
static char ARC[SHORT + 1][4];           /* a dot and a number */
static octet ARC_SIZE[SHORT];
static char TAG[256][32]; /* by the first identifier octet; for a constructed element with the rest of its line */
static octet TAG_SIZE[256], TAG_KIND[256];

static void fill_tags(void) {
    for (int it = 0; it < 256; it++) {
        tag_class = it >> 6, tag = it & 31;
        type = tag_class == 0 ? tag : 0;
        char *end = add_tag(line);
        if (it & 32) end = stpcpy(end, " {\n");
        TAG_SIZE[it] = (octet)(end - line);
        TAG_KIND[it] = KIND[type];
        memcpy(TAG[it], line, 32);
    }
}

static void fill_fast_tables(void) {
    fill_tables();
    fill_tags();
    for (number it = 0; it < SHORT; it++) {
        memcpy(stpcpy(line, "."), "   ", 3);
        ARC_SIZE[it] = (octet)(add_number(line + 1, 1, it) - line);
        memcpy(ARC[it], line, 4);
        stpcpy(add_number(line, 6, it), ": ");
        memcpy(LENGTH_COLUMN[it], line, 8);
    }
    memcpy(LENGTH_COLUMN[INDEFINITE], " indef: ", 8);
    memcpy(LENGTH_COLUMN[END_OF_CONTENTS], "   end: ", 8);
    for (number it = 0; it < LOW; it++) {
        add_number(line, 6, LOW + it);
        memcpy(LOW_DIGITS[it], line + 2, 4);
    }
}

/* Parts of a line. Each of these functions adds text at TO and returns its end. */

ALWAYS_INLINE octets_16 load_16(const void *at) { return _mm_loadu_si128(at); }
ALWAYS_INLINE octets_32 load_32(const void *at) { return _mm256_loadu_si256(at); }
ALWAYS_INLINE void store_16(char *to, octets_16 it) { _mm_storeu_si128((void *)to, it); }
ALWAYS_INLINE void store_32(char *to, octets_32 it) { _mm256_storeu_si256((void *)to, it); }

ALWAYS_INLINE char *add_blanks(char *to, size_t count) {
    store_32(to, _mm256_set1_epi8(' '));
    for (size_t it = 32; it < count; it += 32) store_32(to + it, _mm256_set1_epi8(' '));
    return to + count;
}

/* The digits of the last offset before the last four, and that offset with zeros in place of these. There is none if it
   is as large as no offset is. */
static char high_digits[4];
static number high_offset = UINT64_MAX / 2;

/* Adds an offset that has other high digits than the last one. */
RARE char *add_new_offset(char *to, number it) {
    char *const end = add_number(to, 8, it);
    const int has_high_digits = it >= LOW && end == to + 8;
    high_offset = has_high_digits ? it - it % LOW : UINT64_MAX / 2;
    memcpy(high_digits, to, 4);
    return end;
}

/* Adds an offset and a column of eight characters. */
ALWAYS_INLINE char *add_offset(char *to, number it, const char *column) {
    const number low = it - high_offset;
    if (__builtin_expect(low < LOW, 1)) {
        memcpy(to, high_digits, 4);
        memcpy(to + 4, LOW_DIGITS[low], 4);
        to += 8;
    } else {
        to = add_new_offset(to, it);
    }
    *to = ' ';
    return (char *)memcpy(to + 1, column, 8) + 8;
}

/* Returns the 16 decimal digits of a number below 10^16, each as an octet. Each step divides all parts at once, by 10000,
   by 100, by 10. A quotient is a product with a power of two by the divisor, without its low bits. */
ALWAYS_INLINE octets_16 digits_of(number it) {
    const number high = it / 100000000, low = it % 100000000;
    octets_16 parts = _mm_set_epi64x((long long)low, (long long)high);
    octets_16 quotients = _mm_srli_epi64(_mm_mul_epu32(parts, _mm_set1_epi64x(3518437209)), 45);
    octets_16 rests = _mm_sub_epi64(parts, _mm_mul_epu32(quotients, _mm_set1_epi64x(10000)));
    parts = _mm_or_si128(quotients, _mm_slli_epi64(rests, 32));
    quotients = _mm_srli_epi16(_mm_mulhi_epu16(parts, _mm_set1_epi32(5243)), 3);
    rests = _mm_sub_epi16(parts, _mm_mullo_epi16(quotients, _mm_set1_epi32(100)));
    parts = _mm_or_si128(quotients, _mm_slli_epi32(rests, 16));
    quotients = _mm_mulhi_epu16(parts, _mm_set1_epi16(6554));
    rests = _mm_sub_epi16(parts, _mm_mullo_epi16(quotients, _mm_set1_epi16(10)));
    return _mm_or_si128(quotients, _mm_slli_epi16(rests, 8));
}

/* Adds a number below 10^16 in decimal, without a branch. */
ALWAYS_INLINE char *add_decimal(char *to, number it) {
    static const octet FROM[32] = {0, 1, 2, 3, 4, 5, 6, 7, 8, 9, 10, 11, 12, 13, 14, 15};
    const octets_16 digits = digits_of(it);
    const unsigned others = ~(unsigned)_mm_movemask_epi8(_mm_cmpeq_epi8(digits, _mm_setzero_si128()));
    const unsigned zeros = (unsigned)__builtin_ctz(others | 1 << 15);
    store_16(to, _mm_shuffle_epi8(_mm_or_si128(digits, _mm_set1_epi8('0')), load_16(FROM + zeros)));
    return to + 16 - zeros;
}

RARE char *add_large(char *to, wide it) {
    const number part = 10000000000000000;
    if (it < part) return add_decimal(to, (number)it);
    to = add_large(to, it / part);
    store_16(to, _mm_or_si128(digits_of((number)(it % part)), _mm_set1_epi8('0')));
    return to + 16;
}

/* Adds at most 16 octets as pairs of digits, with a blank after each pair. */
ALWAYS_INLINE char *add_pairs_16(char *to, const octet *at, size_t count) {
    const octets_16 HEX = _mm_setr_epi8('0', '1', '2', '3', '4', '5', '6', '7', '8', '9', 'a', 'b', 'c', 'd', 'e', 'f');
    /* Where each character comes from; a blank is from nowhere, which gives 0. */
    const octets_16 FIRST = _mm_setr_epi8(0, 1, -1, 2, 3, -1, 4, 5, -1, 6, 7, -1, 8, 9, -1, 10);
    const octets_16 SECOND = _mm_setr_epi8(3, -1, 4, 5, -1, 6, 7, -1, 8, 9, -1, 10, 11, -1, 12, 13);
    const octets_16 THIRD = _mm_setr_epi8(-1, 6, 7, -1, 8, 9, -1, 10, 11, -1, 12, 13, -1, 14, 15, -1);
    const octets_16 BLANKS = _mm_set1_epi8(' '), LOW_BITS = _mm_set1_epi8(15), octets = load_16(at);
    const octets_16 high = _mm_and_si128(_mm_srli_epi16(octets, 4), LOW_BITS), low = _mm_and_si128(octets, LOW_BITS);
    const octets_16 left_half = _mm_shuffle_epi8(HEX, _mm_unpacklo_epi8(high, low));
    const octets_16 right_half = _mm_shuffle_epi8(HEX, _mm_unpackhi_epi8(high, low));
    const octets_16 middle = _mm_alignr_epi8(right_half, left_half, 8);
    /* The largest of 0 and a blank is a blank, that of a digit and a blank the digit. */
    store_16(to, _mm_max_epu8(_mm_shuffle_epi8(left_half, FIRST), BLANKS));
    store_16(to + 16, _mm_max_epu8(_mm_shuffle_epi8(middle, SECOND), BLANKS));
    store_16(to + 32, _mm_max_epu8(_mm_shuffle_epi8(right_half, THIRD), BLANKS));
    return to + 3 * count;
}

/* Values. Each of these functions adds a space, the text of COUNT octets, and a line feed. */

/* Adds a value in the way of yardstick.c. */
RARE char *add_rare_value(char *to, const octet *at, size_t count, enum kind of) {
    memcpy(held, at, HELD);
    held_count = count;
    kind = of;
    to = stpcpy(add_value(to), "\n");
    held_count = 0;
    return to;
}

RARE char *add_large_integer(char *to, const octet *at, size_t count) {
    const int is_negative = at[0] >> 7;
    wide it = is_negative ? ~(wide)0 : 0;
    for (size_t each = 0; each < count; each++) it = it << 8 | at[each];
    to = stpcpy(to, is_negative ? " -" : " ");
    return stpcpy(add_large(to, is_negative ? -it : it), "\n");
}

ALWAYS_INLINE char *add_usual_integer(char *to, const octet *at, size_t count) {
    int64_t it;
    if (count == 0 || count > 8) return count == 0 ? stpcpy(to, "\n") : add_large_integer(to, at, count);
    memcpy(&it, at, 8);
    it = (int64_t)__builtin_bswap64((number)it) >> (64 - 8 * count);
    const number sign = (number)(it >> 63), size = ((number)it ^ sign) - sign; /* all bits of the sign are 1 or 0 */
    if (__builtin_expect(size >= 10000000000000000, 0)) return add_large_integer(to, at, count);
    memcpy(to, " -", 2);
    to = add_decimal(to + 1 + (sign & 1), size);
    *to = '\n';
    return to + 1;
}

ALWAYS_INLINE char *add_arc(char *to, number it) {
    if (it < SHORT) return (char *)memcpy(to, ARC[it], 4) + ARC_SIZE[it];
    *to = '.';
    return add_decimal(to + 1, it);
}

/* Adds the arcs of an object identifier of which none has more than seven octets. */
ALWAYS_INLINE char *add_usual_arcs(char *to, const octet *at, size_t count) {
    char *const start_of_value = to;
    number arc = 0;
    if (count == 0 || at[count - 1] > 127) return add_rare_value(to, at, count, ARCS);
    *to++ = ' ';
    for (size_t it = 0; it < count; it++) {
        if (arc >> 42) return add_rare_value(start_of_value, at, count, ARCS);
        arc = arc << 7 | (at[it] & 127);
        if (at[it] > 127) continue;
        if (to == start_of_value + 1) { /* it encodes two arcs */
            const number first = arc < 40 ? 0 : arc < 80 ? 1 : 2;
            *to++ = (char)('0' + first);
            arc -= 40 * first;
        }
        to = add_arc(to, arc);
        arc = 0;
    }
    *to = '\n';
    return to + 1;
}

/* Returns a bit for each of 32 octets: 1 if more than a copy is needed to show it as a character. */
ALWAYS_INLINE number not_plain(octets_32 it) {
    const octets_32 is_no_character = _mm256_or_si256(_mm256_cmpgt_epi8(_mm256_set1_epi8(' '), it),
                                                      _mm256_cmpeq_epi8(it, _mm256_set1_epi8(127)));
    const octets_32 is_escaped = _mm256_or_si256(_mm256_cmpeq_epi8(it, _mm256_set1_epi8('"')),
                                                 _mm256_cmpeq_epi8(it, _mm256_set1_epi8('\\')));
    return (uint32_t)_mm256_movemask_epi8(_mm256_or_si256(is_no_character, is_escaped));
}

ALWAYS_INLINE char *add_usual_text(char *to, const octet *at, size_t count, enum kind of) {
    const octets_32 first = load_32(at), second = load_32(at + 32);
    const number all = not_plain(first) | not_plain(second) << 32;
    if (_bzhi_u64(all, (unsigned)count)) return add_rare_value(to, at, count, of);
    memcpy(to, " \"", 2);
    store_32(to + 2, first);
    store_32(to + 34, second);
    memcpy(to + 2 + count, "\"\n", 2);
    return to + count + 4;
}

ALWAYS_INLINE char *add_usual_pairs(char *to, const octet *at, size_t count) {
    *to = ' ';
    to = add_pairs_16(to + 1, at, count);
    to[-1] = '\n';
    return to;
}

/* Writes the output, and returns where it begins again, if there may be no room for more lines. */
ALWAYS_INLINE char *make_room(char *to) {
    if (__builtin_expect(to <= output + PIECE - LINE, 1)) return to;
    output_count = (size_t)(to - output);
    write_output();
    return output;
}

/* Adds rows of pairs. */
static char *add_rows(char *to, const octet *at, number count, size_t column) {
    for (number it = 0; it < count; it += 16) {
        to = add_blanks(make_room(to), column);
        to = add_pairs_16(to, at + it, count - it < 16 ? count - it : 16);
        to[-1] = '\n';
    }
    return to;
}

/* Adds a long value: the rest of its line, and its rows. */
static char *add_long_value(char *to, const octet *at, number count, enum kind of, size_t column) {
    if (of == BITS && *at <= 7) to = stpcpy(add_number(stpcpy(to, " "), 1, 8 * --count - *at++), " bits");
    return add_rows(stpcpy(to, "\n"), at, count, column);
}
