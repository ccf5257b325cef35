/* The fast yardstick: the dumper of yardstick.c, tuned by hand. Speeds are measured relative to its as well.

   usage: fast_yardstick <INPUT       writes the dump of INPUT
          fast_yardstick w <INPUT     walks INPUT in the same way, and writes nothing

   It includes yardstick.c, writes the same text, and has the same statuses. An element is *usual* if its header has at
   most six octets, and all its octets are at hand. Such an element is taken at once: its lines are made at their place in
   the output, from tables, and by vectors of 16 and 32 octets. All others go the way of yardstick.c, octet by octet. Each
   read and write is of about 64 KB.

   This file has the walk, fast_lines.h what is written. The processor needs AVX2 and BMI2. */
#define FAST
#define PIECE 65536
#include "yardstick.c"
#include "fast_lines.h"

/* Where the walk is while usual elements are taken. The compiler keeps this in registers. */
struct place {
    const octet *at;
    char *to;
    number offset, bound;
    size_t depth;
};

struct header {
    octet first;
    int is_indefinite;
    number tag, size, length; /* the size of the header */
};

/* Reads a header. Returns 0 if it is not usual. */
ALWAYS_INLINE int read_header(const octet *at, struct header *it) {
    it->first = at[0];
    it->size = 1;
    it->tag = at[0] & 31;
    it->is_indefinite = 0;
    if (it->tag == 31) {
        const int has_two = at[1] >> 7;
        it->tag = has_two ? (number)(at[1] & 127) << 7 | at[2] : at[1];
        it->size = (number)(2 + has_two);
        if (at[0] < 64 || (has_two && at[2] > 127)) return 0;
    }
    at += it->size++;
    it->length = at[0];
    if (at[0] < 128) return 1;
    if (at[0] == 0x80) {
        it->is_indefinite = 1;
        it->length = 0;
        return it->first & 32;
    }
    it->length = at[0] == 0x81 ? at[1] : (number)(at[1] << 8 | at[2]);
    it->size += at[0] & 3;
    return at[0] <= 0x82;
}

/* Adds a tag in the high form, which is not universal. */
ALWAYS_INLINE char *add_high_tag(char *to, const struct header *it) {
    static const char CLASS[4][16] = {"", "[APPLICATION ", "[", "[PRIVATE "};
    static const octet CLASS_SIZE[] = {0, 13, 1, 9};
    memcpy(to, CLASS[it->first >> 6], 16);
    to += CLASS_SIZE[it->first >> 6];
    if (it->tag < SHORT) {
        memcpy(to, ARC[it->tag] + 1, 4);
        to += ARC_SIZE[it->tag] - 1;
    } else {
        to = add_decimal(to, it->tag);
    }
    if (it->first & 32) return stpcpy(to, "] {\n");
    *to = ']';
    return to + 1;
}

/* Returns the column of a length below 65536. */
ALWAYS_INLINE const char *length_column(number it) {
    static char column[16];
    if (it < SHORT) return LENGTH_COLUMN[it];
    stpcpy(add_number(column, 6, it), ": ");
    return column;
}

/* Adds the line of an element up to the tag, and all of it if the element is constructed. */
ALWAYS_INLINE char *add_usual_front(char *to, const struct place *now, const struct header *it, const char *column) {
    to = add_offset(to, now->offset, column);
    to = add_blanks(to, 2 * now->depth);
    if ((it->first & 31) == 31) return add_high_tag(to, it);
    memcpy(to, TAG[it->first], 32);
    return to + TAG_SIZE[it->first];
}

/* Adds the rest of the line of a primitive, and its rows. Nothing but a long text is in the way of yardstick.c. */
ALWAYS_INLINE char *add_contents(char *to, const octet *at, number count, enum kind of, size_t column) {
    if (__builtin_expect(count > MOST[of], 0)) return add_long_value(to, at, count, of, column);
    switch (of) {
    case PAIRS: return add_usual_pairs(to, at, count);
    case INTEGER: return add_usual_integer(to, at, count);
    case ARCS: return add_usual_arcs(to, at, count);
    case TEXT:
    case UTF8: return add_usual_text(to, at, count, of);
    default: return add_rare_value(to, at, count, of);
    }
}

ALWAYS_INLINE char *add_closing(char *to, size_t level) {
    to = add_blanks(to, 2 * level);
    memcpy(to, "}\n", 2);
    return to + 2;
}

/* Takes a usual element, only the header if it is constructed. Returns 0 if it is not usual. */
ALWAYS_INLINE int take_element(struct place *now, const octet *end, const int writes) {
    struct header it;
    if (!read_header(now->at, &it)) return 0;
    const number size = it.size + it.length;
    const octet *contents = now->at + it.size;
    if (size > now->bound - now->offset) return 0;
    if (it.first & 32) {
        if (it.size > (number)(end - now->at) || now->depth == DEEPEST) return 0;
        const char *const column = it.is_indefinite ? LENGTH_COLUMN[INDEFINITE] : length_column(it.length);
        if (writes) now->to = add_usual_front(now->to, now, &it, column);
        if (!it.is_indefinite) now->bound = now->offset + size;
        now->depth++;
        bound[now->depth] = now->bound;
        ends_by_zeros[now->depth] = (char)it.is_indefinite;
        now->at = contents;
        now->offset += it.size;
        return 1;
    }
    if (size > (number)(end - now->at)) return 0;
    if (writes) {
        const enum kind of = (it.first & 31) == 31 ? PAIRS : TAG_KIND[it.first];
        if (of >= TEXT && it.length > HELD) return 0;
        char *const to = add_usual_front(now->to, now, &it, length_column(it.length));
        now->to = add_contents(to, contents, it.length, of, 19 + 2 * now->depth);
    }
    now->at += size;
    now->offset += size;
    return 1;
}

/* Takes end-of-contents octets. Returns 0 if they are not usual. */
ALWAYS_INLINE int take_end(struct place *now, const octet *end, const int writes) {
    if (end - now->at < 2 || now->at[1] || !ends_by_zeros[now->depth] || now->bound - now->offset < 2) return 0;
    now->depth--;
    if (writes) now->to = add_closing(add_offset(now->to, now->offset, LENGTH_COLUMN[END_OF_CONTENTS]), now->depth);
    now->bound = bound[now->depth];
    now->at += 2;
    now->offset += 2;
    return 1;
}

/* Takes elements as long as they are usual. Returns where the first that is not begins. */
ALWAYS_INLINE const octet *take_usual(const octet *at, const octet *end, const int writes) {
    struct place now = {at, output + output_count, offset, bound[depth], depth};
    while (now.at < end) {
        if (writes) now.to = make_room(now.to);
        if (!(*now.at ? take_element(&now, end, writes) : take_end(&now, end, writes))) break;
        while (now.offset == now.bound && !ends_by_zeros[now.depth]) {
            now.depth--;
            now.bound = bound[now.depth];
            if (writes) now.to = add_closing(add_blanks(make_room(now.to), 17), now.depth);
        }
    }
    offset = now.offset;
    depth = now.depth;
    output_count = (size_t)(now.to - output);
    return now.at;
}

ALWAYS_INLINE number least(number one, number other) { return one < other ? one : other; }

/* Writes whole rows of a long value. What is left of the value goes the way of yardstick.c. */
static const octet *take_rows(const octet *at, const octet *end) {
    const number count = (least(left, (number)(end - at)) - 1) / 16 * 16;
    char *const to = add_rows(output + output_count, at, count, 19 + 2 * depth);
    output_count = (size_t)(to - output);
    offset += count;
    left -= count;
    return at + count;
}

/* Returns how many octets go the way of yardstick.c next: one of a header, or contents up to the end of a row. */
static number plain_count(number here) {
    if (stage != CONTENTS || left == length) return 1;
    return least(least(left, here), held_count && kind < TEXT ? 16 - held_count % 16 : left);
}

/* Takes a piece of the input. Returns 0 if an octet of it is refused. In main, which runs once, GCC would save space, not
   time, so this function is not to be a part of main. */
__attribute__((noinline, hot)) static int take_fast_piece(const octet *at, const octet *end, int writes) {
    while (at < end) {
        if (stage == IDENTIFIER) at = writes ? take_usual(at, end, 1) : take_usual(at, end, 0);
        else if (stage == CONTENTS && writes && left < length && kind < TEXT && !held_count) at = take_rows(at, end);
        if (at == end) break;
        const number count = plain_count((number)(end - at));
        if (!take_piece(at, at + count, writes)) return 0;
        at += count;
    }
    return 1;
}

int main(int count, char **words) {
    fill_fast_tables();
    return take_input(take_fast_piece, count < 2 || words[1][0] != 'w');
}
