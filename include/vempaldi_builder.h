/* Vempaldi: a builder of loop tables (docs/TABLE.md says what their bytes are). Header only: no library is needed to build a table.
 *
 *     struct vempaldi_builder b;
 *     vempaldi_builder_start(&b);
 *     int64_t from = vempaldi_builder_array(&b, 12);
 *     int64_t to = vempaldi_builder_array(&b, 12);
 *     vempaldi_builder_open_loop(&b, 1, 10, to, 0);          // for i = 1 to 10: to[i] =
 *     vempaldi_builder_read(&b, from, -1);                   //     from[i-1]
 *     vempaldi_builder_read(&b, from, 1);                    //     from[i+1]
 *     vempaldi_builder_operation(&b, VEMPALDI_ADD);          //     +
 *     if (vempaldi_builder_end(&b) == VEMPALDI_BUILT)
 *         vempaldi_check(b.bytes, b.length, answer);
 *
 * The builder writes what it is told, a record a call, and nothing else: whether arrays come before loops, whether a body leaves one number
 * and whether an index is inside its array is for vempaldi_check to say. Two things alone are errors here: a number that its field
 * cannot hold, and a record that there is no room for. The first error stays in `error`, and from then on nothing more is written;
 * `records` is then the number, counted from 0, of the record that could not be written. There is no allocation; a builder may be copied.
 */
#ifndef VEMPALDI_BUILDER_H
#define VEMPALDI_BUILDER_H

#include "vempaldi.h"

/* The kinds of records. */
enum vempaldi_record {
    VEMPALDI_RECORD_ARRAY = 1,
    VEMPALDI_RECORD_LOOP = 2,
    VEMPALDI_RECORD_READ = 3,
    VEMPALDI_RECORD_CONSTANT = 4,
    VEMPALDI_RECORD_OPERATION = 5,
    VEMPALDI_RECORD_END = 6,
    VEMPALDI_RECORD_STATEMENT = 7
};

/* The operations of a body. All but negate take two waiting numbers, the later one being the right operand. */
enum vempaldi_operation {
    VEMPALDI_ADD = 1,
    VEMPALDI_SUBTRACT = 2,
    VEMPALDI_MULTIPLY = 3,
    VEMPALDI_DIVIDE = 4,
    VEMPALDI_NEGATE = 5
};

enum vempaldi_builder_error {
    VEMPALDI_BUILT = 0,
    VEMPALDI_NO_FIELD = 1, /* a number that its field cannot hold */
    VEMPALDI_NO_ROOM = 2   /* a record too many for the room: the table would be refused, and vempaldi_check of the bytes says with what */
};

/* The room, 2,375 bytes: the bytes that decide, and the rest of the longest record that begins at the last of them. Every accepted table
 * fits. Where a record does not, the bytes that decide are all there, so the library's answer is that of the whole table. */
enum { VEMPALDI_BUILDER_BYTES = VEMPALDI_DECIDING_BYTES + 11 };

struct vempaldi_builder {
    uint8_t bytes[VEMPALDI_BUILDER_BYTES];
    size_t length;   /* how many of the bytes are written */
    size_t records;  /* how many records they are */
    int64_t arrays;  /* how many arrays were asked for: the next one's number */
    enum vempaldi_builder_error error;
};

/* Begins an empty table. The first call on every builder. */
static inline void vempaldi_builder_start(struct vempaldi_builder *builder)
{
    builder->length = 0;
    builder->records = 0;
    builder->arrays = 0;
    builder->error = VEMPALDI_BUILT;
}

/* Used by the calls below: whether a number is in its field's range; if not, that is the error, unless there was one before. */
static inline int vempaldi_builder_fits(struct vempaldi_builder *builder, int64_t number, int64_t least, int64_t most)
{
    if (builder->error == VEMPALDI_BUILT && (number < least || number > most))
        builder->error = VEMPALDI_NO_FIELD;
    return builder->error == VEMPALDI_BUILT;
}

/* Used by the calls below: writes a number, the lowest byte first, and gives the place behind it. A negative one is two's complement. */
static inline uint8_t *vempaldi_builder_put(uint8_t *at, int64_t number, int bytes)
{
    uint64_t rest = (uint64_t)number;
    for (; bytes > 0; bytes--, rest >>= 8)
        *at++ = (uint8_t)(rest & 255u);
    return at;
}

/* Used by the calls below: writes a record's kind byte and gives the place of its body, or a null pointer after an error or where there is
 * no room for all of the record. */
static inline uint8_t *vempaldi_builder_record(struct vempaldi_builder *builder, enum vempaldi_record kind)
{
    static const uint8_t body_lengths[] = VEMPALDI_BODY_LENGTHS;
    size_t length = (size_t)1 + body_lengths[kind];
    uint8_t *at = builder->bytes + builder->length;
    if (builder->error == VEMPALDI_BUILT && length > VEMPALDI_BUILDER_BYTES - builder->length)
        builder->error = VEMPALDI_NO_ROOM;
    if (builder->error != VEMPALDI_BUILT)
        return NULL;
    builder->length += length;
    builder->records += 1;
    return vempaldi_builder_put(at, kind, 1);
}

/* Used by the calls below: whether an array's number and an offset fit their fields. */
static inline int vempaldi_builder_refers(struct vempaldi_builder *builder, int64_t array, int64_t offset)
{
    return vempaldi_builder_fits(builder, array, 0, 255) && vempaldi_builder_fits(builder, offset, -32768, 32767);
}

/* Used by the calls below: a record with one unsigned field of so many bytes. */
static inline void vempaldi_builder_one_field(struct vempaldi_builder *builder, enum vempaldi_record kind, int64_t number, int bytes)
{
    uint8_t *body;
    if (!vempaldi_builder_fits(builder, number, 0, ((int64_t)1 << (8 * bytes)) - 1))
        return;
    body = vempaldi_builder_record(builder, kind);
    if (body != NULL)
        vempaldi_builder_put(body, number, bytes);
}

/* An array of `length` elements. Gives its number, by which loops and reads name it: 0 for the first, and so on. */
static inline int64_t vempaldi_builder_array(struct vempaldi_builder *builder, int64_t length)
{
    vempaldi_builder_one_field(builder, VEMPALDI_RECORD_ARRAY, length, 4);
    return builder->arrays++;
}

/* Opens a loop: i goes from `first` to `last`, and element i + `offset` of the array `destination` is stored. The items of its body follow;
 * a further statement, the next loop or the end closes it. */
static inline void vempaldi_builder_open_loop(struct vempaldi_builder *builder, int64_t first, int64_t last, int64_t destination,
                                              int64_t offset)
{
    uint8_t *body;
    if (!vempaldi_builder_fits(builder, first, 0, 4294967295) || !vempaldi_builder_fits(builder, last, 0, 4294967295))
        return;
    if (!vempaldi_builder_refers(builder, destination, offset))
        return;
    body = vempaldi_builder_record(builder, VEMPALDI_RECORD_LOOP);
    if (body == NULL)
        return;
    body = vempaldi_builder_put(body, first, 4);
    body = vempaldi_builder_put(body, last, 4);
    body = vempaldi_builder_put(body, destination, 1);
    vempaldi_builder_put(body, offset, 2);
}

/* Used by the two calls below: a record whose fields are an array's number and an offset. */
static inline void vempaldi_builder_reference(struct vempaldi_builder *builder, enum vempaldi_record kind, int64_t array, int64_t offset)
{
    uint8_t *body;
    if (!vempaldi_builder_refers(builder, array, offset))
        return;
    body = vempaldi_builder_record(builder, kind);
    if (body == NULL)
        return;
    body = vempaldi_builder_put(body, array, 1);
    vempaldi_builder_put(body, offset, 2);
}

/* Opens a further statement of the loop, behind a finished body: in the same iteration, element i + `offset` of `array` is stored next. The
 * items of its own body follow. A loop has up to four statements, that of vempaldi_builder_open_loop among them. */
static inline void vempaldi_builder_statement(struct vempaldi_builder *builder, int64_t array, int64_t offset)
{
    vempaldi_builder_reference(builder, VEMPALDI_RECORD_STATEMENT, array, offset);
}

/* An item: element i + `offset` of an array. */
static inline void vempaldi_builder_read(struct vempaldi_builder *builder, int64_t array, int64_t offset)
{
    vempaldi_builder_reference(builder, VEMPALDI_RECORD_READ, array, offset);
}

/* An item: a whole number, 0 to 4,294,967,295. */
static inline void vempaldi_builder_constant(struct vempaldi_builder *builder, int64_t value)
{
    vempaldi_builder_one_field(builder, VEMPALDI_RECORD_CONSTANT, value, 4);
}

/* An item: an operation, one of enum vempaldi_operation. */
static inline void vempaldi_builder_operation(struct vempaldi_builder *builder, int64_t operation)
{
    vempaldi_builder_one_field(builder, VEMPALDI_RECORD_OPERATION, operation, 1);
}

/* The end record. Gives the first error of all calls: with VEMPALDI_BUILT, the table is the first `length` of `bytes`. (Calls behind it go on
 * writing, and the library refuses that with 8; vempaldi_builder_start begins another table.) */
static inline enum vempaldi_builder_error vempaldi_builder_end(struct vempaldi_builder *builder)
{
    vempaldi_builder_record(builder, VEMPALDI_RECORD_END);
    return builder->error;
}

#endif
