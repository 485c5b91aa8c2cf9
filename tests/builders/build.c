/* Makes the calls of a script with the C builder. A line of the script is a call with its numbers; for each table, which begins at the first
 * line or behind an `end`, one line is printed: the error, the count of records, the count of bytes and, behind an x, the bytes in hexadecimal. */
#include "vempaldi_builder.h"

#include <inttypes.h>
#include <stdio.h>
#include <stdlib.h>
#include <string.h>

/* The builder lies between guard bytes; they, and its bytes past the table's length, are to stay as they are. */
enum { GUARD = 0xa5 };
static struct {
    uint8_t before[64];
    struct vempaldi_builder builder;
    uint8_t after[64];
} lent;
static struct vempaldi_builder *const builder = &lent.builder;

static void fail(const char *what)
{
    fprintf(stderr, "build: %s\n", what);
    exit(1);
}

static void start_table(void)
{
    memset(&lent, GUARD, sizeof lent);
    vempaldi_builder_start(builder);
}

static void guarded(const uint8_t *bytes, size_t count)
{
    while (count-- > 0)
        if (*bytes++ != GUARD)
            fail("a byte is written that is none of the table's");
}

static void print_table(void)
{
    size_t at;
    printf("%d %lu %lu x", (int)builder->error, (unsigned long)builder->records, (unsigned long)builder->length);
    for (at = 0; at < builder->length; at++)
        printf("%02x", builder->bytes[at]);
    printf("\n");
}

static void end_table(void)
{
    if (vempaldi_builder_end(builder) != builder->error)
        fail("end gives another error than the builder has");
    guarded(lent.before, sizeof lent.before);
    guarded(lent.after, sizeof lent.after);
    guarded(builder->bytes + builder->length, sizeof builder->bytes - builder->length);
    print_table();
    start_table();
}

static void call(const char *name, const int64_t *n)
{
    int64_t next = builder->arrays;
    if (strcmp(name, "array") == 0) {
        if (vempaldi_builder_array(builder, n[0]) != next)
            fail("an array's number is not the next");
    } else if (strcmp(name, "loop") == 0) {
        vempaldi_builder_open_loop(builder, n[0], n[1], n[2], n[3]);
    } else if (strcmp(name, "statement") == 0) {
        vempaldi_builder_statement(builder, n[0], n[1]);
    } else if (strcmp(name, "read") == 0) {
        vempaldi_builder_read(builder, n[0], n[1]);
    } else if (strcmp(name, "constant") == 0) {
        vempaldi_builder_constant(builder, n[0]);
    } else if (strcmp(name, "operation") == 0) {
        vempaldi_builder_operation(builder, n[0]);
    } else if (strcmp(name, "end") == 0) {
        end_table();
    } else {
        fail("a line that is no call");
    }
}

int main(void)
{
    char line[200], name[20];
    start_table();
    while (fgets(line, sizeof line, stdin) != NULL) {
        int64_t n[4] = { 0, 0, 0, 0 };
        if (sscanf(line, "%19s %" SCNd64 " %" SCNd64 " %" SCNd64 " %" SCNd64, name, &n[0], &n[1], &n[2], &n[3]) >= 1)
            call(name, n);
    }
    return 0;
}
