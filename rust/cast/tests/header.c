/* Reads, writes and trims files and looks names up through the header, and prints each answer on a line. */

#include "cast.h"

#include <inttypes.h>
#include <stddef.h>
#include <stdio.h>

_Static_assert(offsetof(struct cast_reading, number) == 0, "number is first");
_Static_assert(offsetof(struct cast_reading, place) == 4, "place follows number");
_Static_assert(offsetof(struct cast_reading, nodes) == 8, "nodes follow place");
_Static_assert(offsetof(struct cast_reading, flags) == 12, "flags follow nodes");
_Static_assert(offsetof(struct cast_reading, own_known) == 16, "own_known follows flags");
_Static_assert(offsetof(struct cast_reading, own_unknown) == 20, "own_unknown follows own_known");
_Static_assert(offsetof(struct cast_reading, faces) == 24, "faces follow own_unknown");
_Static_assert(offsetof(struct cast_reading, degenerate) == 28, "degenerate follows faces");
_Static_assert(offsetof(struct cast_reading, links) == 32, "links follow degenerate");
_Static_assert(sizeof(struct cast_reading) == 36, "nothing follows links");

_Static_assert(offsetof(struct cast_found, place) == 4, "place follows number");
_Static_assert(offsetof(struct cast_found, start) == 8, "start follows place");
_Static_assert(sizeof(struct cast_found) == 8 + 2 * sizeof(size_t), "nothing follows end");

_Static_assert(offsetof(struct cast_written, number) == 0, "number is first");
_Static_assert(offsetof(struct cast_written, place) == 4, "place follows number");
_Static_assert(offsetof(struct cast_written, length) == 8, "length follows place");
_Static_assert(sizeof(struct cast_written) == 12, "nothing follows length");

/* A root with a Model and an unknown node. The Model has a Mesh of three vertices and two faces, one of them degenerate,
   with a link to the Material after it. */
static const uint8_t file[] = {
    'c', 'a', 's', 't', 1, 0, 0, 0, 1, 0, 0, 0, 4, 3, 2, 1,
    'r', 'o', 'o', 't', 246, 0, 0, 0, 0, 0, 0, 0, 0, 0, 0, 0, 0, 0, 0, 0, 2, 0, 0, 0,
    'm', 'o', 'd', 'l', 195, 0, 0, 0, 0, 0, 0, 0, 0, 0, 0, 0, 0, 0, 0, 0, 2, 0, 0, 0,
    'm', 'e', 's', 'h', 102, 0, 0, 0, 9, 0, 0, 0, 0, 0, 0, 0, 3, 0, 0, 0, 0, 0, 0, 0,
    0x33, 0x76, 2, 0, 3, 0, 0, 0, 'v', 'p', 0, 0, 0, 0, 0, 0, 0, 0, 0, 0, 0, 0, 0, 0,
    0, 0, 0, 0, 0, 0, 0, 0, 0, 0, 0, 0, 0, 0, 0, 0, 0, 0, 0, 0, 0, 0,
    0x62, 0, 1, 0, 6, 0, 0, 0, 'f', 0, 1, 2, 2, 1, 2,
    0x6C, 0, 1, 0, 1, 0, 0, 0, 'm', 7, 0, 0, 0, 8, 0, 0, 0,
    'm', 'a', 't', 'l', 69, 0, 0, 0, 7, 0, 0, 0, 8, 0, 0, 0, 4, 0, 0, 0, 0, 0, 0, 0,
    0x73, 0, 1, 0, 1, 0, 0, 0, 'n', 0,
    0x73, 0, 1, 0, 1, 0, 0, 0, 't', 'p', 'b', 'r', 0,
    0x62, 0, 1, 0, 2, 0, 0, 0, 'x', 1, 2,
    0x73, 0, 1, 0, 1, 0, 0, 0, 'y', 'z', 0,
    'w', 'a', 'g', 'n', 27, 0, 0, 0, 1, 0, 0, 0, 2, 0, 0, 0, 3, 0, 0, 0, 4, 0, 0, 0, 1, 2, 3,
};

enum { ROOM = 8192, MORE = 8200 };
static uint32_t rows[MORE];

static void fill_table(void)
{
    for (size_t i = 0; i < MORE; i++)
        rows[i] = 0xA5A5A5A5;
}

/* Prints how many numbers of the table are zero, and how many are as they were. */
static void print_table(void)
{
    size_t zero = 0, kept = 0;
    for (size_t i = 0; i < MORE; i++) {
        zero += rows[i] == 0;
        kept += rows[i] == 0xA5A5A5A5;
    }
    printf(" table %zu %zu", zero, kept);
}

/* Prints the answer, and what the table then is. */
static void read_file(size_t len, size_t table_len)
{
    fill_table();
    struct cast_reading r = cast_read(file, len, rows, table_len);
    printf("%" PRIu32 " %" PRIu32 " %" PRIu32 " %" PRIu32 " %" PRIu32 " %" PRIu32 " %" PRIu32 " %" PRIu32 " %" PRIu32,
           r.number, r.place, r.nodes, r.flags, r.own_known, r.own_unknown, r.faces, r.degenerate, r.links);
    print_table();
    printf("\n");
}

static void print_row(size_t row)
{
    for (size_t i = 0; i < 8; i++)
        printf(i < 7 ? "%" PRIu32 " " : "%" PRIu32 "\n", rows[8 * row + i]);
}

static uint8_t out[sizeof file + 8];

static void fill_output(void)
{
    for (size_t i = 0; i < sizeof out; i++)
        out[i] = 0xA5;
}

static void print_written(struct cast_written w)
{
    printf("%" PRIu32 " %" PRIu32 " %" PRIu32, w.number, w.place, w.length);
}

/* Prints how many bytes at the output's start are the file's, and how many at its end are as they were. */
static void print_output(void)
{
    size_t same = 0, kept = 0;
    while (same < sizeof file && out[same] == file[same])
        same++;
    while (kept < sizeof out && out[sizeof out - 1 - kept] == 0xA5)
        kept++;
    printf(" output %zu %zu\n", same, kept);
}

/* Writes numbers of the table that was read last. Prints the answer, and what the output then is. */
static void write_file(size_t plan_len, size_t source_len, size_t out_len)
{
    fill_output();
    print_written(cast_write(rows, plan_len, file, source_len, 0x01020304, out, out_len));
    print_output();
}

/* Prints the answer, and what the table and the output then are. */
static void trim_file(size_t len, size_t row, size_t table_len, size_t out_len)
{
    fill_table();
    fill_output();
    print_written(cast_trim(file, len, row, rows, table_len, out, out_len));
    print_table();
    print_output();
}

/* Two properties named n: the string ab, then the byte 7. */
static const uint8_t bytes[] = {0xEE, 0x73, 0, 1, 0, 1, 0, 0, 0, 'n', 'a', 'b', 0, 0x62, 0, 1, 0, 1, 0, 0, 0, 'n', 7};
/* A row with both, and one that has them as a single property. */
static const uint32_t table[] = {0, 0, 0, 0, 1, sizeof bytes, 2, 0, 0, 0, 0, 0, 1, sizeof bytes, 1, 0};

static void ask(size_t len, size_t table_len, size_t row, const char *name, size_t name_len)
{
    struct cast_found found = cast_lookup(bytes, len, table, table_len, row, (const uint8_t *)name, name_len);
    printf("%" PRIu32 " %" PRIu32 " %zu %zu\n", found.number, found.place, found.start, found.end);
}

int main(void)
{
    read_file(sizeof file, ROOM - 1);
    read_file(0, ROOM);
    read_file(sizeof file - 1, MORE);
    read_file(sizeof file, ROOM);
    for (size_t row = 0; row < 5; row++)
        print_row(row);

    write_file(40, sizeof file, sizeof file);
    write_file(40, sizeof file, sizeof out);
    write_file(40, sizeof file, sizeof file - 1);
    write_file(40, sizeof file - 1, sizeof out);
    write_file(39, sizeof file, sizeof out);
    write_file(32, sizeof file, sizeof out);
    write_file(ROOM, sizeof file, sizeof out);
    write_file(MORE, sizeof file, sizeof out);
    write_file(0, 0, sizeof out);
    write_file(0, 0, 0);

    trim_file(sizeof file, 4, ROOM - 1, sizeof out);
    trim_file(sizeof file - 1, 4, ROOM, sizeof out);
    trim_file(0, SIZE_MAX, MORE, 0);
    trim_file(sizeof file, 5, ROOM, 0);
    trim_file(sizeof file, SIZE_MAX, MORE, sizeof out);
    trim_file(sizeof file, 3, MORE, sizeof out);
    trim_file(sizeof file, 4, MORE, sizeof file - 28);
    trim_file(sizeof file, 4, ROOM, sizeof file - 27);
    trim_file(sizeof file, 4, MORE, sizeof out);
    for (size_t row = 0; row < 5; row++)
        print_row(row);
    /* The root's size and child count, and how many bytes of the new file are not the old one's. */
    size_t changed = 0;
    for (size_t i = 0; i < sizeof file - 27; i++)
        changed += out[i] != file[i];
    printf("%d %d %zu\n", out[20], out[36], changed);

    ask(sizeof bytes, 8, 0, "n", 1);
    ask(sizeof bytes, 7, 0, "n", 1);
    ask(sizeof bytes, 8, SIZE_MAX, "n", 1);
    ask(0, 8, 0, "n", 1);
    ask(sizeof bytes - 1, 8, 0, "n", 1);
    ask(sizeof bytes, 16, 1, "n", 1);
    ask(sizeof bytes, 8, 0, "m", 1);
    ask(sizeof bytes, 8, 0, "n", 0);
    return 0;
}
