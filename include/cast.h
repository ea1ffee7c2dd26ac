/*
 * Reader, writer and trimmer of Cast model files.
 *
 * Every function answers for any contents of its buffers and any numbers. Of a buffer it takes for granted what C does of
 * an array: that its bytes can be read, are fewer than 2^63, and lie aligned for their type. A pointer with length 0 must
 * not be null, but may be any other that is aligned. A buffer that is written must overlap no other.
 */
#ifndef CAST_H
#define CAST_H

#include <stddef.h>
#include <stdint.h>

#ifdef __cplusplus
extern "C" {
#endif

/*
 * What a reading answers. The number is 0 where the file is accepted; else it is the first that holds of
 *
 *    1  the table is shorter than 8,192 numbers
 *    2  the file is over 16,777,216 bytes
 *    3  the file is under 16 bytes or does not start with "cast"
 *    4  the version is not 1
 *    5  a node's header or size does not fit what is around it
 *    6  a kind stands where it may not
 *    7  there is a 1,025th node
 *    8  a node is deeper than 8; no file gets there, as no known kind may stand so deep
 *    9  a known node has over 64 properties
 *   10  a property passes its node's end
 *   11  a type code, a name or a string's array length is wrong
 *   12  bytes follow the last child of a known node, or the last root
 *   13  a name is on a node twice, or a listed one has another type or length
 *   14  a required property, or a partner, is missing
 *   15  another rule of a listed property is broken
 *   16  a link reaches no node
 *   17  a link reaches two nodes or more
 *
 * and the place is where in the file that is found: 0 for 1 to 3, 4 for 4, the node's header for 5 to 9 and 14, the first
 * such byte for 12, else the property's header. On refusal all other numbers are 0.
 *
 * Own bytes are those of the nodes themselves, not of their children; with the 16 of the file's header they are the whole
 * file. Faces include the degenerate ones. Links are counted one per property.
 */
struct cast_reading {
    uint32_t number, place, nodes, flags, own_known, own_unknown, faces, degenerate, links;
};

/*
 * Reads a file into the table: a row of eight numbers for each node, in the order of their headers. The lengths count
 * bytes and numbers. After a reading the first 8,192 numbers of the table are
 *
 *   on 0          the rows of the file's nodes, then zeros
 *   on 1          what they were, and so is the whole table
 *   on 2 to 17    zeros
 *
 * Numbers past 8,192 never change. What the table held before does not matter.
 */
struct cast_reading cast_read(const uint8_t *file, size_t file_len, uint32_t *table, size_t table_len);

/*
 * What a lookup answers. The number is one of
 *
 *    0  found
 *   40  the row is not wholly in the table
 *   41  the row's body ends before its start or past the bytes
 *   42  the row's body is not exactly its count of properties, or they are over 64
 *   43  no property of the row has the name
 *
 * The place is always 0. The data is bytes[start..end), a string's with its zero byte; both are 0 on refusal.
 */
struct cast_found {
    uint32_t number, place;
    size_t start, end;
};

/*
 * Finds a property of a row by its name, the first of equal ones. Bytes and table may be any: they need not have been
 * read, and the row's kind does not matter. A row has eight numbers in the table: kind, hash low, hash high, parent row,
 * body start, body end, property count, child count. The lengths count bytes, numbers and bytes. Nothing is written.
 */
struct cast_found cast_lookup(const uint8_t *bytes, size_t len, const uint32_t *table, size_t table_len,
                              size_t row, const uint8_t *name, size_t name_len);

/*
 * What a writing or a trimming answers. The number is 0 where a file is written. Else it is, of a writing, the first that
 * holds of
 *
 *   20  the plan's length is not a multiple of 8, or the plan has over 1,024 rows
 *   21  a row's parent is wrong
 *   22  a row's body ends before its start or past the source
 *   23  a known row's body is not exactly its count of properties, or they are over 64
 *   24  a known row's child count is not the number of rows that name it as their parent
 *   25  the file is over 16,777,216 bytes
 *   26  the output is shorter than the file
 *
 * where 21 to 24 are judged for one row before the next, and the place is the row for these, else 0. Of a trimming it is
 * that of the file's reading, 1 to 17, with its place, or where that is accepted the first that holds of
 *
 *   30  the file has no such row
 *   31  the row's kind is known
 *   32  the output is shorter than the new file
 *
 * with the place 0. The length is that of the file that is written, and 0 on refusal.
 */
struct cast_written {
    uint32_t number, place, length;
};

/*
 * Writes the rows of a plan, with their bodies out of the source, as a file at the output's start. The lengths count
 * numbers, bytes and bytes. The plan's length is the number of its rows times 8: of a table that a file was read into, the
 * rows of its nodes are a plan, without the zeros after them.
 *
 * A row has eight numbers: kind, hash low, hash high, parent row, body start, body end, property count, child count. The
 * parent is 4,294,967,295, which is none, exactly for a Root; of any other row it is an earlier row of a known kind: the
 * previous row, or an ancestor of that. So the first row is a Root. Bodies lie anywhere in the source, and may overlap.
 * Sizes and the root count are computed, never taken from the plan; an unknown row's counts are written as they are. Where
 * a kind may stand, and what a property holds, is not judged.
 *
 * On success the output past the length is what it was, on refusal the whole output.
 */
struct cast_written cast_write(const uint32_t *plan, size_t plan_len, const uint8_t *source, size_t source_len,
                               uint32_t flags, uint8_t *out, size_t out_len);

/*
 * Takes one node of an unknown kind out of a file: writes the new file at the output's start, and its rows into the table.
 * Rows count from 0, in the order in which a reading puts them. The lengths count bytes, numbers and bytes. In the new file
 * the sizes of the nodes around the removed one are less by its size, and its parent's child count is less by one; nothing
 * else changes. After a trimming the first 8,192 numbers of the table are
 *
 *   on 0                       the rows of the new file's nodes, then zeros
 *   on 1                       what they were, and so is the whole table
 *   on 2 to 17 and 30 to 32    zeros
 *
 * Numbers past 8,192 never change. What the table held before does not matter. On success the output past the length is
 * what it was, on refusal the whole output.
 */
struct cast_written cast_trim(const uint8_t *file, size_t file_len, size_t row, uint32_t *table, size_t table_len,
                              uint8_t *out, size_t out_len);

#ifdef __cplusplus
}
#endif

#endif
