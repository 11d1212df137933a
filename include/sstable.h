/* The C interface of the library. Link crates/sstable/out/libsstable.a (made by `rt lib` in crates/sstable) and, for the calls that take bases
 * and sstable_value, crates/sstable_data/out/libsstable_data.a (made by `rt lib` in crates/sstable_data).
 *
 * Every call is total: it takes any bytes, and either answers or refuses with a number, a slice and a place. A refusal changes
 * no lent byte. Slices are a pointer and a length; a length of 0 goes with any pointer that is not null.
 *
 * An answer is an array of 64-bit words that the caller lends. Its first three are
 *   0  number: 0 where the call was taken, else document 01's number of the refusal
 *   1  slice:  1 statistics, 2 scylla, 3 data, 4 schema, 5 records, 6 bytes, 7 output, 8 bases, 9 state
 *   2  place:  the first byte of the field or record concerned; of 13 the length needed
 * and are 0 where the call was taken; behind a refusal the other words are 0.
 *
 * Numbers: 1 slice over 1,073,741,824 bytes; 2 a field or region passes the end of its region; 3 bytes left over; 4 bad flags,
 * kind, header or mask; 5 number outside its range; 6 item or marker out of turn; 7 not carried, or absent; 8 too many, too
 * deep; 9 named twice, or not in order; 10 bad house record; 11 schemas or keys differ; 12 range marker in a merge; 13 output
 * longer than the buffer. */
#ifndef SSTABLE_H
#define SSTABLE_H

#include <stdbool.h>
#include <stddef.h>
#include <stdint.h>

#ifdef __cplusplus
extern "C" {
#endif

/* The varint at place `at` of `bytes`, before place `end`. Refuses in data: 1 at 0; 2 at `at` where the varint does not lie
 * whole before `end`, or `end` is past the slice.
 * Words: 3 value, 4 the place after the varint. */
void sstable_varint_read(const uint8_t *bytes, size_t bytes_len, size_t at, size_t end, uint64_t answer[5]);

/* The length of the shortest varint of `value`, 1 to 9. */
size_t sstable_varint_len(uint64_t value);

/* Stores the shortest varint of `value` at the start of `out`. Refuses in output: 1 at 0; 13 with the length needed.
 * Words: 3 the length stored. */
void sstable_varint_put(uint8_t *out, size_t out_len, uint64_t value, uint64_t answer[4]);

/* A whole Statistics.db: its contents, validation entry and serialization header. Fills the start of `schema` with the 16-byte
 * schema records (at most 159 of them, 2,544 bytes). Refuses in statistics: 1 at 0, and the file's own; in output: 1 at 0, and
 * after all else 13 with the bytes needed.
 * Words: 3 timestamp base (the 64 bits of the signed number), 4 local deletion time base, 5 TTL base, 6 and 7 place and length of
 * the partitioner's name, 8 the bits of the false-positive chance, 9 clustering, 10 static and 11 regular columns. */
void sstable_statistics_read(const uint8_t *file, size_t file_len, uint8_t *schema, size_t schema_len, uint64_t answer[12]);

/* Checks schema records where names are not read. Refuses in schema: 1 at 0; 10 at the first record that Statistics does not give.
 * Words: 3 clustering, 4 static and 5 regular columns. */
void sstable_schema_check(const uint8_t *schema, size_t schema_len, uint64_t answer[6]);

/* The same, and 10 too where a name's place passes the end of the Statistics beside the schema, of which only the length counts. */
void sstable_schema_check_named(const uint8_t *schema, size_t schema_len, const uint8_t *statistics, size_t statistics_len,
                                uint64_t answer[6]);

/* Whether two schemas are equal in roles, type lines, reversed marks and names; `t` and `u` are the Statistics in which the names of
 * `a` and `b` stand. A name's place that is outside shows no bytes. */
bool sstable_schema_same(const uint8_t *a, size_t a_len, const uint8_t *t, size_t t_len, const uint8_t *b, size_t b_len,
                         const uint8_t *u, size_t u_len);

/* A whole Scylla.db. Refuses in scylla: 1 at 0; 2 at a field that its component or the file cuts, or at a size or length that
 * announces more than is left; 3 at the first byte left over in a component of tag 1 to 4, or after the last component; 4 at an
 * exclusive flag above 1; 7 at a token length that is not 8; 9 at a known tag's second, or at the flag of a token range's bound
 * that is not in order.
 * Words: 3 feature bits, 4 and 5 the high and low half of the run identifier, 6 to 13 offset and length of the bodies of tags 1
 * (sharding metadata), 2 (features), 3 (extension attributes) and 4 (run identifier), behind tag and size; zeros where absent. */
void sstable_scylla_read(const uint8_t *file, size_t file_len, uint64_t answer[14]);

/* Data. The calls below take a table: `schema`, the 16-byte records that sstable_statistics_read stores; `bases`, three words, timestamp
 * base (the 64 bits of the signed number), local deletion time base and TTL base, as words 3 to 5 of sstable_statistics_read's answer
 * hold them; and `data`. They refuse, in this order: 1 at 0 of schema, data and output; 5 at 0 of bases, where a local deletion time or TTL base is
 * above 2147483647; 10 in schema, as sstable_schema_check; then what is wrong with the state or in data.
 *
 * An item is twelve numbers, those of a 64-byte record in its order: kind (1 partition, 2 static row, 3 row, 4 marker, 5 clustering value,
 * 6 cell, 7 end), flags (1 timestamp, 2 TTL, 4 deletion or tombstone, 8 empty key or value), column from 0 or marker kind, TTL,
 * timestamp, mark, its local time, expiry, second mark, second local time, offset, length. Timestamp and marks are the 64 bits of
 * signed numbers. Offset and length show a key or value in data (0, 0 where it is empty, or of a tombstone), or else the whole item. */

/* One step of the walk: the next item of `data`. `state` is the walk's state; sixteen zeros are the start of Data. Where an item is handed
 * out, and only there, the state becomes the one behind it, for the next call. A refusal leaves the state as it was.
 * Words of the answer: 3 to 14 the item; all zeros where none is left.
 * Words of the state: 0 phase (0 a partition is due, 1 its first item, 2 an item, 3 a row's clustering value, 4 a marker's, 5 a static row's
 * cell, 6 a row's), 1 position, 2 column; 3 whether a range is open, 4 its mark, 5 its local time; 6 clustering header, 7 count of clustering
 * values, 8 columns that have a cell (lowest bit the first), 9 place of the first cell, 10 end of the body; of the row in hand 11 whether
 * it has a timestamp, 12 the timestamp, 13 whether it expires, 14 TTL, 15 expiry. A caller may keep states and step from any of them
 * again. Words that hold no state of this schema and data are refused: 10 at 0 of state. */
void sstable_step(const uint8_t *schema, size_t schema_len, const uint64_t bases[3], const uint8_t *data, size_t data_len,
                  uint64_t state[16], uint64_t answer[15]);

/* Where the key or value lies that an item of this kind, offset and length shows, in `data`: kinds 1, 5 and 6 have one.
 * Words (there is no refusal): 0 offset, 1 length; 0, 0 where it is empty, where the kind has none, or where the place is outside data. */
void sstable_value(uint64_t kind, size_t offset, size_t length, const uint8_t *data, size_t data_len, uint64_t answer[2]);

/* How many records the listing of `data` has, or the refusal that it gives. Empty Data has none.
 * Words: 3 the count. */
void sstable_count(const uint8_t *schema, size_t schema_len, const uint64_t bases[3], const uint8_t *data, size_t data_len,
                   uint64_t answer[4]);

/* Lists `data` into the start of `out`: a 64-byte record for each item, in the walk's order. Numbers in it are big-endian: at byte 0 kind, 1 flags,
 * 2 column (one byte each), 4 TTL, 8 timestamp, 16 mark, 24 its local time, 28 expiry, 32 second mark, 40 second local time, 48 offset, 56
 * length; bytes 3 and 44 to 47 are zero. Refuses after all else, in output: 13 with the bytes needed, 64 for each record. Only where it is
 * taken is `out` changed, and then not behind the records.
 * Words: 3 how many records were stored. */
void sstable_list(const uint8_t *schema, size_t schema_len, const uint64_t bases[3], const uint8_t *data, size_t data_len,
                  uint8_t *out, size_t out_len, uint64_t answer[4]);

/* Writes Data from `records`, 64-byte records as `sstable_list` stores them, into the start of `out`; keys and values are the parts of
 * `bytes` that the records show by offset and length. The place of a static row, row, marker or end is not looked at. It takes exactly the
 * record tables that some accepted Data lists as under these bases, places aside; what it writes lists as those records again. Refuses: 1 at 0 of
 * schema, records, bytes, output, in this order; 5 at 0 of bases; 10 in schema; record by record, in records, 10 at the record's first byte and
 * then 5 at a number that is out of range or below its base; 10 at the end of a list that is cut short; last 13 in output with the bytes
 * needed. Only where it is taken is `out` changed, and then not behind the Data.
 * Words: 3 the length of the Data. */
void sstable_write(const uint8_t *schema, size_t schema_len, const uint64_t bases[3], const uint8_t *records, size_t records_len,
                   const uint8_t *bytes, size_t bytes_len, uint8_t *out, size_t out_len, uint64_t answer[4]);

#ifdef __cplusplus
}
#endif

#endif
