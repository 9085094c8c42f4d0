/* Lutemarble: reads chip data files and register readings, and names the active error bits.
 *
 * The calls of crates/abi/out/libabi.a, which `rt lib --cpu x86-64` in crates/abi proves and writes, for C and C++ on x86-64
 * Linux. docs/FORMAT.md says what the files, the refusals and the list are.
 *
 * What holds of every call:
 *
 * Input     Any bytes may be lent as a file, as readings, as records or as a list, of any length, and any numbers as
 *           lengths of slots: no call has a precondition on their content, and each checks the file itself.
 * Buffers   A buffer is a pointer and the number of its elements, in this order. The pointer is valid for that many
 *           elements and aligned for them. With length 0 it may be NULL; nothing is read or written through it.
 * Overlap   A buffer that a call writes (list, text, out, the file of write, the records of read) overlaps no other
 *           buffer of the call. Buffers that are only read may overlap each other or be the same.
 * Threads   The calls keep nothing between them and share nothing: any number of threads may call at the same time, on
 *           the same inputs too, as long as nobody writes a buffer that a running call was lent, and nobody reads one
 *           that it writes.
 * Memory    No call allocates, opens, prints, waits, sets errno or raises a signal. All its working memory is on the
 *           stack of the caller's thread: see LUTEMARBLE_..._STACK below.
 * Answer    Of the six calls with an `out`: it gets numbers, the first being the refusal number (0: not refused) and the
 *           second its place. An `out` with fewer places than the call's number of them keeps what it has; one with more
 *           keeps the rest. The refusal number is also returned, so that a caller who lends no `out` learns it. It is 0,
 *           one of 1 to 20, 40 or 41: the library's own number 43, for its tables, is never answered here.
 *
 * Stack     A thread whose stack is too small dies (SIGSEGV) at the guard page below it, and where it has none, what lies
 *           below is overwritten. No call tests for it and no proof speaks of it. The constants are what each call needs
 *           at most: measured on the largest inputs (examples/compare measures again), and a quarter or more on top. How
 *           much a call uses goes by the file: a small one needs small tables. The caller's own frames and the thread's
 *           own needs, some KB, are not in them. By default a program's first thread and the threads of glibc have 8 MB,
 *           those of Rust's std::thread 2 MB, which leaves some 500 KB for all other frames where the largest files are
 *           written, and those of musl 128 KB, which is enough for small files alone.
 */
#ifndef LUTEMARBLE_H
#define LUTEMARBLE_H

#include <stddef.h>
#include <stdint.h>

#ifdef __cplusplus
extern "C" {
#endif

/* The limits of a chip data file for check, address, isolate, each slot of board, write and read: bytes, register
 * instances, node instances. A longer file is refused by 1, and one with more instances by 8. */
#define LUTEMARBLE_FILE_BYTES 1048576
#define LUTEMARBLE_REGISTER_INSTANCES 8192
#define LUTEMARBLE_NODE_INSTANCES 1024

/* Those for report, which are the station's own and lower: it refuses by 1 and 8 there. */
#define LUTEMARBLE_REPORT_FILE_BYTES 65536
#define LUTEMARBLE_REPORT_REGISTER_INSTANCES 1024
#define LUTEMARBLE_REPORT_NODE_INSTANCES 256

/* The bytes of one record of a readings file, and of the longest readings file that can fit: a record for each register
 * instance of the largest file that report takes. */
#define LUTEMARBLE_READING_BYTES 16
#define LUTEMARBLE_READINGS_BYTES 16384

/* The bytes of one record of a list:
 *
 *     0  model/level of the chip data file (4, big-endian)
 *     4  attention type
 *     5  bit
 *     6  node ID (2, big-endian)
 *     8  instance
 *     9  slot (0 in isolate)
 *    10  six zeros
 *
 * And those of a list that has room for every answer of isolate: 64 bits of each of 1,024 node instances. */
#define LUTEMARBLE_RECORD_BYTES 16
#define LUTEMARBLE_LIST_BYTES 1048576

/* The most slots of a board, and the bytes of a list that has room for every answer of board: as many records for each. */
#define LUTEMARBLE_SLOTS 16
#define LUTEMARBLE_BOARD_LIST_BYTES 16777216

/* The bytes of one record of a chip data file, which docs/RECORDS.md has: one for each register, register instance, node,
 * node instance, capture, rule, expression, child and root, in the file's order. The records of a file have at most so
 * many times its bytes, since each stands for one of them or more. */
#define LUTEMARBLE_FILE_RECORD_BYTES 16

/* The bytes of a text that has room for every answer of lutemarble_report. */
#define LUTEMARBLE_TEXT_BYTES 152000

/* The numbers that each call puts to `out`. */
#define LUTEMARBLE_CHECK_PLACES 8
#define LUTEMARBLE_ADDRESS_PLACES 4
#define LUTEMARBLE_ISOLATE_PLACES 4
#define LUTEMARBLE_BOARD_PLACES 5
#define LUTEMARBLE_WRITE_PLACES 3
#define LUTEMARBLE_READ_PLACES 3

/* The bytes of stack that each call needs for the largest files: 640 KB for check, address, isolate and read, 1 MB for
 * board, 2 MB for write, and 320 KB for report. A file of at most 256 bytes, with at most 32 register instances and 8 node
 * instances, needs far less: sample B1 of docs/FORMAT.md some 23 KB, 34 KB for a board of 16 of it, and 88 KB in report. */
#define LUTEMARBLE_CHECK_STACK 655360
#define LUTEMARBLE_ADDRESS_STACK 655360
#define LUTEMARBLE_ISOLATE_STACK 655360
#define LUTEMARBLE_BOARD_STACK 1048576
#define LUTEMARBLE_WRITE_STACK 2097152
#define LUTEMARBLE_READ_STACK 655360
#define LUTEMARBLE_REPORT_STACK 327680

/* The checker, by the limits LUTEMARBLE_FILE_BYTES and so on. `out` gets 8 numbers: refusal number, place, and for an
 * accepted file the model/level and the counts of registers, register instances, nodes, node instances and roots (all 0
 * where it is refused).
 * Returns the refusal number, 0 for an accepted file. */
uint64_t lutemarble_check(const uint8_t *file, size_t file_bytes, uint64_t *out, size_t out_places);

/* Where the address of a register instance stands in the file. `out` gets 4 numbers: refusal number, place, offset of the
 * address in the file, and its size, 4 or 8 (both 0 where it is refused). An absent register instance is 12, place 0.
 * Returns the refusal number. */
uint64_t lutemarble_address(const uint8_t *file, size_t file_bytes, uint64_t id, uint8_t instance, uint64_t *out,
                            size_t out_places);

/* Isolation for an attention type. `words` are the readings and `read` their read bytes (1 read, 0 unread), one each for
 * every register instance in file order. Listed are the active bits of reached node instances that have no child, or
 * whose child has no active bit for the type. `list` gets a record of LUTEMARBLE_RECORD_BYTES for each, with slot 0;
 * every byte after these, and every byte of a list whose call is refused, is as it was. `out` gets 4 numbers: refusal
 * number, place (for 19 the number of records that there are), and the numbers of records and steps (both 0 where it is
 * refused).
 * Returns the refusal number. */
uint64_t lutemarble_isolate(const uint8_t *file, size_t file_bytes, uint8_t type, const uint64_t *words,
                            size_t word_count, const uint8_t *read, size_t read_count, uint8_t *list, size_t list_bytes,
                            uint64_t *out, size_t out_places);

/* Isolation for an attention type of all chips of a board, in 1 to 16 slots, each as in lutemarble_isolate. The slots'
 * files, words and read bytes are lent end to end, in slot order, each with a list of the slots' lengths: bytes of the
 * files, and numbers of words and of read bytes. Lists of another length than 1 to 16, lists of different lengths, and
 * lengths that do not add up to what is lent (as exact numbers: a sum beyond 64 bits does not) are 20, place 0, before all
 * else. Then the first slot that isolation refuses by 1 to 18 refuses the board, with its number and its place in the
 * slot's own file. `list` gets the records of all slots in slot order, each with its slot; if they are more than the list
 * has whole places for it is 19, place the number of all of them. Every byte after the records, and every byte of a list
 * whose call is refused, is as it was. `out` gets 5 numbers: refusal number, place, the number of records, the steps of all
 * slots together (both 0 where it is refused), and the slot that is refused (0 with 19 and 20, and where nothing is).
 * Returns the refusal number. */
uint64_t lutemarble_board(const uint8_t *files, size_t files_bytes, const uint64_t *file_lengths, size_t file_slots,
                          uint8_t type, const uint64_t *words, size_t word_count, const uint64_t *word_lengths,
                          size_t word_slots, const uint8_t *read, size_t read_count, const uint64_t *read_lengths,
                          size_t read_slots, uint8_t *list, size_t list_bytes, uint64_t *out, size_t out_places);

/* Writes the chip data file of a model/level and of records of LUTEMARBLE_FILE_RECORD_BYTES, of version 1, to the front of
 * `file`. Refused are, in this order: by 40 the first record that those before it do not allow, that is cut short, of an
 * unknown kind or expression type, past the largest value of its count, or that has a byte other than 0 where it uses
 * none, with the place of its first byte in the records, or the length of the records where they end with an expression
 * still owed; by 1 to 14 what the checker refuses in the file that would result, with its place there; and by 41 a `file`
 * that is too short, with the number of bytes that it needs. One of LUTEMARBLE_FILE_BYTES always suffices. Every byte of
 * `file` after those that are written, and every byte where the call is refused, is as it was. `out` gets 3 numbers:
 * refusal number, place, and the number of bytes that are written (0 where it is refused).
 * Returns the refusal number. */
uint64_t lutemarble_write(uint32_t model, const uint8_t *records, size_t records_bytes, uint8_t *file, size_t file_bytes,
                          uint64_t *out, size_t out_places);

/* Reads the records of a chip data file to the front of `records`. Writing them with the file's model/level gives the same
 * file, and reading a file that was written gives the records that it was written from. Refused are, in this order: by 1
 * to 14 what the checker refuses, and by 41 `records` that are too short, with the number of bytes that they need. Every
 * byte after those that are written, and every byte where the call is refused, is as it was. `out` gets 3 numbers: refusal
 * number, place, and the number of bytes that are written (0 where it is refused).
 * Returns the refusal number. */
uint64_t lutemarble_read(const uint8_t *file, size_t file_bytes, uint8_t *records, size_t records_bytes, uint64_t *out,
                         size_t out_places);

/* The station's text for a file, an attention type and a readings file: a line for each listed bit and one with the step
 * count, or one line with the refusal. It has the station's limits (LUTEMARBLE_REPORT_...): a file beyond them is refused
 * by 1 or 8, also where the other calls accept it. A `text` that is too short gets the first part of it, and no byte more than it
 * has; one of LUTEMARBLE_TEXT_BYTES always suffices. There is no byte 0 at the end.
 * Returns the length of the whole text, whatever room `text` has. */
size_t lutemarble_report(const uint8_t *file, size_t file_bytes, uint8_t type, const uint8_t *readings,
                         size_t readings_bytes, uint8_t *text, size_t text_bytes);

#ifdef __cplusplus
}
#endif

#endif
