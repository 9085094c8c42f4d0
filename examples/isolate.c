/* isolate CHIP READINGS TYPE: prints what the station prints for a chip data file, a readings file and an attention type
 * (a number from 0 to 255). Exit status: 0 an answer, 1 a refusal, 2 bad usage or no output.
 *
 * isolate CHIP READINGS CHIP READINGS .. TYPE: the same for a board of 2 to 16 slots, by the library's limits, with the
 * slot in each line of a listed bit and of a refusal.
 *
 * A file that cannot be read counts as empty, as it does for the station. C99 or C++, with include/lutemarble.h:
 *
 *     cc -Iinclude examples/isolate.c crates/abi/out/libabi.a -o isolate
 */
#include <errno.h>
#include <inttypes.h>
#include <stdio.h>
#include <stdlib.h>
#include <string.h>

#include "lutemarble.h"

/* Each file has room for one byte more than it may have, so that a longer file is seen to be longer. */
static uint8_t chip[LUTEMARBLE_REPORT_FILE_BYTES + 1];
static uint8_t text[LUTEMARBLE_TEXT_BYTES];
static uint8_t readings[LUTEMARBLE_REGISTER_INSTANCES * LUTEMARBLE_READING_BYTES + 1];

/* The files and readings of a board, end to end, and its list. */
static uint8_t files[LUTEMARBLE_SLOTS * (LUTEMARBLE_FILE_BYTES + 1)];
static uint64_t words[LUTEMARBLE_SLOTS * LUTEMARBLE_REGISTER_INSTANCES];
static uint8_t read_bytes[LUTEMARBLE_SLOTS * LUTEMARBLE_REGISTER_INSTANCES];
static uint8_t list[LUTEMARBLE_BOARD_LIST_BYTES];

/* The first bytes of a file, as many as there is room for; 0 where it cannot be read. */
static size_t load(const char *path, uint8_t *bytes, size_t room)
{
    size_t n = 0;
    int failed = 1;
    FILE *f = fopen(path, "rb");
    if (f != NULL) {
        n = fread(bytes, 1, room, f);
        failed = ferror(f);
    }
    if (failed) {
        fprintf(stderr, "isolate: %s: %s: counts as empty\n", path, strerror(errno));
        n = 0;
    }
    if (f != NULL)
        fclose(f);
    return n;
}

/* The words and read bytes of a readings file, one each for every register instance, and how many there are. None where
 * the readings file does not fit the chip data file, which the board call then refuses by 17, or where that is refused
 * itself. In an accepted file the registers begin at byte 20: ID (3), type, flags, number of instances; and each instance
 * is its number and an address of 4 bytes, or 8 for type 2. */
static size_t decode(const uint8_t *file, size_t file_bytes, const uint8_t *from, size_t from_bytes, uint64_t *word,
                     uint8_t *read_byte)
{
    uint64_t summary[LUTEMARBLE_CHECK_PLACES], registers;
    size_t count = 0, i, k;
    const uint8_t *at = file + 20;

    if (lutemarble_check(file, file_bytes, summary, LUTEMARBLE_CHECK_PLACES) != 0 ||
        from_bytes != summary[4] * LUTEMARBLE_READING_BYTES)
        return 0;
    for (registers = summary[3]; registers > 0; registers--) {
        const uint8_t *head = at;
        at += 6;
        for (i = 0; i < head[5]; i++) {
            uint64_t value = 0;
            for (k = 8; k < LUTEMARBLE_READING_BYTES; k++)
                value = value << 8 | from[k];
            if (memcmp(from, head, 3) != 0 || from[3] != at[0] || from[4] > 1 || from[5] != 0 || from[6] != 0 ||
                from[7] != 0 || (from[4] == 0 && value != 0))
                return 0;
            word[count] = value;
            read_byte[count] = from[4];
            count++;
            from += LUTEMARBLE_READING_BYTES;
            at += head[3] == 2 ? 9 : 5;
        }
    }
    return count;
}

/* The board of so many pairs of paths. */
static int board(char **paths, size_t slots, uint8_t type)
{
    uint64_t file_lengths[LUTEMARBLE_SLOTS], reading_lengths[LUTEMARBLE_SLOTS], out[LUTEMARBLE_BOARD_PLACES];
    size_t files_bytes = 0, count = 0, slot;
    const uint8_t *record = list;

    for (slot = 0; slot < slots; slot++) {
        size_t n = load(paths[2 * slot], files + files_bytes, LUTEMARBLE_FILE_BYTES + 1);
        size_t m = load(paths[2 * slot + 1], readings, sizeof readings);
        m = decode(files + files_bytes, n, readings, m, words + count, read_bytes + count);
        file_lengths[slot] = n;
        reading_lengths[slot] = m;
        files_bytes += n;
        count += m;
    }
    if (lutemarble_board(files, files_bytes, file_lengths, slots, type, words, count, reading_lengths, slots, read_bytes,
                         count, reading_lengths, slots, list, sizeof list, out, LUTEMARBLE_BOARD_PLACES) != 0) {
        printf("refused %" PRIu64 " place %" PRIu64 " slot %" PRIu64 "\n", out[0], out[1], out[4]);
        return 1;
    }
    for (; out[2] > 0; out[2]--, record += LUTEMARBLE_RECORD_BYTES)
        printf("slot %d type %d node %d inst %d bit %d\n", record[9], record[4], record[6] << 8 | record[7], record[8],
               record[5]);
    printf("steps %" PRIu64 "\n", out[3]);
    return 0;
}

/* The station's text, which has the station's limits. */
static int report(char **paths, uint8_t type)
{
    size_t chip_bytes = load(paths[0], chip, sizeof chip);
    size_t readings_bytes = load(paths[1], readings, LUTEMARBLE_READINGS_BYTES + 1);
    size_t text_bytes = lutemarble_report(chip, chip_bytes, type, readings, readings_bytes, text, sizeof text);
    fwrite(text, 1, text_bytes, stdout);
    return memcmp(text, "refused ", 8) == 0;
}

int main(int argc, char **argv)
{
    int status, slots = argc / 2 - 1;
    unsigned long type;
    char *end;

    if (argc % 2 != 0 || slots < 1 || slots > LUTEMARBLE_SLOTS) {
        fputs("usage: isolate CHIP READINGS [CHIP READINGS ..] TYPE\n", stderr);
        return 2;
    }
    type = strtoul(argv[argc - 1], &end, 10);
    if (argv[argc - 1][0] < '0' || argv[argc - 1][0] > '9' || *end != '\0' || type > 255) {
        fprintf(stderr, "isolate: the type is a number from 0 to 255, not '%s'\n", argv[argc - 1]);
        return 2;
    }
    status = slots == 1 ? report(argv + 1, (uint8_t)type) : board(argv + 1, (size_t)slots, (uint8_t)type);
    if (fflush(stdout) != 0 || ferror(stdout)) {
        perror("isolate: standard output");
        return 2;
    }
    return status;
}
