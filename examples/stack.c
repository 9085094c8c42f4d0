/* stack CHIP READINGS TYPE: the bytes of stack that each call of the library uses on these two files and this type, one
 * line a call, as the name and the number. Each call runs in a thread whose stack is full of a pattern; what is no longer
 * the pattern afterwards was used. The thread's own part, that of a call which does nothing, is taken off. The board has
 * the file and its readings in each of 16 slots; the records that are written are those of the file. */
#include <pthread.h>
#include <stdio.h>
#include <stdlib.h>
#include <string.h>
#include <sys/mman.h>

#include "lutemarble.h"

#define STACK_BYTES (8u << 20)
#define PATTERN 0xA5

/* Room for the largest inputs of any call and a byte more: the library takes 1,048,576 bytes and 8,192 register
 * instances. */
#define MOST_FILE_BYTES 1048577
#define MOST_INSTANCES 8193

static uint8_t file[MOST_FILE_BYTES];
static size_t file_bytes;
static uint8_t readings[MOST_INSTANCES * LUTEMARBLE_READING_BYTES];
static size_t readings_bytes;
static uint8_t type;
static uint64_t words[MOST_INSTANCES];
static uint8_t read_bytes[MOST_INSTANCES];
static size_t instances;
static uint8_t files[LUTEMARBLE_SLOTS * MOST_FILE_BYTES];
static uint64_t file_lengths[LUTEMARBLE_SLOTS];
static uint64_t board_words[LUTEMARBLE_SLOTS * MOST_INSTANCES];
static uint8_t board_read_bytes[LUTEMARBLE_SLOTS * MOST_INSTANCES];
static uint64_t reading_lengths[LUTEMARBLE_SLOTS];
static uint8_t list[LUTEMARBLE_BOARD_LIST_BYTES];
static uint8_t text[LUTEMARBLE_TEXT_BYTES];
static uint8_t records[LUTEMARBLE_FILE_RECORD_BYTES * MOST_FILE_BYTES];
static size_t records_bytes;
static uint8_t written[LUTEMARBLE_FILE_BYTES];
static uint64_t out[LUTEMARBLE_CHECK_PLACES];

static void *nothing(void *p)
{
    return p;
}

static void *check(void *p)
{
    lutemarble_check(file, file_bytes, out, LUTEMARBLE_CHECK_PLACES);
    return p;
}

static void *address(void *p)
{
    uint64_t id = (uint64_t)readings[0] << 16 | (uint64_t)readings[1] << 8 | readings[2];
    lutemarble_address(file, file_bytes, id, readings[3], out, LUTEMARBLE_ADDRESS_PLACES);
    return p;
}

static void *isolate(void *p)
{
    lutemarble_isolate(file, file_bytes, type, words, instances, read_bytes, instances, list, sizeof list, out,
                       LUTEMARBLE_ISOLATE_PLACES);
    return p;
}

static void *board(void *p)
{
    size_t count = LUTEMARBLE_SLOTS * instances;
    lutemarble_board(files, LUTEMARBLE_SLOTS * file_bytes, file_lengths, LUTEMARBLE_SLOTS, type, board_words, count,
                     reading_lengths, LUTEMARBLE_SLOTS, board_read_bytes, count, reading_lengths, LUTEMARBLE_SLOTS, list,
                     sizeof list, out, LUTEMARBLE_BOARD_PLACES);
    return p;
}

static void *write_file(void *p)
{
    lutemarble_write(1, records, records_bytes, written, sizeof written, out, LUTEMARBLE_WRITE_PLACES);
    return p;
}

static void *read_file(void *p)
{
    lutemarble_read(file, file_bytes, records, sizeof records, out, LUTEMARBLE_READ_PLACES);
    return p;
}

static void *report(void *p)
{
    lutemarble_report(file, file_bytes, type, readings, readings_bytes, text, sizeof text);
    return p;
}

static size_t used(void *(*call)(void *))
{
    pthread_attr_t attributes;
    pthread_t thread;
    size_t free_bytes = 0;
    uint8_t *stack = (uint8_t *)mmap(NULL, STACK_BYTES, PROT_READ | PROT_WRITE, MAP_PRIVATE | MAP_ANONYMOUS, -1, 0);
    if (stack == (uint8_t *)MAP_FAILED) {
        perror("stack: mmap");
        exit(2);
    }
    memset(stack, PATTERN, STACK_BYTES);
    if (pthread_attr_init(&attributes) != 0 || pthread_attr_setstack(&attributes, stack, STACK_BYTES) != 0 ||
        pthread_create(&thread, &attributes, call, NULL) != 0 || pthread_join(thread, NULL) != 0) {
        fputs("stack: no thread\n", stderr);
        exit(2);
    }
    while (free_bytes < STACK_BYTES && stack[free_bytes] == PATTERN)
        free_bytes++;
    munmap(stack, STACK_BYTES);
    pthread_attr_destroy(&attributes);
    return STACK_BYTES - free_bytes;
}

static size_t load(const char *path, uint8_t *bytes, size_t room)
{
    size_t n;
    FILE *f = fopen(path, "rb");
    if (f == NULL) {
        perror(path);
        exit(2);
    }
    n = fread(bytes, 1, room, f);
    fclose(f);
    return n;
}

int main(int argc, char **argv)
{
    size_t i, k, own;
    if (argc != 4) {
        fputs("usage: stack CHIP READINGS TYPE\n", stderr);
        return 2;
    }
    file_bytes = load(argv[1], file, sizeof file);
    readings_bytes = load(argv[2], readings, sizeof readings);
    type = (uint8_t)atoi(argv[3]);
    instances = readings_bytes / LUTEMARBLE_READING_BYTES;
    for (i = 0; i < instances; i++) {
        const uint8_t *reading = readings + LUTEMARBLE_READING_BYTES * i;
        read_bytes[i] = reading[4];
        for (k = 8; k < LUTEMARBLE_READING_BYTES; k++)
            words[i] = words[i] << 8 | reading[k];
    }
    for (i = 0; i < LUTEMARBLE_SLOTS; i++) {
        memcpy(files + file_bytes * i, file, file_bytes);
        memcpy(board_words + instances * i, words, instances * sizeof *words);
        memcpy(board_read_bytes + instances * i, read_bytes, instances);
        file_lengths[i] = file_bytes;
        reading_lengths[i] = instances;
    }
    lutemarble_read(file, file_bytes, records, sizeof records, out, LUTEMARBLE_READ_PLACES);
    records_bytes = (size_t)out[2];
    own = used(nothing);
    printf("check %zu\n", used(check) - own);
    printf("address %zu\n", used(address) - own);
    printf("isolate %zu\n", used(isolate) - own);
    printf("board %zu\n", used(board) - own);
    printf("write %zu\n", used(write_file) - own);
    printf("read %zu\n", used(read_file) - own);
    printf("report %zu\n", used(report) - own);
    return 0;
}
