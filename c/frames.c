/* Reads a file of frames by the Hridvanolt library, and tells them as the programs bench and replay do.
 *
 * The file is a script of the commands F, R and P of docs/REPLAY.md; it is named, or comes from standard input. For each command there is a
 * line. Exit status: 0, or 1 where the file can't be read or a line can't be written. */
#include "hridvanolt.h"

#include <stdio.h>
#include <stdlib.h>

/* The highest size in a script, and the highest number of a byte, which names no channel. */
enum { MOST_BYTES = 600, NO_CHANNEL = 255 };

/* The bytes of a command. They have just the memory that they take, and none where there are none, so that a reader past their end is found
 * out by a tool that looks for it. */
struct range {
    uint8_t *bytes;
    size_t size;
};

static bool take(FILE *script, uint8_t *bytes, size_t size)
{
    return fread(bytes, 1, size, script) == size;
}

/* A size of two bytes, the lower one first, and as many bytes. False at an end inside them, and at a size that is too high. */
static bool take_range(FILE *script, struct range *taken)
{
    uint8_t size[2];

    if (!take(script, size, sizeof size))
        return false;
    taken->size = size[0] + 256u * size[1];
    if (taken->size > MOST_BYTES)
        return false;
    if (taken->size == 0)
        return true;
    taken->bytes = malloc(taken->size);
    if (taken->bytes == NULL) {
        perror("frames");
        exit(EXIT_FAILURE);
    }
    return take(script, taken->bytes, taken->size);
}

/* Bytes in hex, or `-` where there are none. */
static void write_hex(const uint8_t *bytes, size_t size)
{
    if (size == 0)
        putchar('-');
    for (size_t i = 0; i < size; i++)
        printf("%02x", (unsigned)bytes[i]);
}

/* F: `checksum N VALUE` */
static void write_checksum(uint8_t channel, struct range range)
{
    struct hridvanolt_checksum told = hridvanolt_frame_checksum(channel, range.bytes, range.size);

    printf("checksum %u %lu\n", (unsigned)told.number, (unsigned long)told.value);
}

/* R: `read 0 RESERVED PREAMBLE NULL SYNC STARTUP ID WORDS CHECKSUM CYCLE PAYLOAD FOUND EXPECTED`, or `read N PAYLOAD FOUND EXPECTED` */
static void write_reading(uint8_t channel, struct range range)
{
    struct hridvanolt_reading told = hridvanolt_read(channel, range.bytes, range.size);

    printf("read %u ", (unsigned)told.number);
    if (told.number == 0) {
        printf("%d %d %d %d %d ", told.reserved, told.preamble, told.null_frame_bit, told.sync, told.startup);
        printf("%u %u %u %u ", (unsigned)told.id, (unsigned)told.words, (unsigned)told.checksum, (unsigned)told.cycle);
        write_hex(range.bytes + 5, range.size - 8);
    } else {
        write_hex(NULL, 0);
    }
    printf(" %lu %lu\n", (unsigned long)told.found, (unsigned long)told.expected);
}

/* P, whose first byte is the channel: `accepted ID CYCLE WORDS`, or `refused N`, with FOUND and EXPECTED for 4 and 8. No input names no
 * channel. */
static void write_bench_line(struct range input)
{
    struct hridvanolt_reading told;

    if (input.size == 0)
        told = hridvanolt_read(NO_CHANNEL, NULL, 0);
    else
        told = hridvanolt_read(input.bytes[0], input.bytes + 1, input.size - 1);
    if (told.number == 0)
        printf("accepted %u %u %u\n", (unsigned)told.id, (unsigned)told.cycle, (unsigned)told.words);
    else if (told.number == 4 || told.number == 8)
        printf("refused %u %lu %lu\n", (unsigned)told.number, (unsigned long)told.found, (unsigned long)told.expected);
    else
        printf("refused %u\n", (unsigned)told.number);
}

/* Plays the command with this letter. False at a script error. */
static bool play(FILE *script, int letter)
{
    uint8_t channel = NO_CHANNEL;
    struct range range = {NULL, 0};
    bool is_whole;

    if (letter != 'F' && letter != 'R' && letter != 'P')
        return false;
    if (letter != 'P' && !take(script, &channel, 1))
        return false;
    is_whole = take_range(script, &range);
    if (is_whole && letter == 'F')
        write_checksum(channel, range);
    if (is_whole && letter == 'R')
        write_reading(channel, range);
    if (is_whole && letter == 'P')
        write_bench_line(range);
    free(range.bytes);
    return is_whole;
}

int main(int count, char **words)
{
    FILE *script = stdin;
    unsigned long command = 0;
    int letter;

    if (count > 2) {
        fputs("usage: frames [FILE]\n", stderr);
        return EXIT_FAILURE;
    }
    if (count == 2)
        script = fopen(words[1], "rb");
    if (script == NULL) {
        perror(words[1]);
        return EXIT_FAILURE;
    }
    while ((letter = getc(script)) != EOF) {
        if (!play(script, letter)) {
            printf("script error at %lu\n", command);
            break;
        }
        command++;
    }
    if (ferror(script) || fflush(stdout) != 0) {
        perror("frames");
        return EXIT_FAILURE;
    }
    return EXIT_SUCCESS;
}
