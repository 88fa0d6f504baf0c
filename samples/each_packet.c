/* Reads recordings, packets one after another, each by its P2, and prints for each packet its offset, its length and its answer:
 *
 *     each_packet EDITION [FILE...]
 *
 * EDITION is 1 or 3. Without a FILE, and for -, standard input is read. Where there are several, each line begins with the file's name.
 * Where P2 cannot be trusted, all that is left of the file counts as one packet, which is always refused, and a message says so. The status
 * is 1 after such a message, where a file could not be read and where a line could not be written; it is 2 where the program was called
 * otherwise. */
#include "gmti.h"

#include <ctype.h>
#include <errno.h>
#include <inttypes.h>
#include <stdio.h>
#include <string.h>

/* A packet begins with what follows the kind byte in the header's record. */
enum { P1 = GMTI_AT_P1 - 1, P2 = GMTI_AT_P2 - 1, HEADER = GMTI_LENGTH_OF_HEADER - 1 };

/* The last byte is there so that what is too long for a packet is refused. */
static uint8_t packet[GMTI_LONGEST_PACKET + 1];
static uint8_t sheet[GMTI_LONGEST_SHEET];

/* The P2 of this header; 0 where it cannot be trusted: P1 is not two digits, so that it is no header, or no packet has such a length. */
static size_t trusted_length(const uint8_t *header) {
    size_t p2 = (size_t)header[P2] << 24 | (size_t)header[P2 + 1] << 16 | (size_t)header[P2 + 2] << 8 | header[P2 + 3];
    return isdigit(header[P1]) && isdigit(header[P1 + 1]) && p2 >= HEADER && p2 <= GMTI_LONGEST_PACKET ? p2 : 0;
}

/* Reads the next packet and returns its length, which is 0 at the file's end. Where P2 cannot be trusted or leads past the end, it is the
 * length of all that is left. */
static size_t next_packet(FILE *file, int *is_trusted) {
    size_t length = fread(packet, 1, HEADER, file), more;
    size_t p2 = length == HEADER ? trusted_length(packet) : 0;
    if (p2 > HEADER)
        length += fread(packet + HEADER, 1, p2 - HEADER, file);
    *is_trusted = length == p2;
    if (!*is_trusted) {
        length += fread(packet + length, 1, sizeof packet - length, file);
        while ((more = fread(sheet, 1, sizeof sheet, file)) > 0)
            length += more;
    }
    return length;
}

static void print_answer(const uint32_t *answer) {
    if (answer[GMTI_NUMBER] == 0)
        printf("ok %" PRIu32 " %" PRIu32 " %" PRIu32 " %" PRIu32 "\n", answer[GMTI_SEGMENTS], answer[GMTI_DWELLS], answer[GMTI_TARGETS],
               answer[GMTI_LENGTH]);
    else
        printf("no %" PRIu32 " %" PRIu32 " %" PRIu32 "\n", answer[GMTI_NUMBER], answer[GMTI_SEGMENT], answer[GMTI_FIELD]);
}

/* Prints a line for each packet of a file, with its name in front where it is one of several. Returns whether every P2 could be trusted. */
static int walk(uint32_t edition, FILE *file, const char *name, int is_one_of_several) {
    int is_trusted = 1;
    size_t length;
    for (size_t at = 0; is_trusted && (length = next_packet(file, &is_trusted)) > 0 && !ferror(file); at += length) {
        uint32_t answer[7];
        gmti_read(edition, packet, length < sizeof packet ? length : sizeof packet, sheet, sizeof sheet, answer);
        if (is_one_of_several)
            printf("%s: ", name);
        printf("%zu %zu ", at, length);
        print_answer(answer);
        if (!is_trusted)
            fprintf(stderr, "%s: offset %zu: P2 cannot be trusted, the last %zu bytes were taken as one packet\n", name, at, length);
    }
    return is_trusted;
}

/* Opens what the word names and prints its lines. Returns whether all went well. */
static int open_and_walk(uint32_t edition, const char *word, int is_one_of_several) {
    int is_input = strcmp(word, "-") == 0, is_well = 0;
    const char *name = is_input ? "standard input" : word;
    FILE *file = is_input ? stdin : fopen(word, "rb");
    if (file != NULL)
        is_well = walk(edition, file, name, is_one_of_several);
    if (file == NULL || ferror(file)) {
        fprintf(stderr, "%s: cannot be read: %s\n", name, strerror(errno));
        is_well = 0;
    }
    if (file != NULL && !is_input)
        fclose(file);
    return is_well;
}

int main(int count, char **words) {
    if (count < 2 || (strcmp(words[1], "1") != 0 && strcmp(words[1], "3") != 0)) {
        fprintf(stderr, "usage: each_packet EDITION [FILE...]\nEDITION is 1 or 3. Without a FILE, and for -, standard input is read.\n");
        return 2;
    }
    uint32_t edition = (uint32_t)(words[1][0] - '0');
    int is_well = count > 2 || open_and_walk(edition, "-", 0);
    for (int i = 2; i < count; i++)
        is_well &= open_and_walk(edition, words[i], count > 3);
    if (fflush(stdout) != 0 || ferror(stdout)) {
        fprintf(stderr, "standard output: a line could not be written\n");
        is_well = 0;
    }
    return is_well ? 0 : 1;
}
