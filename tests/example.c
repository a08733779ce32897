/* Reads the file named on the command line, with an empty site text, and prints the verdict; if it
 * is accepted and a second name is given, writes it there as 1.4.1. */

#include <pulseq.h>
#include <stdio.h>

#define FILE_ROOM ((1 << 24) + 1)
#define ROWS 100000
#define SAMPLES 1000000

static uint8_t file[FILE_ROOM];
static uint8_t text[1 << 24];
static int64_t rows[ROWS * PULSEQ_ROW];
static int64_t samples[SAMPLES];
static const uint8_t site[1];

/* Prints a refusal. */
static int refused(const uint64_t *answer)
{
    printf("refused %llu line %llu\n", (unsigned long long)answer[0],
           (unsigned long long)answer[1]);
    return 1;
}

/* Restates the file to 1.4.1, and writes the text to the file of a name. */
static int restate(size_t length, const char *name)
{
    uint64_t answer[5];
    pulseq_restate(file, length, site, 0, PULSEQ_EDITION_1_4, rows, ROWS * PULSEQ_ROW, samples,
                   SAMPLES, text, sizeof text, answer, 5);
    if (answer[0] != 0)
        return refused(answer);
    FILE *to = fopen(name, "wb");
    if (to == NULL || fwrite(text, 1, answer[4], to) != answer[4] || fclose(to) != 0) {
        fprintf(stderr, "%s cannot be written\n", name);
        return 2;
    }
    printf("restated: %llu bytes\n", (unsigned long long)answer[4]);
    return 0;
}

/* Reads the file, and prints what the library answers. */
int main(int count, char **words)
{
    uint64_t answer[4];
    FILE *from = count == 2 || count == 3 ? fopen(words[1], "rb") : NULL;
    if (from == NULL) {
        fprintf(stderr, "usage: example FILE [RESTATED]\n");
        return 2;
    }
    size_t length = fread(file, 1, FILE_ROOM, from);
    fclose(from);
    pulseq_read(file, length, site, 0, rows, ROWS * PULSEQ_ROW, samples, SAMPLES, answer, 4);
    if (answer[0] != 0)
        return refused(answer);
    printf("accepted: %llu rows, %llu samples\n", (unsigned long long)answer[2],
           (unsigned long long)answer[3]);
    return count == 3 ? restate(length, words[2]) : 0;
}
