/*
 * A plain reader of Pulseq files, as people would write one in C: it splits lines and fields,
 * converts with strtol and strtod, and checks nothing. The library is measured against it.
 *
 * It gives the library's rows, 12 numbers each, but a decimal is the bits of a double and a 0, and
 * the library's samples as doubles.
 */
#include <stddef.h>
#include <stdint.h>
#include <stdlib.h>
#include <string.h>

enum { ROW = 12, LABELS = 13 };

/* The kinds of rows. */
enum kind { BLOCK = 1, RF, GRADIENT, TRAP, ADC, DELAY, ENTRY, EXTENSION, TRIGGER, LABEL, SHAPE };

/* Where lines may stand; from IN_EXTENSIONS on, `extension` lines may stand too. */
enum section {
    IN_NOTHING,
    IN_VERSION,
    IN_DEFINITIONS,
    IN_BLOCKS,
    IN_RF,
    IN_GRADIENTS,
    IN_TRAP,
    IN_ADC,
    IN_DELAYS,
    IN_SHAPES,
    IN_EXTENSIONS,
    IN_TRIGGERS,
    IN_LABELSET,
    IN_LABELINC,
    IN_UNKNOWN_EXTENSION
};

/* The rows of a class by their ID. */
struct index {
    int64_t **row;
    size_t room;
};

/* A reader on its way through a file. Rasters are in seconds. */
struct reader {
    long minor;
    enum section section;
    int64_t trigger_type;
    double gradient_raster, rf_raster, block_raster;
    int64_t *rows;
    size_t row_count;
    double *samples;
    size_t sample_count;
    int64_t *shape;
    double *stored;
    size_t stored_count, stored_room;
    struct index rf, gradients, adc, delays, entries, triggers, shapes;
};

/* Notes the row of an ID. */
static void note(struct index *index, int64_t id, int64_t *row) {
    if ((size_t)id >= index->room) {
        size_t room = 2 * (size_t)id + 64;
        index->row = realloc(index->row, room * sizeof *index->row);
        memset(index->row + index->room, 0, (room - index->room) * sizeof *index->row);
        index->room = room;
    }
    index->row[id] = row;
}

/* A new row of a kind, with zeros. */
static int64_t *new_row(struct reader *reader, enum kind kind) {
    int64_t *row = reader->rows + ROW * reader->row_count++;
    memset(row, 0, ROW * sizeof *row);
    row[0] = kind;
    return row;
}

/* Reads whole numbers into `count` cells, and answers what follows them. */
static char *wholes(char *at, int64_t *cells, int count) {
    for (int i = 0; i < count; i++)
        cells[i] = strtol(at, &at, 10);
    return at;
}

/* Reads a decimal into two cells, and answers what follows it. */
static char *decimal(char *at, int64_t *cells) {
    double value = strtod(at, &at);
    memcpy(cells, &value, sizeof value);
    return at;
}

/* The section that a line in brackets opens. */
static enum section section_of(const char *line) {
    static const struct {
        const char *name;
        enum section section;
    } names[] = {
        {"[VERSION]", IN_VERSION}, {"[DEFINITIONS]", IN_DEFINITIONS}, {"[BLOCKS]", IN_BLOCKS},
        {"[RF]", IN_RF},           {"[GRADIENTS]", IN_GRADIENTS},     {"[TRAP]", IN_TRAP},
        {"[ADC]", IN_ADC},         {"[DELAYS]", IN_DELAYS},           {"[EXTENSIONS]", IN_EXTENSIONS},
        {"[SHAPES]", IN_SHAPES},
    };
    for (size_t i = 0; i < sizeof names / sizeof *names; i++)
        if (strncmp(line, names[i].name, strlen(names[i].name)) == 0)
            return names[i].section;
    return IN_NOTHING;
}

/* Takes a raster if the line defines it. */
static void read_raster(char *line, const char *key, double *raster) {
    size_t length = strlen(key);
    if (strncmp(line, key, length) == 0)
        *raster = strtod(line + length, NULL);
}

/* Reads a definition. */
static void read_definition(struct reader *reader, char *line) {
    read_raster(line, "GradientRasterTime ", &reader->gradient_raster);
    read_raster(line, "RadiofrequencyRasterTime ", &reader->rf_raster);
    read_raster(line, "BlockDurationRaster ", &reader->block_raster);
}

/* Reads an RF event. */
static void read_rf(struct reader *reader, char *line) {
    int64_t *row = new_row(reader, RF);
    line = wholes(line, row + 1, 1);
    line = decimal(line, row + 2);
    if (reader->minor >= 4) {
        line = wholes(line, row + 4, 4);
    } else {
        line = wholes(line, row + 4, 2);
        line = wholes(line, row + 7, 1);
    }
    line = decimal(line, row + 8);
    decimal(line, row + 10);
    note(&reader->rf, row[1], row);
}

/* Reads an arbitrary gradient. */
static void read_gradient(struct reader *reader, char *line) {
    int64_t *row = new_row(reader, GRADIENT);
    line = wholes(line, row + 1, 1);
    line = decimal(line, row + 2);
    if (reader->minor >= 4) {
        wholes(line, row + 4, 3);
    } else {
        line = wholes(line, row + 4, 1);
        wholes(line, row + 6, 1);
    }
    note(&reader->gradients, row[1], row);
}

/* Reads a trapezoid gradient. */
static void read_trap(struct reader *reader, char *line) {
    int64_t *row = new_row(reader, TRAP);
    line = wholes(line, row + 1, 1);
    line = decimal(line, row + 2);
    wholes(line, row + 4, 4);
    note(&reader->gradients, row[1], row);
}

/* Reads an ADC event. */
static void read_adc(struct reader *reader, char *line) {
    int64_t *row = new_row(reader, ADC);
    line = wholes(line, row + 1, 2);
    row[3] = (int64_t)strtod(line, &line);
    line = wholes(line, row + 4, 1);
    line = decimal(line, row + 5);
    decimal(line, row + 7);
    note(&reader->adc, row[1], row);
}

/* Reads a delay. */
static void read_delay(struct reader *reader, char *line) {
    int64_t *row = new_row(reader, DELAY);
    wholes(line, row + 1, 2);
    note(&reader->delays, row[1], row);
}

/* Reads an entry of the extension table. */
static void read_entry(struct reader *reader, char *line) {
    int64_t *row = new_row(reader, ENTRY);
    wholes(line, row + 1, 4);
    note(&reader->entries, row[1], row);
}

/* Reads a line that opens an extension's rows. */
static void read_extension(struct reader *reader, char *line) {
    static const char *const names[] = {"TRIGGERS ", "LABELSET ", "LABELINC "};
    char *name = line + strlen("extension ");
    int64_t *row = new_row(reader, EXTENSION);
    row[1] = strtol(strchr(name, ' '), NULL, 10);
    reader->section = IN_UNKNOWN_EXTENSION;
    for (int i = 0; i < 3; i++) {
        if (strncmp(name, names[i], strlen(names[i])) == 0) {
            row[2] = i + 1;
            reader->section = IN_TRIGGERS + i;
        }
    }
    if (reader->section == IN_TRIGGERS)
        reader->trigger_type = row[1];
}

/* Reads a trigger. */
static void read_trigger(struct reader *reader, char *line) {
    int64_t *row = new_row(reader, TRIGGER);
    wholes(line, row + 1, 5);
    note(&reader->triggers, row[1], row);
}

/* Reads a label that is set or incremented. */
static void read_label(struct reader *reader, char *line) {
    static const char *const names[LABELS] = {"LIN", "PAR", "SLC", "SEG", "REP", "AVG", "SET",
                                              "ECO", "PHS", "NAV", "REV", "SMS", "ONCE"};
    int64_t *row = new_row(reader, LABEL);
    line = wholes(line, row + 1, 1);
    row[2] = reader->section == IN_LABELINC;
    line = wholes(line, row + 3, 1);
    line += strspn(line, " \t");
    for (int i = 0; i < LABELS; i++)
        if (strncmp(line, names[i], strlen(names[i])) == 0)
            row[4] = i + 1;
}

/* Keeps a stored value of the shape that is being read. */
static void read_stored(struct reader *reader, char *line) {
    if (reader->stored_count == reader->stored_room) {
        reader->stored_room = 2 * reader->stored_room + 1024;
        reader->stored = realloc(reader->stored, reader->stored_room * sizeof *reader->stored);
    }
    reader->stored[reader->stored_count++] = strtod(line, NULL);
}

/* Expands run-length differences into running sums. */
static void expand(const double *stored, size_t count, double *samples) {
    double sum = 0;
    size_t i = 0;
    while (i < count) {
        long repeats = 1;
        double step = stored[i];
        if (i + 2 < count && stored[i + 1] == step) {
            repeats = (long)stored[i + 2] + 2;
            i += 3;
        } else {
            i++;
        }
        while (repeats-- > 0)
            *samples++ = sum += step;
    }
}

/* Ends the shape that is being read, if one is, and lays down its samples. */
static void end_shape(struct reader *reader) {
    if (reader->shape == NULL)
        return;
    size_t count = (size_t)reader->shape[2];
    double *samples = reader->samples + reader->sample_count;
    reader->shape[3] = (int64_t)reader->sample_count;
    if (reader->minor >= 4 && reader->stored_count == count)
        memcpy(samples, reader->stored, count * sizeof *samples);
    else
        expand(reader->stored, reader->stored_count, samples);
    reader->sample_count += count;
    reader->stored_count = 0;
    reader->shape = NULL;
}

/* Reads a line of a shape. */
static void read_shape(struct reader *reader, char *line) {
    if (strncmp(line, "shape_id ", 9) == 0) {
        reader->shape = new_row(reader, SHAPE);
        reader->shape[1] = strtol(line + 9, NULL, 10);
        note(&reader->shapes, reader->shape[1], reader->shape);
    } else if (strncmp(line, "num_samples ", 12) == 0) {
        reader->shape[2] = strtol(line + 12, NULL, 10);
    } else {
        read_stored(reader, line);
    }
}

/* Reads a line that is neither blank nor a comment, where the reader stands. */
static void read_line(struct reader *reader, char *line) {
    switch (reader->section) {
    case IN_VERSION:
        if (strncmp(line, "minor ", 6) == 0)
            reader->minor = strtol(line + 6, NULL, 10);
        break;
    case IN_DEFINITIONS: read_definition(reader, line); break;
    case IN_BLOCKS: wholes(line, new_row(reader, BLOCK) + 1, 8); break;
    case IN_RF: read_rf(reader, line); break;
    case IN_GRADIENTS: read_gradient(reader, line); break;
    case IN_TRAP: read_trap(reader, line); break;
    case IN_ADC: read_adc(reader, line); break;
    case IN_DELAYS: read_delay(reader, line); break;
    case IN_EXTENSIONS: read_entry(reader, line); break;
    case IN_TRIGGERS: read_trigger(reader, line); break;
    case IN_LABELSET:
    case IN_LABELINC: read_label(reader, line); break;
    case IN_SHAPES: read_shape(reader, line); break;
    case IN_NOTHING:
    case IN_UNKNOWN_EXTENSION: break;
    }
}

/* Reads all lines of a file that ends with a zero byte. */
static void read_lines(struct reader *reader, char *file, size_t length) {
    char *end = file + length;
    while (file < end) {
        char *line = file + strspn(file, " \t");
        char *newline = memchr(line, '\n', (size_t)(end - line));
        file = newline ? newline + 1 : end;
        if (*line == '\n' || *line == '\r' || *line == '\0') {
            end_shape(reader);
        } else if (*line == '[') {
            end_shape(reader);
            reader->section = section_of(line);
        } else if (reader->section >= IN_EXTENSIONS && strncmp(line, "extension ", 10) == 0) {
            read_extension(reader, line);
        } else if (*line != '#') {
            read_line(reader, line);
        }
    }
    end_shape(reader);
}

/* How long an RF event or an arbitrary gradient of an edition without time shapes lasts, in ns. */
static int64_t shaped_length(struct reader *reader, int64_t shape, int64_t delay, double raster) {
    int64_t step = (int64_t)(raster * 1e9 + 0.5);
    return 1000 * delay + reader->shapes.row[shape][2] * step;
}

/* How long a gradient of either section lasts, in ns. */
static int64_t gradient_length(struct reader *reader, int64_t id) {
    int64_t *row = reader->gradients.row[id];
    if (row[0] == TRAP)
        return 1000 * (row[4] + row[5] + row[6] + row[7]);
    return shaped_length(reader, row[4], row[6], reader->gradient_raster);
}

/* The longer of two lengths. */
static int64_t longer(int64_t a, int64_t b) {
    return a > b ? a : b;
}

/* How long the longest trigger of a chain lasts, in ns; labels take no time. */
static int64_t chain_length(struct reader *reader, int64_t id) {
    int64_t length = 0;
    while (id != 0) {
        int64_t *entry = reader->entries.row[id];
        if (entry[2] == reader->trigger_type) {
            int64_t *trigger = reader->triggers.row[entry[3]];
            length = longer(length, 1000 * (trigger[4] + trigger[5]));
        }
        id = entry[4];
    }
    return length;
}

/* How long a 1.3 block lasts, in ns: as long as its longest event. */
static int64_t block_length(struct reader *reader, const int64_t *block) {
    int64_t length = block[2] ? 1000 * reader->delays.row[block[2]][2] : 0;
    if (block[3]) {
        int64_t *rf = reader->rf.row[block[3]];
        length = longer(length, shaped_length(reader, rf[4], rf[7], reader->rf_raster));
    }
    for (int axis = 4; axis < 7; axis++)
        if (block[axis])
            length = longer(length, gradient_length(reader, block[axis]));
    if (block[7]) {
        int64_t *adc = reader->adc.row[block[7]];
        length = longer(length, 1000 * adc[4] + adc[2] * adc[3]);
    }
    return longer(length, chain_length(reader, block[8]));
}

/* Fills in how long each block lasts. */
static void fill_lengths(struct reader *reader) {
    int64_t step = (int64_t)(reader->block_raster * 1e9 + 0.5);
    for (size_t i = 0; i < reader->row_count; i++) {
        int64_t *row = reader->rows + ROW * i;
        if (row[0] == BLOCK)
            row[9] = reader->minor >= 4 ? row[2] * step : block_length(reader, row);
    }
}

/* Gives back what the reader took while it read. */
static void release(struct reader *reader) {
    struct index *indices[] = {&reader->rf,      &reader->gradients, &reader->adc,   &reader->delays,
                               &reader->entries, &reader->triggers,  &reader->shapes};
    for (size_t i = 0; i < sizeof indices / sizeof *indices; i++)
        free(indices[i]->row);
    free(reader->stored);
}

/*
 * Reads a file of `length` bytes, behind which a zero byte stands, into tables that are large
 * enough, and writes how many rows and samples it has into `counts`. Rasters that the file does not
 * name are those that most scanners have.
 */
void plain_read(char *file, size_t length, int64_t *rows, double *samples, size_t *counts) {
    struct reader reader = {
        .gradient_raster = 1e-5, .rf_raster = 1e-6, .block_raster = 1e-5,
        .rows = rows,            .samples = samples,
    };
    read_lines(&reader, file, length);
    fill_lengths(&reader);
    counts[0] = reader.row_count;
    counts[1] = reader.sample_count;
    release(&reader);
}
