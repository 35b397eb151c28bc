/* table.c - see table.h */
#include "table.h"

#include <stdio.h>
#include <stdlib.h>
#include <string.h>

static const char *const built_in[] = {
    "ver 20", "name EXAMPLE", "software 01 00", "maker HANUZAK",

    "module 02", "cells 3397 3396 3397 3396 3397 3396 3390 3397 3402 3402 3403 3402 3402 3402 3402", "voltage 50981",
    "temperatures 280 281 279 290 291", "current -40", "capacity 38500 50000", "cycles 112", "status 00 06 40 00 00",
    "cell_limits 3700 3050 2900", "charge_temperature_limits 500 0", "charge_current_limit 250",
    "module_limits 53250 47000 44500", "discharge_temperature_limits 600 -100", "discharge_current_limit -250",
    "limit_voltages 53250 47000", "limit_currents 250 250", "request C0", "serial EXAMPLE-00000002", "version 01 02 00 01 03",

    "module 03", "cells 3371 3372 3370 3371 3369 3371 3373 3371 3370 3372 3371 3368 3371 3372 3370", "voltage 50562",
    "temperatures 265 263 264 266 262", "current -38", "capacity 36200 50000", "cycles 109", "status 00 06 40 00 00",
    "cell_limits 3700 3050 2900", "charge_temperature_limits 500 0", "charge_current_limit 250",
    "module_limits 53250 47000 44500", "discharge_temperature_limits 600 -100", "discharge_current_limit -250",
    "limit_voltages 53250 47000", "limit_currents 250 250", "request C0", "serial EXAMPLE-00000003", "version 01 02 00 01 03",

    "module 04", "cells 3341 3340 3342 3341 3339 3340 3344 3341 3340 3338 3341 3342 3340 3341 3339", "voltage 50109",
    "temperatures 251 248 249 247 250", "current -35", "capacity 31750 50000", "cycles 140", "status 00 06 40 00 00",
    "cell_limits 3650 3000 2800", "charge_temperature_limits 450 50", "charge_current_limit 200",
    "module_limits 52500 46500 43500", "discharge_temperature_limits 550 -50", "discharge_current_limit -200",
    "limit_voltages 53250 47000", "limit_currents 250 250", "request C0", "serial EXAMPLE-00000004", "version 01 02 00 01 04",
};

/* ---- keys */

/* How many values, of which range, and where they stand one after the other, each width bytes wide.  Base 0 is a text. */
struct key {
    const char *name;
    int         base;
    size_t      least, most;
    long        low, high;
    size_t      place, width;
};

#define IN_STATION(field) offsetof(hanuzak_station, field)
#define IN_MODULE(field) offsetof(hanuzak_module, field)

/* Temperatures are sent in tenths of a kelvin; a key whose values begin at the least of them has temperatures. */
enum { ZERO_CELSIUS = 2731, LEAST_CELSIUS = -ZERO_CELSIUS, MOST_CELSIUS = INT16_MAX - ZERO_CELSIUS };

static const struct key module_key = {"module", 16, 1, 1, 0, 0xFF, 0, 1};

static const struct key station_keys[] = {
    {"ver", 16, 1, 1, 0, 0xFF, IN_STATION(ver), 1},
    {"name", 0, 1, 10, 0, 0, IN_STATION(maker), 1},
    {"software", 16, 2, 2, 0, 0xFF, IN_STATION(maker) + 10, 1},
    {"maker", 0, 1, 20, 0, 0, IN_STATION(maker) + 12, 1},
    {NULL, 0, 0, 0, 0, 0, 0, 0},
};

static const struct key module_keys[] = {
    {"on", 10, 1, 1, 0, 1, IN_MODULE(on), 1},
    {"fault", 10, 1, 1, 0, 1, IN_MODULE(link_fault), 1},
    {"cells", 10, 1, HANUZAK_CELLS, INT16_MIN, INT16_MAX, IN_MODULE(analog.cells), 2},
    {"temperatures", 10, 1, HANUZAK_TEMPERATURES, LEAST_CELSIUS, MOST_CELSIUS, IN_MODULE(analog.temperatures), 2},
    {"current", 10, 1, 1, INT16_MIN, INT16_MAX, IN_MODULE(analog.current), 2},
    {"voltage", 10, 1, 1, 0, UINT16_MAX, IN_MODULE(analog.voltage), 2},
    {"capacity", 10, 2, 2, 0, 0xFFFFFF, IN_MODULE(analog.remaining), 4},
    {"cycles", 10, 1, 1, 0, UINT16_MAX, IN_MODULE(analog.cycles), 2},
    {"cell_codes", 16, 1, HANUZAK_CELLS, 0, 0xFF, IN_MODULE(alarm.cells), 1},
    {"temperature_codes", 16, 1, HANUZAK_TEMPERATURES, 0, 0xFF, IN_MODULE(alarm.temperatures), 1},
    {"codes", 16, 3, 3, 0, 0xFF, IN_MODULE(alarm.charge_current), 1},
    {"status", 16, 5, 5, 0, 0xFF, IN_MODULE(alarm.status), 1},
    {"cell_limits", 10, 3, 3, INT16_MIN, INT16_MAX, IN_MODULE(parameters.cell_high_voltage), 2},
    {"charge_temperature_limits", 10, 2, 2, LEAST_CELSIUS, MOST_CELSIUS, IN_MODULE(parameters.charge_high_temperature), 2},
    {"charge_current_limit", 10, 1, 1, INT16_MIN, INT16_MAX, IN_MODULE(parameters.charge_current), 2},
    {"module_limits", 10, 3, 3, 0, UINT16_MAX, IN_MODULE(parameters.module_high_voltage), 2},
    {"discharge_temperature_limits", 10, 2, 2, LEAST_CELSIUS, MOST_CELSIUS, IN_MODULE(parameters.discharge_high_temperature), 2},
    {"discharge_current_limit", 10, 1, 1, INT16_MIN, INT16_MAX, IN_MODULE(parameters.discharge_current), 2},
    {"limit_voltages", 10, 2, 2, 0, UINT16_MAX, IN_MODULE(limits.charge_voltage), 2},
    {"limit_currents", 10, 2, 2, INT16_MIN, INT16_MAX, IN_MODULE(limits.charge_current), 2},
    {"request", 16, 1, 1, 0, 0xFF, IN_MODULE(limits.status), 1},
    {"serial", 0, 1, 16, 0, 0, IN_MODULE(serial), 1},
    {"version", 16, 5, 5, 0, 0xFF, IN_MODULE(version), 1},
    {NULL, 0, 0, 0, 0, 0, 0, 0},
};

static const struct key *key_of(const struct key *keys, const char *name)
{
    while (keys->name != NULL && strcmp(keys->name, name) != 0)
        keys++;
    return keys->name == NULL ? NULL : keys;
}

/* ---- values */

static const char *next_word(char *line)
{
    return strtok(line, " \t\r\n");
}

static void put_number(uint8_t *to, size_t width, long number)
{
    uint16_t two = (uint16_t)number;
    uint32_t four = (uint32_t)number;

    if (width == 1)
        *to = (uint8_t)number;
    else if (width == 2)
        memcpy(to, &two, sizeof two);
    else
        memcpy(to, &four, sizeof four);
}

static size_t take_text(const struct key *key, uint8_t *to)
{
    const char *word = next_word(NULL);

    if (word == NULL || strlen(word) > key->most)
        return 0;
    memset(to, 0, key->most);
    memcpy(to, word, strlen(word));
    return next_word(NULL) == NULL;
}

/* Puts the words that follow a key in their places; how many they were, or 0 where they are not what the key wants. */
static size_t take_values(const struct key *key, uint8_t *to, long added)
{
    size_t count = 0;

    if (key->base == 0)
        return take_text(key, to);
    for (const char *word; (word = next_word(NULL)) != NULL; count++) {
        char *end;
        long  number = strtol(word, &end, key->base);

        if (*end != '\0' || number < key->low || number > key->high || count == key->most)
            return 0;
        put_number(to + count * key->width, key->width, number + added);
    }
    return count < key->least ? 0 : count;
}

/* The lists of 42H have a count, which is also that of the codes in 44H. */
static size_t take_module_values(const struct key *key, hanuzak_module *module)
{
    size_t count = take_values(key, (uint8_t *)module + key->place, key->low == LEAST_CELSIUS ? ZERO_CELSIUS : 0);

    if (key->place == IN_MODULE(analog.temperatures))
        module->analog.temperature_count = module->alarm.temperature_count = (uint8_t)count;
    if (key->place == IN_MODULE(analog.cells))
        module->analog.cell_count = module->alarm.cell_count = (uint8_t)count;
    return count;
}

/* ---- lines */

static const char *wanted(const struct key *key)
{
    static char text[120];

    if (key->base == 0)
        snprintf(text, sizeof text, "%s wants a word of up to %zu characters", key->name, key->most);
    else if (key->base == 16)
        snprintf(text, sizeof text, "%s wants %zu to %zu bytes in hex", key->name, key->least, key->most);
    else
        snprintf(text, sizeof text, "%s wants %zu to %zu numbers, %ld to %ld", key->name, key->least, key->most, key->low, key->high);
    return text;
}

/* Takes a line; NULL, or what is wrong with it. */
static const char *take_line(struct table *table, char *line)
{
    const struct key *key = NULL;
    const char       *name;
    uint8_t           adr;

    line[strcspn(line, "#")] = '\0';
    if ((name = next_word(line)) == NULL)
        return NULL;
    if (strcmp(name, module_key.name) == 0) {
        if (take_values(&module_key, &adr, 0) == 0)
            return wanted(&module_key);
        if (table->count == HANUZAK_MODULES)
            return "a thirteenth module";
        table->modules[table->count++] = hanuzak_module_new(adr);
        return hanuzak_table(table->modules, table->count) == 0 ? NULL : "no ADR, or not above the one before in its group";
    }
    if ((key = key_of(station_keys, name)) != NULL)
        return take_values(key, (uint8_t *)&table->station + key->place, 0) > 0 ? NULL : wanted(key);
    if ((key = key_of(module_keys, name)) == NULL)
        return "no such key";
    if (table->count == 0)
        return "there is no module before it";
    if (take_module_values(key, &table->modules[table->count - 1]) == 0)
        return wanted(key);
    return hanuzak_table(table->modules, table->count) == 0 ? NULL : "values that no module can send";
}

static int read_line(struct table *table, const char *file, size_t number, const char *text)
{
    char        line[256];
    const char *wrong = "the line is too long";

    if (strlen(text) < sizeof line - 1) {
        strcpy(line, text);
        wrong = take_line(table, line);
    }
    if (wrong != NULL)
        fprintf(stderr, "stand_in: %s:%zu: %s\n", file, number, wrong);
    return wrong == NULL;
}

static int read_file(struct table *table, const char *file, FILE *lines)
{
    char   line[256];
    size_t number = 0;

    while (fgets(line, sizeof line, lines) != NULL)
        if (!read_line(table, file, ++number, line))
            return 0;
    if (ferror(lines))
        perror(file);
    else if (table->count == 0)
        fprintf(stderr, "stand_in: %s: no module\n", file);
    return !ferror(lines) && table->count > 0;
}

int read_table(struct table *table, const char *file)
{
    FILE *lines;
    int   read = 1;

    if (file == NULL) {
        for (size_t i = 0; read && i < sizeof built_in / sizeof *built_in; i++)
            read = read_line(table, "built in", i + 1, built_in[i]);
        return read;
    }
    if ((lines = fopen(file, "r")) == NULL) {
        perror(file);
        return 0;
    }
    read = read_file(table, file, lines);
    fclose(lines);
    return read;
}
