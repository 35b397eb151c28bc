/*
 * table.h - the table of a stand-in, from a text file.
 *
 * A line is a key and its values; what follows a # is a comment.  `ver` and the keys of 51H are the table's, every other key is of
 * the module named before it.  A module has what hanuzak_module_new gives it, until a line says otherwise: a module without lines
 * for 47H sends zeros there.
 *
 *     ver HEX, name TEXT, software HEX HEX, maker TEXT                VER, and 51H
 *     module HEX                                                      a module by its ADR; the ADRs rise, and are of one group
 *     on 0, fault 1                                                   off, so silent; a link fault, so code 91H
 *     cells mV.., temperatures 0.1C.., current 0.1A, voltage mV       42H; charge current is positive
 *     capacity mAh mAh, cycles NUMBER                                 42H; remaining, then total
 *     cell_codes HEX.., temperature_codes HEX..                       44H
 *     codes HEX HEX HEX                                               44H; charge current, module voltage, discharge current
 *     status HEX HEX HEX HEX HEX                                      44H
 *     cell_limits mV mV mV, module_limits mV mV mV                    47H; high, low (alarm), under (protection)
 *     charge_temperature_limits 0.1C 0.1C, charge_current_limit 0.1A  47H; high, low
 *     discharge_temperature_limits 0.1C 0.1C                          47H; high, low
 *     discharge_current_limit 0.1A                                    47H
 *     limit_voltages mV mV, limit_currents 0.1A 0.1A, request HEX     92H; charge, then discharge; the status byte
 *     serial TEXT, version HEX HEX HEX HEX HEX                        93H, 96H
 *
 * A TEXT has no blank.  table.txt is an example.
 */
#ifndef TABLE_H
#define TABLE_H

#include "hanuzak.h"

struct table {
    hanuzak_module  modules[HANUZAK_MODULES];
    size_t          count;
    hanuzak_station station;
};

/* Fills a table of zeros from a file, or where file is NULL with modules 02, 03 and 04.  0 where that fails, which standard error
 * tells with the number of the line; otherwise the table keeps its rule. */
int read_table(struct table *table, const char *file);

#endif
