/*
 * layout.c - every field of every struct of hanuzak.h crosses to the archive and back, and its constants are what the archive
 * means.  Compiled as C11 and as C++17.
 *
 * Each field gets a value of its own through the C struct, and must come out where docs/PROTOCOL.md says: a record's fields at their
 * places of INFO, the others by what a known stream, question or reply gives.  It ends at the first field that is wrong.
 */
#include "hanuzak.h"

#include <stdio.h>
#include <stdlib.h>
#include <string.h>

enum { VER = 0x21, MASTER = 0x02, SECOND = 0x05, SIXTH = 0x06, BATTERY = 0x46, GROUP = 0xFF, FLAG = 0x5A, CODE = 0xF0 };

static unsigned long compared;

static void same_at(const char *field, size_t place, long long is, long long should)
{
    if (is != should) {
        fprintf(stderr, "layout: %s at place %lu is %lld and should be %lld\n", field, (unsigned long)place, is, should);
        exit(EXIT_FAILURE);
    }
    compared++;
}

static void same(const char *field, long long is, long long should)
{
    if (is != should) {
        fprintf(stderr, "layout: %s is %lld and should be %lld\n", field, is, should);
        exit(EXIT_FAILURE);
    }
    compared++;
}

#define SAME(field, value) same(#field, (long long)(field), (long long)(value))

/* ---- records */

/*
 * A record with another value in each place, and others for another k.  It can be sent; so its alarm codes, of which there are
 * four values only, are 0.  Its padding is not.
 */
static hanuzak_module sample(uint8_t adr, unsigned k)
{
    hanuzak_module m;

    memset(&m, 0xEE, sizeof m);
    memset(&m.alarm, 0, sizeof m.alarm);
    m.adr = adr;
    m.on = 1;
    m.link_fault = 0;
    m.analog.cell_count = 16;
    m.analog.temperature_count = 8;
    m.analog.current = (int16_t)(-0x0123 - (int)k);
    m.analog.voltage = (uint16_t)(0xD456 + k);
    m.analog.remaining = 0x789ABC + k;
    m.analog.total = 0xDEF012 + k;
    m.analog.cycles = (uint16_t)(0x3579 + k);
    m.alarm.cell_count = 15;
    m.alarm.temperature_count = 7;
    m.limits.charge_voltage = (uint16_t)(0xE123 + k);
    m.limits.discharge_voltage = (uint16_t)(0xB456 + k);
    m.limits.charge_current = (int16_t)(0x0789 + k);
    m.limits.discharge_current = (int16_t)(-0x0ABC - (int)k);
    m.limits.status = (uint8_t)(0xC1 + k);
    m.parameters.cell_high_voltage = (int16_t)(0x0E74 + k);
    m.parameters.cell_low_voltage = (int16_t)(0x0BEA + k);
    m.parameters.cell_under_voltage = (int16_t)(-0x0B54 - (int)k);
    m.parameters.charge_high_temperature = (int16_t)(-0x0C9F - (int)k);
    m.parameters.charge_low_temperature = (int16_t)(0x0AAB + k);
    m.parameters.charge_current = (int16_t)(0x02FA + k);
    m.parameters.module_high_voltage = (uint16_t)(0xD002 + k);
    m.parameters.module_low_voltage = (uint16_t)(0xB798 + k);
    m.parameters.module_under_voltage = (uint16_t)(0xADD4 + k);
    m.parameters.discharge_high_temperature = (int16_t)(0x0D03 + k);
    m.parameters.discharge_low_temperature = (int16_t)(-0x1A47 - (int)k);
    m.parameters.discharge_current = (int16_t)(-0x04F6 - (int)k);
    for (unsigned j = 0; j < HANUZAK_CELLS; j++) {
        m.analog.cells[j] = (int16_t)((j % 2 ? -1 : 1) * (int)(0x0C01 + 0x0102 * j + k));
        m.serial[j] = (uint8_t)(0x41 + j + k);
    }
    for (unsigned j = 0; j < HANUZAK_TEMPERATURES; j++)
        m.analog.temperatures[j] = (int16_t)((j % 2 ? -1 : 1) * (int)(0x0A02 + 0x0203 * j + k));
    for (unsigned j = 0; j < 5; j++) {
        m.alarm.status[j] = (uint8_t)(0xA1 + j + k);
        m.version[j] = (uint8_t)(0x31 + j + k);
    }
    return m;
}

/* The same with values that no reply could carry: all bytes of all numbers, and the alarm codes. */
static hanuzak_module unsendable(uint8_t adr, unsigned k)
{
    hanuzak_module m = sample(adr, k);

    m.on = (uint8_t)(0x51 + k);
    m.link_fault = (uint8_t)(0x71 + k);
    m.analog.remaining = 0x12345678 + k;
    m.analog.total = 0x9ABCDEF0 + k;
    m.alarm.charge_current = (uint8_t)(0x81 + k);
    m.alarm.module_voltage = (uint8_t)(0x83 + k);
    m.alarm.discharge_current = (uint8_t)(0x85 + k);
    for (unsigned j = 0; j < HANUZAK_CELLS; j++)
        m.alarm.cells[j] = (uint8_t)(0x11 + 3 * j + k);
    for (unsigned j = 0; j < HANUZAK_TEMPERATURES; j++)
        m.alarm.temperatures[j] = (uint8_t)(0xD1 + 5 * j + k);
    return m;
}

static void same_analog(hanuzak_analog analog, hanuzak_analog should)
{
    SAME(analog.cell_count, should.cell_count);
    for (size_t j = 0; j < HANUZAK_CELLS; j++)
        same_at("analog.cells", j, analog.cells[j], should.cells[j]);
    SAME(analog.temperature_count, should.temperature_count);
    for (size_t j = 0; j < HANUZAK_TEMPERATURES; j++)
        same_at("analog.temperatures", j, analog.temperatures[j], should.temperatures[j]);
    SAME(analog.current, should.current);
    SAME(analog.voltage, should.voltage);
    SAME(analog.remaining, should.remaining);
    SAME(analog.total, should.total);
    SAME(analog.cycles, should.cycles);
}

static void same_alarm(hanuzak_alarm alarm, hanuzak_alarm should)
{
    SAME(alarm.cell_count, should.cell_count);
    for (size_t j = 0; j < HANUZAK_CELLS; j++)
        same_at("alarm.cells", j, alarm.cells[j], should.cells[j]);
    SAME(alarm.temperature_count, should.temperature_count);
    for (size_t j = 0; j < HANUZAK_TEMPERATURES; j++)
        same_at("alarm.temperatures", j, alarm.temperatures[j], should.temperatures[j]);
    SAME(alarm.charge_current, should.charge_current);
    SAME(alarm.module_voltage, should.module_voltage);
    SAME(alarm.discharge_current, should.discharge_current);
    for (size_t j = 0; j < 5; j++)
        same_at("alarm.status", j, alarm.status[j], should.status[j]);
}

static void same_limits(hanuzak_limits limits, hanuzak_limits should)
{
    SAME(limits.charge_voltage, should.charge_voltage);
    SAME(limits.discharge_voltage, should.discharge_voltage);
    SAME(limits.charge_current, should.charge_current);
    SAME(limits.discharge_current, should.discharge_current);
    SAME(limits.status, should.status);
}

static void same_parameters(hanuzak_parameters parameters, hanuzak_parameters should)
{
    SAME(parameters.cell_high_voltage, should.cell_high_voltage);
    SAME(parameters.cell_low_voltage, should.cell_low_voltage);
    SAME(parameters.cell_under_voltage, should.cell_under_voltage);
    SAME(parameters.charge_high_temperature, should.charge_high_temperature);
    SAME(parameters.charge_low_temperature, should.charge_low_temperature);
    SAME(parameters.charge_current, should.charge_current);
    SAME(parameters.module_high_voltage, should.module_high_voltage);
    SAME(parameters.module_low_voltage, should.module_low_voltage);
    SAME(parameters.module_under_voltage, should.module_under_voltage);
    SAME(parameters.discharge_high_temperature, should.discharge_high_temperature);
    SAME(parameters.discharge_low_temperature, should.discharge_low_temperature);
    SAME(parameters.discharge_current, should.discharge_current);
}

static void same_module(hanuzak_module module, hanuzak_module should)
{
    SAME(module.adr, should.adr);
    SAME(module.on, should.on);
    SAME(module.link_fault, should.link_fault);
    same_analog(module.analog, should.analog);
    same_alarm(module.alarm, should.alarm);
    same_limits(module.limits, should.limits);
    for (size_t j = 0; j < 16; j++)
        same_at("module.serial", j, module.serial[j], should.serial[j]);
    for (size_t j = 0; j < 5; j++)
        same_at("module.version", j, module.version[j], should.version[j]);
    same_parameters(module.parameters, should.parameters);
}

/* ---- written: the fields as bytes, in the order of INFO (PROTOCOL 9) */

static uint8_t out[HANUZAK_LISTING + 200]; /* room for the lines of two events */
static size_t  place; /* of the next byte of INFO in out */

static void written(hanuzak_written written, size_t length)
{
    SAME(written.number, 0);
    SAME(written.length, length);
    place = 0;
}

/* The next number of INFO, high byte first; of a list the one at place j. */
static void next_at(const char *field, size_t j, size_t width, long long value)
{
    unsigned long is = 0, bits = width == 1 ? 0xFF : width == 2 ? 0xFFFF : 0xFFFFFF;

    for (size_t i = 0; i < width; i++)
        is = is << 8 | out[place++];
    same_at(field, j, (long long)is, (long long)((unsigned long long)value & bits));
}

static void next(const char *field, size_t width, long long value)
{
    next_at(field, 0, width, value);
}

static void next_analog(hanuzak_analog m)
{
    next("analog.cell_count", 1, m.cell_count);
    for (size_t j = 0; j < m.cell_count; j++)
        next_at("analog.cells", j, 2, m.cells[j]);
    next("analog.temperature_count", 1, m.temperature_count);
    for (size_t j = 0; j < m.temperature_count; j++)
        next_at("analog.temperatures", j, 2, m.temperatures[j]);
    next("analog.current", 2, m.current);
    next("analog.voltage", 2, m.voltage);
    next("remaining 1", 2, 0xFFFF);
    next("items", 1, 4);
    next("total 1", 2, 0xFFFF);
    next("analog.cycles", 2, m.cycles);
    next("analog.remaining", 3, m.remaining);
    next("analog.total", 3, m.total);
}

static void analog_written(void)
{
    hanuzak_module m = sample(MASTER, 0);

    written(hanuzak_write_analog(m, FLAG, out, sizeof out), 69);
    next("flag", 1, FLAG);
    next("module.adr", 1, MASTER);
    next_analog(m.analog);
}

/* Fifteen cells and seven temperatures: the codes stand at places 3 to 17, 19 to 25 and 26 to 28 of INFO.  One of them is CODE. */
static void code_written(const char *field, size_t j, hanuzak_module m, size_t at)
{
    written(hanuzak_write_alarm(m, FLAG, out, sizeof out), 34);
    for (size_t i = 3; i <= 28; i++)
        if (i != 18)
            same_at(field, j, out[i], i == at ? CODE : 0);
}

static void alarm_written(void)
{
    hanuzak_module m = sample(MASTER, 0);

    written(hanuzak_write_alarm(m, FLAG, out, sizeof out), 34);
    same("flag", out[0], FLAG);
    same("module.adr", out[1], MASTER);
    same("alarm.cell_count", out[2], 15);
    same("alarm.temperature_count", out[18], 7);
    for (size_t j = 0; j < 5; j++)
        same_at("alarm.status", j, out[29 + j], m.alarm.status[j]);
    for (size_t j = 0; j < 15; j++) {
        m = sample(MASTER, 0);
        m.alarm.cells[j] = CODE;
        code_written("alarm.cells", j, m, 3 + j);
    }
    for (size_t j = 0; j < 7; j++) {
        m = sample(MASTER, 0);
        m.alarm.temperatures[j] = CODE;
        code_written("alarm.temperatures", j, m, 19 + j);
    }
    m = sample(MASTER, 0);
    m.alarm.charge_current = CODE;
    code_written("alarm.charge_current", 0, m, 26);
    m = sample(MASTER, 0);
    m.alarm.module_voltage = CODE;
    code_written("alarm.module_voltage", 0, m, 27);
    m = sample(MASTER, 0);
    m.alarm.discharge_current = CODE;
    code_written("alarm.discharge_current", 0, m, 28);
}

/* The flag, no Command, and the twelve limits in the order of V3.3. */
static void parameters_written(void)
{
    hanuzak_module  m = sample(MASTER, 0);
    hanuzak_written refused;

    written(hanuzak_write_parameters(m, FLAG, out, sizeof out), 25);
    next("flag", 1, FLAG);
    next("parameters.cell_high_voltage", 2, m.parameters.cell_high_voltage);
    next("parameters.cell_low_voltage", 2, m.parameters.cell_low_voltage);
    next("parameters.cell_under_voltage", 2, m.parameters.cell_under_voltage);
    next("parameters.charge_high_temperature", 2, m.parameters.charge_high_temperature);
    next("parameters.charge_low_temperature", 2, m.parameters.charge_low_temperature);
    next("parameters.charge_current", 2, m.parameters.charge_current);
    next("parameters.module_high_voltage", 2, m.parameters.module_high_voltage);
    next("parameters.module_low_voltage", 2, m.parameters.module_low_voltage);
    next("parameters.module_under_voltage", 2, m.parameters.module_under_voltage);
    next("parameters.discharge_high_temperature", 2, m.parameters.discharge_high_temperature);
    next("parameters.discharge_low_temperature", 2, m.parameters.discharge_low_temperature);
    next("parameters.discharge_current", 2, m.parameters.discharge_current);
    refused = hanuzak_write_parameters(m, FLAG, out, 24);
    SAME(refused.number, 32);
    SAME(refused.length, 0);
    m.adr = 0x01;
    refused = hanuzak_write_parameters(m, FLAG, out, 24);
    SAME(refused.number, 33);
    SAME(refused.length, 0);
}

static void others_written(void)
{
    hanuzak_module m = sample(MASTER, 0);

    written(hanuzak_write_limits(m, out, sizeof out), 10);
    next("module.adr", 1, MASTER);
    next("limits.charge_voltage", 2, m.limits.charge_voltage);
    next("limits.discharge_voltage", 2, m.limits.discharge_voltage);
    next("limits.charge_current", 2, m.limits.charge_current);
    next("limits.discharge_current", 2, m.limits.discharge_current);
    next("limits.status", 1, m.limits.status);
    written(hanuzak_write_serial(m, out, sizeof out), 17);
    next("module.adr", 1, MASTER);
    for (size_t j = 0; j < 16; j++)
        next_at("module.serial", j, 1, m.serial[j]);
    written(hanuzak_write_version(m, out, sizeof out), 6);
    next("module.adr", 1, MASTER);
    for (size_t j = 0; j < 5; j++)
        next_at("module.version", j, 1, m.version[j]);
}

/* Two records that are on, and one between them that is off. */
static void three(hanuzak_module table[3])
{
    table[0] = sample(MASTER, 0);
    table[1] = sample(MASTER + 1, 7);
    table[1].on = 0;
    table[2] = sample(SECOND, 3);
}

static void group_written(void)
{
    hanuzak_module  table[3];
    hanuzak_written refused;

    three(table);
    written(hanuzak_write_analog_group(table, 3, FLAG, out, sizeof out), 2 + 2 * 67);
    next("flag", 1, FLAG);
    next("Command", 1, GROUP);
    next_analog(table[0].analog);
    next_analog(table[2].analog);
    written(hanuzak_write_alarm_group(table, 3, FLAG, out, sizeof out), 2 + 2 * 32);
    refused = hanuzak_write_analog_group(table, 3, FLAG, out, 2 + 2 * 67 - 1);
    SAME(refused.number, 32);
    SAME(refused.length, 0);
}

/* ---- the table */

/* Every field of a new record: counts of 1, on, and 0. */
static void made(void)
{
    hanuzak_module should, m = hanuzak_module_new(SECOND);

    memset(&should, 0, sizeof should);
    should.adr = SECOND;
    should.on = 1;
    should.analog.cell_count = should.analog.temperature_count = 1;
    should.alarm.cell_count = should.alarm.temperature_count = 1;
    same_module(m, should);
    for (unsigned adr = 0; adr < 256; adr++) {
        m = hanuzak_module_new((uint8_t)adr);
        SAME(m.adr, adr);
        same_at("table of a new record", adr, hanuzak_table(&m, 1), adr < 0x80 && adr % 16 >= 2 && adr % 16 <= 13 ? 0 : 31);
    }
}

/* The rule tells the three marks of a record apart from each other and from all else. */
static void rule(void)
{
    hanuzak_module table[3];

    three(table);
    same("table", hanuzak_table(table, 3), 0);
    same("table of none", hanuzak_table(NULL, 0), 31);
    table[1].adr = SECOND;
    same("module.adr", hanuzak_table(table, 3), 31);
    three(table);
    table[1].on = 2;
    same("module.on", hanuzak_table(table, 3), 31);
    three(table);
    table[1].link_fault = 1;
    same("module.link_fault", hanuzak_table(table, 3), 0);
    table[1].link_fault = 2;
    same("module.link_fault", hanuzak_table(table, 3), 31);
}

static void same_three(const hanuzak_module table[3], size_t changed, hanuzak_module to)
{
    for (size_t i = 0; i < 3; i++)
        same_module(table[i], i == changed ? to : unsendable((uint8_t)(0x11 * i), (unsigned)i));
}

/* Whole records move, all else is untouched, and past the end nothing changes. */
static void moved(void)
{
    for (size_t at = 0; at < 5; at++) {
        hanuzak_module table[3], other = unsendable(0x99, 9), off;

        for (unsigned i = 0; i < 3; i++)
            table[i] = unsendable((uint8_t)(0x11 * i), i);
        same_module(hanuzak_record(table, 3, at, other), at < 3 ? table[at] : other);
        off = unsendable((uint8_t)(0x11 * at), (unsigned)at);
        off.on = 0;
        hanuzak_switch_off(table, 3, at);
        same_three(table, at, off);
        hanuzak_replace(table, 3, at, other);
        same_three(table, at, other);
    }
}

/* ---- frames and the receiver */

static const char FRAME[] = "~11223344A0065AC30FFC33\r";

static void same_header(hanuzak_event event)
{
    SAME(event.kind, 1);
    SAME(event.number, 0);
    SAME(event.ver, 0x11);
    SAME(event.adr, 0x22);
    SAME(event.cid1, 0x33);
    SAME(event.cid2, 0x44);
    SAME(event.place, 0);
    SAME(event.lenid, 6);
}

static void same_event_at(hanuzak_event event, uint32_t kind, uint32_t number, uint32_t place)
{
    SAME(event.kind, kind);
    SAME(event.number, number);
    SAME(event.ver, 0);
    SAME(event.adr, 0);
    SAME(event.cid1, 0);
    SAME(event.cid2, 0);
    SAME(event.place, place);
    SAME(event.lenid, 0);
}

static void same_event(hanuzak_event event, uint32_t kind, uint32_t number)
{
    same_event_at(event, kind, number, 0);
}

static void same_receiver(hanuzak_receiver receiver, size_t open, size_t count)
{
    SAME(receiver.open, open);
    SAME(receiver.count, count);
}

static void frame_written(void)
{
    const uint8_t info[] = { 0x5A, 0xC3, 0x0F };

    written(hanuzak_write_frame(0x11, 0x22, 0x33, 0x44, info, sizeof info, out, sizeof out), 24);
    for (size_t i = 0; i < 24; i++)
        same_at("frame", i, out[i], (uint8_t)FRAME[i]);
    same_header(hanuzak_judge(out + 1, 22));
    same_event(hanuzak_judge(out + 1, 21), 2, 7);
}

static void stepped(void)
{
    uint8_t          store[HANUZAK_STORE];
    hanuzak_receiver receiver = hanuzak_receiver_new();
    hanuzak_stepped  stepped;

    memset(store, '.', sizeof store);
    same_receiver(receiver, 0, 0);
    for (size_t i = 0; i < 23; i++) {
        stepped = hanuzak_step(receiver, store, sizeof store, (uint8_t)FRAME[i]);
        same_receiver(stepped.next, 1, i);
        same_event(stepped.event, 0, 0);
        receiver = stepped.next;
    }
    stepped = hanuzak_step(receiver, store, sizeof store, '\r');
    same_receiver(stepped.next, 0, 0);
    same_header(stepped.event);
    receiver.open = 0x100;
    receiver.count = 4109;
    stepped = hanuzak_step(receiver, store, sizeof store, 'x');
    same_receiver(stepped.next, 1, 4110);
    same_at("store", 4109, store[4109], 'x');
    stepped = hanuzak_step(stepped.next, store, sizeof store, 'y');
    same_receiver(stepped.next, 0, 0);
    same_event(stepped.event, 2, 1);
    receiver.count = (size_t)1 << 40;
    stepped = hanuzak_step(receiver, store, sizeof store, 'z');
    same_receiver(stepped.next, 1, receiver.count);
    same_event(stepped.event, 2, 35);
    receiver.open = 0;
    stepped = hanuzak_step(receiver, store, sizeof store, 'z');
    same_receiver(stepped.next, 0, 0);
    same_event(stepped.event, 0, 0);
}

/* A bad character at each place of the longest stretch, in lower case and not: the place crosses from every call that judges. */
static void bad_characters(void)
{
    static uint8_t         store[HANUZAK_STORE];
    const uint8_t          cr = '\r';
    const hanuzak_receiver full = { 1, HANUZAK_STORE };

    memset(store, '0', sizeof store);
    for (uint32_t at = 0; at < HANUZAK_STORE; at++) {
        uint32_t number = at % 2 ? HANUZAK_REFUSAL_LOWER_CASE : HANUZAK_REFUSAL_NO_HEX_DIGIT;

        store[at] = at % 2 ? 'f' : 'g';
        same_event_at(hanuzak_judge(store, sizeof store), HANUZAK_REFUSED, number, at);
        same_event_at(hanuzak_step(full, store, sizeof store, cr).event, HANUZAK_REFUSED, number, at);
        same_event_at(hanuzak_run(full, store, sizeof store, &cr, 1).event, HANUZAK_REFUSED, number, at);
        store[at] = '0';
    }
    same_event(hanuzak_judge((const uint8_t *)"21054642E00205g", 15), HANUZAK_REFUSED, HANUZAK_REFUSAL_TOO_SHORT);
}

/* Six bytes of noise, a frame, a stretch that is too short, and the beginning of another. */
static void stream(uint8_t piece[40])
{
    memcpy(piece, "noise.", 6);
    memcpy(piece + 6, FRAME, 24);
    memcpy(piece + 30, "~12\r~ABCDE", 10);
}

static void ran(void)
{
    uint8_t     store[HANUZAK_STORE], piece[40];
    hanuzak_ran ran;

    memset(store, '.', sizeof store);
    stream(piece);
    ran = hanuzak_run(hanuzak_receiver_new(), store, sizeof store, piece, 40);
    same_receiver(ran.next, 0, 0);
    same_header(ran.event);
    SAME(ran.taken, 30);
    SAME(ran.held, 22);
    ran = hanuzak_run(ran.next, store, sizeof store, piece + 30, 10);
    same_receiver(ran.next, 0, 0);
    same_event(ran.event, 2, 3);
    SAME(ran.taken, 4);
    SAME(ran.held, 2);
    ran = hanuzak_run(ran.next, store, sizeof store, piece + 34, 6);
    same_receiver(ran.next, 1, 5);
    same_event(ran.event, 0, 0);
    SAME(ran.taken, 6);
    SAME(ran.held, 0);
}

/* ---- the listing */

static void same_listing(hanuzak_listing listing, uint32_t offset, uint32_t frames, uint32_t refusals)
{
    SAME(listing.offset, offset);
    SAME(listing.frames, frames);
    SAME(listing.refusals, refusals);
}

static void same_text(hanuzak_written written, const char *text)
{
    SAME(written.number, 0);
    SAME(written.length, strlen(text));
    for (size_t i = 0; i < strlen(text); i++)
        same_at("text", i, out[i], (uint8_t)text[i]);
}

/* Far on in a capture, so that the offset and the totals differ. */
static void listed(void)
{
    uint8_t         store[HANUZAK_STORE], piece[40];
    hanuzak_listing listing = hanuzak_listing_new();
    hanuzak_listed  listed;

    memset(store, '.', sizeof store);
    stream(piece);
    same_receiver(listing.receiver, 0, 0);
    same_listing(listing, 0, 0, 0);
    listing.offset = 1000;
    listing.frames = 70000;
    listing.refusals = 300;
    listed = hanuzak_list(listing, store, sizeof store, piece, 40, out, HANUZAK_LISTING - 1);
    same_receiver(listed.next.receiver, 0, 0);
    same_listing(listed.next, 1000, 70000, 300);
    SAME(listed.taken, 0);
    SAME(listed.written.number, 32);
    SAME(listed.written.length, 0);
    listed = hanuzak_list(listing, store, sizeof store, piece, 40, out, sizeof out);
    same_receiver(listed.next.receiver, 1, 5);
    same_listing(listed.next, 1040, 70001, 301);
    SAME(listed.taken, 40);
    same_text(listed.written, "at=1006\nver=11\nadr=22\ncid1=33\ncid2=44\ninfo=5AC30F\nat=1030\nrefused=3\n");
    same_text(hanuzak_list_close(listed.next, out, HANUZAK_CLOSING), "frames=70001\nrefusals=301\n");
    listing.receiver.open = 0x100;
    listing.receiver.count = 4111;
    listed = hanuzak_list(listing, store, sizeof store, piece, 40, out, sizeof out);
    same_receiver(listed.next.receiver, 1, 4111);
    SAME(listed.written.number, 35);
}

static void places_listed(void)
{
    uint8_t        store[HANUZAK_STORE];
    const char     piece[] = "~21024642E00202fd32\r~21024642E00202Gd32\r~2102g\r";
    hanuzak_listed listed;

    memset(store, '.', sizeof store);
    listed = hanuzak_list(hanuzak_listing_new(), store, sizeof store, (const uint8_t *)piece, sizeof piece - 1, out, sizeof out);
    same_text(listed.written, "at=0\nrefused=4\nplace=14\nat=20\nrefused=9\nplace=14\nat=40\nrefused=3\n");
}

/* ---- any bit of open is open, for each call that takes a receiver */

static void opened(void)
{
    uint8_t         store[HANUZAK_STORE];
    const uint8_t   piece[1] = { 'x' };
    hanuzak_listing listing = hanuzak_listing_new();

    memset(store, '.', sizeof store);
    for (size_t bit = 0; bit < 64; bit++) {
        listing.receiver.open = (size_t)1 << bit;
        listing.receiver.count = bit;
        same_receiver(hanuzak_step(listing.receiver, store, sizeof store, 'x').next, 1, bit + 1);
        same_receiver(hanuzak_run(listing.receiver, store, sizeof store, piece, 1).next, 1, bit + 1);
        same_receiver(hanuzak_list(listing, store, sizeof store, piece, 1, out, sizeof out).next.receiver, 1, bit + 1);
    }
}

/* ---- the stand-in and the reply reader */

static hanuzak_station station(void)
{
    hanuzak_station station;

    station.ver = VER;
    for (size_t j = 0; j < 32; j++)
        station.maker[j] = (uint8_t)(0x61 + 3 * j);
    return station;
}

static hanuzak_question question(uint8_t adr, uint8_t cid2, uint8_t command)
{
    hanuzak_question question;

    question.adr = adr;
    question.cid2 = cid2;
    question.command = command;
    return question;
}

/* The stand-in's answer to a question, in out. */
static hanuzak_answered answer(hanuzak_module *table, size_t n, hanuzak_question asked)
{
    uint8_t         frame[20];
    size_t          info = asked.cid2 == 0x47 || asked.cid2 == 0x51 ? 0 : 1;
    hanuzak_written asking = hanuzak_write_frame(VER, asked.adr, BATTERY, asked.cid2, &asked.command, info, frame, sizeof frame);

    same("question", asking.number, 0);
    return hanuzak_answer(table, n, station(), frame + 1, asking.length - 2, out, sizeof out);
}

static void same_answered(hanuzak_answered answered, uint32_t kind, uint32_t number, size_t length)
{
    SAME(answered.kind, kind);
    SAME(answered.number, number);
    SAME(answered.length, length);
}

static void same_reply(hanuzak_reply reply, uint8_t ver, uint8_t code, uint8_t flag)
{
    SAME(reply.kind, 1);
    SAME(reply.number, 0);
    SAME(reply.ver, ver);
    SAME(reply.code, code);
    SAME(reply.flag, flag);
    for (size_t j = 0; j < 32; j++)
        same_at("reply.maker", j, reply.maker[j], 0);
    SAME(reply.place, 0);
}

static void same_refused_at(hanuzak_reply reply, uint32_t number, uint32_t place)
{
    SAME(reply.kind, 2);
    SAME(reply.number, number);
    SAME(reply.ver, 0);
    SAME(reply.code, 0);
    SAME(reply.flag, 0);
    for (size_t j = 0; j < 32; j++)
        same_at("reply.maker", j, reply.maker[j], 0);
    SAME(reply.place, place);
}

static void same_refused(hanuzak_reply reply, uint32_t number)
{
    same_refused_at(reply, number, 0);
}

/* A bad character at each place of a reply. */
static void places_read(void)
{
    const hanuzak_question asked = question(SECOND, 0x42, SECOND);
    hanuzak_module         table[3];
    uint8_t                reply[HANUZAK_STORE];

    three(table);
    memset(reply, '0', sizeof reply);
    for (uint32_t at = 0; at < HANUZAK_STORE; at++) {
        reply[at] = at % 2 ? 'f' : 'g';
        same_refused_at(hanuzak_read_reply(table, 3, asked, reply, sizeof reply), at % 2 ? 4 : 9, at);
        reply[at] = '0';
    }
}

static void maker_answered(void)
{
    hanuzak_module   table[3];
    hanuzak_question asked = question(SECOND, 0x51, 0);
    hanuzak_station  sent = station();
    hanuzak_reply    reply;

    three(table);
    same_answered(answer(table, 3, asked), 1, 0, 18 + 64);
    same("station.ver", hanuzak_judge(out + 1, 80).ver, VER);
    reply = hanuzak_read_reply(table, 3, asked, out + 1, 80);
    SAME(reply.kind, 1);
    SAME(reply.number, 0);
    SAME(reply.ver, VER);
    SAME(reply.code, 0);
    SAME(reply.flag, 0);
    for (size_t j = 0; j < 32; j++)
        same_at("station.maker and reply.maker", j, reply.maker[j], sent.maker[j]);
    SAME(reply.place, 0);
}

/* A reply around INFO in out is read into the second record, and into nothing else. */
static void read_back(uint8_t cid2, hanuzak_written info, uint8_t flag)
{
    uint8_t         frame[256];
    hanuzak_module  table[3], plain[3];
    hanuzak_written framed = hanuzak_write_frame(0x22, SECOND, BATTERY, 0x00, out, info.length, frame, sizeof frame);

    three(table);
    table[2].analog = sample(SECOND, 40).analog;
    table[2].alarm = sample(SECOND, 40).alarm;
    table[2].limits = sample(SECOND, 40).limits;
    table[2].parameters = sample(SECOND, 40).parameters;
    memset(table[2].serial, 0, sizeof table[2].serial);
    memset(table[2].version, 0, sizeof table[2].version);
    memcpy(plain, table, sizeof table);
    same_reply(hanuzak_read_reply(table, 3, question(SECOND, cid2, SECOND), frame + 1, framed.length - 2), 0x22, 0x00, flag);
    if (cid2 == 0x42)
        plain[2].analog = sample(SECOND, 3).analog;
    if (cid2 == 0x44)
        plain[2].alarm = sample(SECOND, 3).alarm;
    if (cid2 == 0x47)
        plain[2].parameters = sample(SECOND, 3).parameters;
    if (cid2 == 0x92)
        plain[2].limits = sample(SECOND, 3).limits;
    if (cid2 == 0x93)
        memcpy(plain[2].serial, sample(SECOND, 3).serial, sizeof plain[2].serial);
    if (cid2 == 0x96)
        memcpy(plain[2].version, sample(SECOND, 3).version, sizeof plain[2].version);
    for (size_t i = 0; i < 3; i++)
        same_module(table[i], plain[i]);
}

static void records_read(void)
{
    hanuzak_module m = sample(SECOND, 3);

    read_back(0x42, hanuzak_write_analog(m, FLAG, out, sizeof out), FLAG);
    read_back(0x44, hanuzak_write_alarm(m, FLAG, out, sizeof out), FLAG);
    read_back(0x47, hanuzak_write_parameters(m, FLAG, out, sizeof out), FLAG);
    read_back(0x92, hanuzak_write_limits(m, out, sizeof out), 0);
    read_back(0x93, hanuzak_write_serial(m, out, sizeof out), 0);
    read_back(0x96, hanuzak_write_version(m, out, sizeof out), 0);
}

/* The group's answer, read into records of other values: those that are on become what was sent. */
static void group_read(void)
{
    hanuzak_module   table[3], read[3];
    hanuzak_question asked = question(MASTER, 0x42, GROUP);
    hanuzak_answered answered;

    three(table);
    three(read);
    for (size_t i = 0; i < 3; i++)
        read[i].analog = sample(MASTER, 40).analog;
    answered = answer(table, 3, asked);
    same_answered(answered, 1, 0, 18 + 2 * (2 + 2 * 67));
    same_reply(hanuzak_read_reply(read, 3, asked, out + 1, answered.length - 2), VER, 0x00, 0x00);
    same_analog(read[0].analog, table[0].analog);
    same_analog(read[1].analog, sample(MASTER, 40).analog);
    same_analog(read[2].analog, table[2].analog);
}

/* Silence for a question with a bad character, whichever it is. */
static void silence_for_bad_characters(void)
{
    static const char *const asked[] = { "21054642E0020fFD2C", "21054642E0020gFD2C" };
    hanuzak_module           table[3];

    three(table);
    for (size_t i = 0; i < 2; i++)
        same_answered(hanuzak_answer(table, 3, station(), (const uint8_t *)asked[i], 18, out, sizeof out), HANUZAK_SILENCE, 0, 0);
}

/* on, link_fault and the three fields of a question by what is answered and refused. */
static void marks(void)
{
    hanuzak_module   table[3], off;
    hanuzak_question asked = question(SECOND, 0x42, SECOND);

    three(table);
    same_answered(hanuzak_answer(table, 3, station(), NULL, 0, out, HANUZAK_ANSWER - 1), 2, 32, 0);
    same_answered(answer(table, 0, asked), 2, 31, 0);
    same_answered(answer(table, 3, question(MASTER + 1, 0x42, MASTER + 1)), 0, 0, 0);
    table[2].link_fault = 1;
    same_answered(answer(table, 3, asked), 1, 0, 18);
    same_reply(hanuzak_read_reply(table, 3, asked, out + 1, 16), VER, 0x91, 0);
    same_refused(hanuzak_read_reply(table, 3, question(MASTER, 0x42, MASTER), out + 1, 16), 11);
    same_refused(hanuzak_read_reply(table, 3, question(0x0D, 0x42, 0x0D), out + 1, 16), 23);
    same_refused(hanuzak_read_reply(table, 3, question(SECOND, 0x42, MASTER), out + 1, 16), 34);
    same_refused(hanuzak_read_reply(table, 3, question(SECOND, 0x94, SECOND), out + 1, 16), 34);
    same_reply(hanuzak_read_reply(table, 3, question(SECOND, 0x47, 0), out + 1, 16), VER, 0x91, 0);
    same_answered(answer(table, 3, question(SECOND, 0x47, 0)), 1, 0, 18 + 50);
    table[2].link_fault = 0;
    off = table[2];
    off.on = 0;
    same_answered(answer(table, 3, question(SECOND, 0x95, SECOND)), 1, 0, 18);
    same_module(table[2], off);
    same_answered(answer(table, 3, asked), 0, 0, 0);
}

/* Which numbers are signed: all bits set, written and read. */
static void signs(void)
{
    hanuzak_module m = sample(SECOND, 0);
    uint8_t        frame[256];
    size_t         length;

    memset(m.analog.cells, 0xFF, sizeof m.analog.cells);
    memset(m.analog.temperatures, 0xFF, sizeof m.analog.temperatures);
    memset(&m.analog.current, 0xFF, sizeof m.analog.current);
    memset(&m.analog.voltage, 0xFF, sizeof m.analog.voltage);
    memset(&m.analog.cycles, 0xFF, sizeof m.analog.cycles);
    memset(&m.limits, 0xFF, sizeof m.limits);
    memset(&m.parameters, 0xFF, sizeof m.parameters);
    length = hanuzak_write_analog(m, FLAG, out, sizeof out).length;
    length = hanuzak_write_frame(VER, SECOND, BATTERY, 0x00, out, length, frame, sizeof frame).length;
    same_reply(hanuzak_read_reply(&m, 1, question(SECOND, 0x42, SECOND), frame + 1, length - 2), VER, 0x00, FLAG);
    length = hanuzak_write_limits(m, out, sizeof out).length;
    length = hanuzak_write_frame(VER, SECOND, BATTERY, 0x00, out, length, frame, sizeof frame).length;
    same_reply(hanuzak_read_reply(&m, 1, question(SECOND, 0x92, SECOND), frame + 1, length - 2), VER, 0x00, 0x00);
    length = hanuzak_write_parameters(m, FLAG, out, sizeof out).length;
    length = hanuzak_write_frame(VER, SECOND, BATTERY, 0x00, out, length, frame, sizeof frame).length;
    same_reply(hanuzak_read_reply(&m, 1, question(SECOND, 0x47, SECOND), frame + 1, length - 2), VER, 0x00, FLAG);
    SAME(m.analog.cells[15], -1);
    SAME(m.analog.temperatures[7], -1);
    SAME(m.analog.current, -1);
    SAME(m.analog.voltage, 65535);
    SAME(m.analog.cycles, 65535);
    SAME(m.limits.charge_voltage, 65535);
    SAME(m.limits.discharge_voltage, 65535);
    SAME(m.limits.charge_current, -1);
    SAME(m.limits.discharge_current, -1);
    SAME(m.limits.status, 255);
    SAME(m.parameters.cell_high_voltage, -1);
    SAME(m.parameters.cell_low_voltage, -1);
    SAME(m.parameters.cell_under_voltage, -1);
    SAME(m.parameters.charge_high_temperature, -1);
    SAME(m.parameters.charge_low_temperature, -1);
    SAME(m.parameters.charge_current, -1);
    SAME(m.parameters.module_high_voltage, 65535);
    SAME(m.parameters.module_low_voltage, 65535);
    SAME(m.parameters.module_under_voltage, 65535);
    SAME(m.parameters.discharge_high_temperature, -1);
    SAME(m.parameters.discharge_low_temperature, -1);
    SAME(m.parameters.discharge_current, -1);
}

/* ---- constants: the header's own, held to what the archive does */

/* The return code that the stand-in gives to a stretch; module 06 has a link fault. */
static uint8_t code_to(const char *stretch)
{
    hanuzak_module   table[4];
    hanuzak_answered answered;

    three(table);
    table[3] = sample(SIXTH, 4);
    table[3].link_fault = 1;
    answered = hanuzak_answer(table, 4, station(), (const uint8_t *)stretch, strlen(stretch), out, sizeof out);
    SAME(answered.kind, HANUZAK_REPLY);
    return hanuzak_judge(out + 1, answered.length - 2).cid2;
}

static void codes(void)
{
    same("HANUZAK_CODE_NORMAL", code_to("21054642E00205FD2C"), HANUZAK_CODE_NORMAL);
    same("HANUZAK_CODE_VER", code_to("20054642E00205FD2D"), HANUZAK_CODE_VER);
    same("HANUZAK_CODE_CHKSUM", code_to("21054642E00205FD20"), HANUZAK_CODE_CHKSUM);
    same("HANUZAK_CODE_LCHKSUM", code_to("21054642D00205FD2C"), HANUZAK_CODE_LCHKSUM);
    same("HANUZAK_CODE_CID2", code_to("21054694E00205FD25"), HANUZAK_CODE_CID2);
    same("HANUZAK_CODE_FORMAT", code_to("21054542E00205FD2D"), HANUZAK_CODE_FORMAT);
    same("HANUZAK_CODE_DATA", code_to("21054642E002FFFD05"), HANUZAK_CODE_DATA);
    same("HANUZAK_CODE_ADR", code_to("21054642E00202FD2F"), HANUZAK_CODE_ADR);
    same("HANUZAK_CODE_LINK", code_to("21064642E00206FD2A"), HANUZAK_CODE_LINK);
}

/* Each command is served, with INFO of its own length. */
static void commands(void)
{
    const uint8_t  all[] = { HANUZAK_ANALOG, HANUZAK_ALARM,  HANUZAK_PARAMETERS, HANUZAK_MAKER,
                             HANUZAK_LIMITS, HANUZAK_SERIAL, HANUZAK_SOFTWARE };
    const size_t   bytes[] = { 69, 34, 25, 32, 10, 17, 6 };
    hanuzak_module table[3];

    three(table);
    for (size_t i = 0; i < sizeof all; i++)
        same_answered(answer(table, 3, question(MASTER, all[i], MASTER)), HANUZAK_REPLY, 0, 18 + 2 * bytes[i]);
    same("HANUZAK_GROUP", answer(table, 3, question(MASTER, HANUZAK_ANALOG, HANUZAK_GROUP)).length, 18 + 2 * (2 + 2 * 67));
    same("HANUZAK_CID1", hanuzak_judge(out + 1, 16 + 2 * (2 + 2 * 67)).cid1, HANUZAK_CID1);
    same_answered(answer(table, 3, question(MASTER, HANUZAK_TURN_OFF, MASTER)), HANUZAK_REPLY, 0, 18);
    SAME(table[0].on, 0);
    same("HANUZAK_PROTOCOL", code_to("2005464F0000FD95"), HANUZAK_CODE_NORMAL);
}

/* Each number has words of its own, and no other number has any. */
static void refusals(void)
{
    for (uint32_t number = 0; number < 300; number++) {
        int is_one = (number >= 1 && number <= 9) || (number >= 11 && number <= 23) || (number >= 31 && number <= 35);

        same_at("hanuzak_refusal", number, strcmp(hanuzak_refusal(number), "no refusal") != 0, is_one);
        for (uint32_t other = 0; is_one && other < number; other++)
            same_at("hanuzak_refusal", number, strcmp(hanuzak_refusal(number), hanuzak_refusal(other)) != 0, 1);
    }
    SAME(HANUZAK_REFUSAL_CHKSUM_DIFFERS, hanuzak_judge((const uint8_t *)"21054642E00205FD20", 18).number);
    SAME(HANUZAK_REFUSAL_TABLE_BREAKS_RULE, hanuzak_table(NULL, 0));
    SAME(HANUZAK_REFUSAL_RECEIVER_BEYOND_STORE, 35);
}

static void meanings(void)
{
    same("tenths_celsius", hanuzak_tenths_celsius(0x0A2F), -124);
    same("milliamps", hanuzak_milliamps(INT16_MIN), -3276800);
}

/* After a refusal, and after a reply that changes no record, not one byte of the lent table differs, its padding neither. */
static void untouched(void)
{
    static const size_t padding[] = {3, 5, 39, 70, 71, 115, 137, 162, 163};
    const hanuzak_question asked = question(SECOND, 0x42, SECOND);
    hanuzak_module         table[3];
    uint8_t                before[sizeof table];

    three(table);
    table[2].link_fault = 1;
    for (size_t i = 0; i < 3; i++)
        for (size_t j = 0; j < sizeof padding / sizeof padding[0]; j++) ((uint8_t *)&table[i])[padding[j]] = 0xAA;
    memcpy(before, table, sizeof table);
    same_answered(answer(table, 3, asked), HANUZAK_REPLY, 0, 18);
    same_reply(hanuzak_read_reply(table, 3, asked, out + 1, 16), VER, 0x91, 0);
    same("bytes after code 91H", memcmp(table, before, sizeof table), 0);
    same_refused(hanuzak_read_reply(table, 3, asked, out + 1, 15), 3);
    same("bytes after 3", memcmp(table, before, sizeof table), 0);
    same_refused(hanuzak_read_reply(table, 3, question(MASTER, 0x42, MASTER), out + 1, 16), 11);
    same("bytes after 11", memcmp(table, before, sizeof table), 0);
    same_refused(hanuzak_read_reply(table, 3, question(SECOND, 0x42, MASTER), out + 1, 16), 34);
    same("bytes after 34", memcmp(table, before, sizeof table), 0);
}

int main(void)
{
    analog_written();
    alarm_written();
    parameters_written();
    others_written();
    group_written();
    made();
    untouched();
    rule();
    moved();
    frame_written();
    stepped();
    bad_characters();
    ran();
    listed();
    places_listed();
    opened();
    maker_answered();
    places_read();
    records_read();
    group_read();
    silence_for_bad_characters();
    marks();
    signs();
    codes();
    commands();
    refusals();
    meanings();
    printf("layout: every field crosses, and each constant holds (%lu compared)\n", compared);
    return EXIT_SUCCESS;
}
