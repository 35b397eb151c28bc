/*
 * hanuzak.h - C interface of the proved library libhanuzak.a (x86-64 Linux).  C11 or later, C++17 or later.
 * SPDX-License-Identifier: MIT
 *
 * Battery modules on RS485, PYLON low voltage protocol V3.3.  "PROTOCOL 2.3" below is paragraph 2.3 of docs/PROTOCOL.md, which
 * says the rules; docs/REFUSALS.md has each refusal with what it leaves.  This page is enough to write a program.
 * To link: cc -std=c11 -Iinclude program.c build/libhanuzak.a; ./run cells 02 </dev/null makes the archive.
 *
 * What it is for:
 *   to listen      hanuzak_run over each piece of the line as it comes; it hands out frames, each at its own CR
 *   to ask         hanuzak_write_frame makes a question, hanuzak_read_reply reads the reply into a table of records
 *   to stand in    hanuzak_answer gives the reply that the modules of a table would give
 *   to look        hanuzak_list makes the listing of a capture
 *
 * The words of the protocol (PROTOCOL 1.7, 2.2, 5.9):
 *   frame      SOI, a stretch, CR.  SOI is 7EH (tilde), CR is 0DH.
 *   stretch    what stands between SOI and CR: VER, ADR, CID1, CID2, LENGTH, INFO and CHKSUM, each byte as two hex characters,
 *              upper case.  Every function here takes a stretch without SOI and CR.
 *   VER        the version of the protocol, 20H or 21H for example.
 *   ADR        the module that is asked, or that replies: n + 16m, n from 2 to 13, m from 0 to 7.  n = 2 is the master of group m.
 *   CID1       46H for battery data, in questions and replies.
 *   CID2       in a question the command, in a reply the return code.
 *   LENGTH     LENID, and its own check LCHKSUM in the top 4 bits.  LENID counts the characters of INFO, two for each byte.
 *   INFO       what a question or a reply carries, 0 to 2,047 bytes.
 *   CHKSUM     the check over all characters before it.
 *   Command    the byte of INFO that says whose data: ADR, or FFH at the master for the whole group (42H and 44H only).
 *   flag       the first byte of INFO of a reply to 42H, 44H and 47H.  Bit 4: an unread change of a switching value, bit 0: of an
 *              alarm.
 *   table      1 to 12 records in rising ADR, all of one group m.  A member is a module with a record; it is on or off.
 *
 * Each function is proved to meet its contract, for every call that keeps the caller's duties:
 *   1. A pointer with a count points to that many elements that the caller may use (const: may read) for the whole call.
 *      With a count of 0 it may be NULL.
 *   2. It is aligned for its type.  Count times size is below 2^63, as for any C object.
 *   3. What a non-const pointer reaches overlaps nothing else that the call is lent; nothing else reads or writes it
 *      during the call, and nothing writes what a const pointer reaches.  Other threads count.
 *   4. Every element is initialised, list places past a count and buffers that are only written too.  Padding is free, and
 *      unspecified after a store: never compare two records by memcmp.
 * There is no other duty: every value of every field is a legal argument, a bad one gets a refusal's number.
 * No function allocates, blocks, keeps a pointer after it returns or has state of its own.  Of libc they call memcpy, memmove and
 * memset.  Measured, not proved: hanuzak_read_reply takes 38 KB of stack, hanuzak_answer 18, the group writers 9, every other at
 * most 7.
 *
 * Where a field has no value it is 0.  With a refusal every lent buffer and the table stay as they were, unless said otherwise.
 * Not proved, as it is C: hanuzak_refusal and the constants of this header.
 */
#ifndef HANUZAK_H
#define HANUZAK_H

#include <stddef.h>
#include <stdint.h>

#ifdef __cplusplus
extern "C" {
#endif

#define HANUZAK_VERSION "0.3.0" /* of this interface: MAJOR.MINOR.PATCH */
#define HANUZAK_VERSION_MAJOR 0
#define HANUZAK_VERSION_MINOR 3
#define HANUZAK_VERSION_PATCH 0

/* ---- sizes */

#define HANUZAK_CELLS 16         /* the most cells of a module */
#define HANUZAK_TEMPERATURES 8   /* the most temperatures */
#define HANUZAK_MODULES 12       /* the most records of a table */
#define HANUZAK_STORE 4110       /* the least store of a receiver: the longest stretch */
#define HANUZAK_ANSWER 4112      /* the least buffer of an answer: the longest frame */
#define HANUZAK_LISTING 4200     /* the least buffer of a listing */
#define HANUZAK_CLOSING 38       /* the least buffer for its totals */
#define HANUZAK_LIMIT 1073741824 /* the bytes of a stream that are listed */

/* ---- kinds: HANUZAK_REFUSED has a number, the others have none */

#define HANUZAK_NOTHING 0 /* of an event: no frame and no refusal, yet */
#define HANUZAK_FRAME 1   /* of an event: a frame, with its four bytes and LENID */
#define HANUZAK_SILENCE 0 /* of an answer: nothing is to be sent */
#define HANUZAK_REPLY 1   /* of an answer: a reply of length bytes is to be sent */
#define HANUZAK_READ 1    /* of a reply: it was read */
#define HANUZAK_REFUSED 2 /* of all three: refused, with a number */

/* ---- refusals, each with its number and its words (PROTOCOL 4.2 to 4.4) */

/*
 * Of 4 and 9 comes the one that the first bad character calls for; both have a place beside the number, see hanuzak_event.  A
 * terminal that lowers letters gives 4; noise or a wrong baud rate gives 9, now and then 4.
 */
#define HANUZAK_REFUSALS(each)                                                                                         \
    /* of a stretch */                                                                                                 \
    each(TOO_LONG, 1, "more than 4,110 characters")                                                                    \
    each(SOI_INSIDE, 2, "SOI inside an open frame")                                                                    \
    each(TOO_SHORT, 3, "fewer than 16 characters")                                                                     \
    each(LOWER_CASE, 4, "a letter a to f in lower case")                                                               \
    each(LCHKSUM_DIFFERS, 5, "LCHKSUM differs")                                                                        \
    each(LENID_ODD, 6, "LENID is odd")                                                                                 \
    each(COUNT_DIFFERS, 7, "the count of characters is not 16 + LENID")                                                \
    each(CHKSUM_DIFFERS, 8, "CHKSUM differs")                                                                          \
    each(NO_HEX_DIGIT, 9, "a character that is no hex digit, not even in lower case")                                  \
    /* of a reply that is a frame */                                                                                   \
    each(ADR_DIFFERS, 11, "ADR is not the one asked")                                                                  \
    each(CID1_DIFFERS, 12, "CID1 is not 46H")                                                                          \
    each(CODE_UNKNOWN, 13, "a return code other than 00H to 06H, 90H, 91H")                                            \
    each(INFO_BESIDE_CODE, 14, "INFO beside a return code other than 00H")                                             \
    each(COUNT_OUT_OF_RANGE, 15, "cell count not 1 to 16, or temperature count not 1 to 8")                            \
    each(INFO_ENDS, 16, "INFO ends before a needed byte")                                                              \
    each(BYTES_LEFT_OVER, 17, "bytes left over, or a thirteenth record")                                               \
    each(ITEMS_UNKNOWN, 18, "user defined items neither 2 nor 4")                                                      \
    each(CAPACITIES_BREAK_RULE, 19, "the capacities break the 65 Ah rule")                                             \
    each(ALARM_CODE_UNKNOWN, 20, "an alarm code other than 00H, 01H, 02H, F0H")                                        \
    each(COMMAND_DIFFERS, 21, "the Command byte is not the one asked")                                                 \
    each(RECORDS_DIFFER, 22, "the number of records is not that of the members that are on")                           \
    each(ADR_NOT_IN_TABLE, 23, "the ADR asked is not in the table")                                                    \
    /* of a call */                                                                                                    \
    each(TABLE_BREAKS_RULE, 31, "the table breaks its rule")                                                           \
    each(BUFFER_TOO_SHORT, 32, "a lent buffer is too short")                                                           \
    each(NOT_ENCODABLE, 33, "a value that can't be encoded")                                                           \
    each(NOT_SERVED, 34, "the command asked is not served, or its Command is neither ADR nor FFH at the master with 42H or 44H") \
    each(RECEIVER_BEYOND_STORE, 35, "a receiver with a count above 4,110")

/* HANUZAK_REFUSAL_TOO_LONG to HANUZAK_REFUSAL_RECEIVER_BEYOND_STORE */
#define HANUZAK_NAMED(name, number, words) HANUZAK_REFUSAL_##name = (number),
enum hanuzak_refusal_number { HANUZAK_REFUSALS(HANUZAK_NAMED) HANUZAK_REFUSAL_NONE = 0 };
#undef HANUZAK_NAMED

/* The words of a refusal's number; "no refusal" for 0 and for every number that is none. */
static inline const char *hanuzak_refusal(uint32_t number)
{
#define HANUZAK_SAID(name, number, words) \
    case (number):                        \
        return words;
    switch (number) {
        HANUZAK_REFUSALS(HANUZAK_SAID)
    default:
        break;
    }
#undef HANUZAK_SAID
    return "no refusal";
}

/* ---- commands and return codes (PROTOCOL 6.1, 6.5) */

#define HANUZAK_CID1 0x46       /* battery data: CID1 of every question and reply */
#define HANUZAK_GROUP 0xFF      /* Command for the whole group, at the master with 42H and 44H */

#define HANUZAK_ANALOG 0x42     /* cells, temperatures, current, voltage, capacities, cycles */
#define HANUZAK_ALARM 0x44      /* alarm codes and status */
#define HANUZAK_PARAMETERS 0x47 /* system parameter: the module's own limits.  No Command */
#define HANUZAK_PROTOCOL 0x4F   /* the protocol's version: VER of the reply.  No Command */
#define HANUZAK_MAKER 0x51      /* name, software version, manufacturer.  No Command */
#define HANUZAK_LIMITS 0x92     /* limits for charge and discharge */
#define HANUZAK_SERIAL 0x93     /* serial number */
#define HANUZAK_TURN_OFF 0x95   /* turn off the module */
#define HANUZAK_SOFTWARE 0x96   /* software version */

#define HANUZAK_CODE_NORMAL 0x00  /* accepted, with data */
#define HANUZAK_CODE_VER 0x01     /* VER is not the module's */
#define HANUZAK_CODE_CHKSUM 0x02  /* CHKSUM is wrong */
#define HANUZAK_CODE_LCHKSUM 0x03 /* LCHKSUM is wrong */
#define HANUZAK_CODE_CID2 0x04    /* no such command */
#define HANUZAK_CODE_FORMAT 0x05  /* command format: LENGTH or CID1 is wrong */
#define HANUZAK_CODE_DATA 0x06    /* invalid data: Command FFH where it may not be */
#define HANUZAK_CODE_ADR 0x90     /* Command is neither ADR nor FFH */
#define HANUZAK_CODE_LINK 0x91    /* internal communication error */

/* ---- alarm codes and the bits of status (PROTOCOL 9.13 to 9.15, 9.18); bits that are not named have no meaning */

#define HANUZAK_ALARM_NORMAL 0x00
#define HANUZAK_ALARM_BELOW 0x01 /* below the lower limit */
#define HANUZAK_ALARM_ABOVE 0x02 /* above the higher limit */
#define HANUZAK_ALARM_OTHER 0xF0 /* other error */

/* hanuzak_alarm: status[0], "status 1", each bit a protection that has triggered */
#define HANUZAK_STATUS1_MODULE_UNDER_VOLTAGE 0x80
#define HANUZAK_STATUS1_CHARGE_OVER_TEMPERATURE 0x40
#define HANUZAK_STATUS1_DISCHARGE_OVER_TEMPERATURE 0x20
#define HANUZAK_STATUS1_DISCHARGE_OVER_CURRENT 0x10
#define HANUZAK_STATUS1_CHARGE_OVER_CURRENT 0x04
#define HANUZAK_STATUS1_CELL_UNDER_VOLTAGE 0x02
#define HANUZAK_STATUS1_MODULE_OVER_VOLTAGE 0x01
/* status[1], "status 2" */
#define HANUZAK_STATUS2_USING_MODULE_POWER 0x08
#define HANUZAK_STATUS2_DISCHARGE_MOSFET 0x04 /* on */
#define HANUZAK_STATUS2_CHARGE_MOSFET 0x02    /* on */
#define HANUZAK_STATUS2_PRE_MOSFET 0x01       /* on; reserved */
/* status[2], "status 3" */
#define HANUZAK_STATUS3_CHARGE_CURRENT 0x80    /* above 0.1 A */
#define HANUZAK_STATUS3_DISCHARGE_CURRENT 0x40 /* below -0.1 A */
#define HANUZAK_STATUS3_HEATER 0x20            /* on; reserved */
#define HANUZAK_STATUS3_FULLY_CHARGED 0x08
#define HANUZAK_STATUS3_BUZZER 0x01 /* on */
/* status[3] has a bit for each of cells 1 to 8, status[4] for cells 9 to 16, the lowest bit first: 1 for an error of that cell */

/* hanuzak_limits: status.  An inverter that obeys it charges and discharges only while the bit is 1 */
#define HANUZAK_LIMITS_CHARGE 0x80        /* charge enabled */
#define HANUZAK_LIMITS_DISCHARGE 0x40     /* discharge enabled */
#define HANUZAK_LIMITS_CHARGE_NOW_1 0x20  /* charge immediately, first mark */
#define HANUZAK_LIMITS_CHARGE_NOW_2 0x10  /* charge immediately, second mark */
#define HANUZAK_LIMITS_FULL_CHARGE 0x08   /* a full charge is requested */

/* ---- the module record (PROTOCOL 5.4 to 5.6); list places beyond a count are 0 */

/*
 * What 42H carries.  remaining and total are both at most 65,000, or total is above 65,000 and both are below 2^24: other pairs
 * can't be encoded.
 */
typedef struct hanuzak_analog {
    uint8_t  cell_count;                         /* 1 to 16 */
    int16_t  cells[HANUZAK_CELLS];               /* mV */
    uint8_t  temperature_count;                  /* 1 to 8; the first is the board's, the next four are averages of four cells */
    int16_t  temperatures[HANUZAK_TEMPERATURES]; /* as on the wire; see hanuzak_tenths_celsius */
    int16_t  current;                            /* 100 mA, charge positive; see hanuzak_milliamps */
    uint16_t voltage;                            /* mV */
    uint32_t remaining;                          /* mAh */
    uint32_t total;                              /* mAh */
    uint16_t cycles;
} hanuzak_analog;

/* What 44H carries: alarm codes, and the five status bytes.  The counts are as in hanuzak_analog, and may differ from those. */
typedef struct hanuzak_alarm {
    uint8_t cell_count;
    uint8_t cells[HANUZAK_CELLS];
    uint8_t temperature_count;
    uint8_t temperatures[HANUZAK_TEMPERATURES];
    uint8_t charge_current;
    uint8_t module_voltage;
    uint8_t discharge_current;
    uint8_t status[5];
} hanuzak_alarm;

/* What 92H carries. */
typedef struct hanuzak_limits {
    uint16_t charge_voltage;    /* mV */
    uint16_t discharge_voltage; /* mV */
    int16_t  charge_current;    /* 100 mA */
    int16_t  discharge_current; /* 100 mA */
    uint8_t  status;
} hanuzak_limits;

/* What 47H carries: the module's own limits, in the order of the reply.  Low is the limit of the alarm, under of the protection. */
typedef struct hanuzak_parameters {
    int16_t  cell_high_voltage;          /* mV */
    int16_t  cell_low_voltage;           /* mV, alarm */
    int16_t  cell_under_voltage;         /* mV, protection */
    int16_t  charge_high_temperature;    /* as on the wire; see hanuzak_tenths_celsius */
    int16_t  charge_low_temperature;     /* as on the wire */
    int16_t  charge_current;             /* 100 mA; see hanuzak_milliamps */
    uint16_t module_high_voltage;        /* mV */
    uint16_t module_low_voltage;         /* mV, alarm */
    uint16_t module_under_voltage;       /* mV, protection */
    int16_t  discharge_high_temperature; /* as on the wire */
    int16_t  discharge_low_temperature;  /* as on the wire */
    int16_t  discharge_current;          /* 100 mA */
} hanuzak_parameters;

/* One module.  on and link_fault (an internal communication error) are bytes 0 or 1. */
typedef struct hanuzak_module {
    uint8_t            adr;
    uint8_t            on;
    uint8_t            link_fault;
    hanuzak_analog     analog;
    hanuzak_alarm      alarm;
    hanuzak_limits     limits;
    uint8_t            serial[16];
    uint8_t            version[5]; /* of the software, 96H */
    hanuzak_parameters parameters;
} hanuzak_module;

/* What the table holds beside its records: VER, and the 32 bytes of 51H (10 name, 2 software version, 20 manufacturer). */
typedef struct hanuzak_station {
    uint8_t ver;
    uint8_t maker[32];
} hanuzak_station;

/* ---- answers */

/* number 0 and how many bytes were written, or the refusal's number and length 0. */
typedef struct hanuzak_written {
    uint32_t number;
    size_t   length;
} hanuzak_written;

/*
 * HANUZAK_NOTHING, HANUZAK_FRAME with its four bytes and LENID, or HANUZAK_REFUSED with a number.  With the numbers 4 and 9 place is
 * that of the first bad character, one that is neither 0 to 9 nor A to F: 0 for the first character after SOI.  Where SOI is byte at
 * of a capture, that is byte at + 1 + place.
 */
typedef struct hanuzak_event {
    uint32_t kind;
    uint32_t number;
    uint8_t  ver;
    uint8_t  adr;
    uint8_t  cid1;
    uint8_t  cid2;
    uint32_t place; /* 0 to 4,109 with 4 and 9, else 0 */
    size_t   lenid;
} hanuzak_event;

/*
 * open 0 is waiting, whatever the count; any other value is open with count characters, which stand at the front of the store.
 * open is as wide as count, so that a receiver that goes from call to call is loaded as it was stored.
 */
typedef struct hanuzak_receiver {
    size_t open;
    size_t count;
} hanuzak_receiver;

typedef struct hanuzak_stepped {
    hanuzak_receiver next;
    hanuzak_event    event;
} hanuzak_stepped;

/*
 * held is how many characters the stretch had when the event's byte came.  They stand at the front of the store, and the SOI that
 * opened the stretch came held + 1 bytes before the event's byte, which is the last one taken.
 */
typedef struct hanuzak_ran {
    hanuzak_receiver next;
    hanuzak_event    event;
    size_t           taken; /* how many bytes of the piece */
    size_t           held;  /* 0 with HANUZAK_NOTHING, 32 and 35 */
} hanuzak_ran;

/* Where a listing stands: its receiver, the offset of the next byte, and the totals so far. */
typedef struct hanuzak_listing {
    hanuzak_receiver receiver;
    uint32_t         offset;
    uint32_t         frames;
    uint32_t         refusals;
} hanuzak_listing;

typedef struct hanuzak_listed {
    hanuzak_listing next;
    size_t          taken;   /* how many bytes of the piece */
    hanuzak_written written; /* number 0 and the length of the text, or the refusal's number */
} hanuzak_listed;

/* HANUZAK_SILENCE, HANUZAK_REPLY of length bytes, or HANUZAK_REFUSED with a number. */
typedef struct hanuzak_answered {
    uint32_t kind;
    uint32_t number;
    size_t   length;
} hanuzak_answered;

/*
 * What was asked: the ADR, the command and its Command.  command must be adr, or HANUZAK_GROUP at the master with 42H and 44H;
 * anything else, 0 too, is refused with 34.  With 47H, 4FH and 51H, which have no Command, it is ignored.
 */
typedef struct hanuzak_question {
    uint8_t adr;
    uint8_t cid2;
    uint8_t command;
} hanuzak_question;

/*
 * HANUZAK_READ or HANUZAK_REFUSED with a number.  flag is that of 42H, 44H and 47H with code 00H, else 0.  maker has the 32 bytes
 * of 51H; zeros for every other command and code, and with a refusal.  place is as in hanuzak_event.
 */
typedef struct hanuzak_reply {
    uint32_t kind;
    uint32_t number;
    uint8_t  ver;
    uint8_t  code;
    uint8_t  flag;
    uint8_t  maker[32];
    uint32_t place; /* 0 to 4,109 with 4 and 9, else 0 */
} hanuzak_reply;

/* ---- the layout that the library was compiled with: the size of each struct, the place and size of each field */

#ifdef __cplusplus
#define HANUZAK_LAYOUT(condition) static_assert(condition, "hanuzak.h: layout: " #condition)
#else
#define HANUZAK_LAYOUT(condition) _Static_assert(condition, "hanuzak.h: layout: " #condition)
#endif
#define HANUZAK_SIZE(type, size) HANUZAK_LAYOUT(sizeof(type) == (size))
#define HANUZAK_FIELD(type, field, place, size) HANUZAK_LAYOUT(offsetof(type, field) == (place) && sizeof(((type *)0)->field) == (size))

HANUZAK_SIZE(size_t, 8);

HANUZAK_SIZE(hanuzak_analog, 68);
HANUZAK_FIELD(hanuzak_analog, cell_count, 0, 1);
HANUZAK_FIELD(hanuzak_analog, cells, 2, 32);
HANUZAK_FIELD(hanuzak_analog, temperature_count, 34, 1);
HANUZAK_FIELD(hanuzak_analog, temperatures, 36, 16);
HANUZAK_FIELD(hanuzak_analog, current, 52, 2);
HANUZAK_FIELD(hanuzak_analog, voltage, 54, 2);
HANUZAK_FIELD(hanuzak_analog, remaining, 56, 4);
HANUZAK_FIELD(hanuzak_analog, total, 60, 4);
HANUZAK_FIELD(hanuzak_analog, cycles, 64, 2);

HANUZAK_SIZE(hanuzak_alarm, 34);
HANUZAK_FIELD(hanuzak_alarm, cell_count, 0, 1);
HANUZAK_FIELD(hanuzak_alarm, cells, 1, 16);
HANUZAK_FIELD(hanuzak_alarm, temperature_count, 17, 1);
HANUZAK_FIELD(hanuzak_alarm, temperatures, 18, 8);
HANUZAK_FIELD(hanuzak_alarm, charge_current, 26, 1);
HANUZAK_FIELD(hanuzak_alarm, module_voltage, 27, 1);
HANUZAK_FIELD(hanuzak_alarm, discharge_current, 28, 1);
HANUZAK_FIELD(hanuzak_alarm, status, 29, 5);

HANUZAK_SIZE(hanuzak_limits, 10);
HANUZAK_FIELD(hanuzak_limits, charge_voltage, 0, 2);
HANUZAK_FIELD(hanuzak_limits, discharge_voltage, 2, 2);
HANUZAK_FIELD(hanuzak_limits, charge_current, 4, 2);
HANUZAK_FIELD(hanuzak_limits, discharge_current, 6, 2);
HANUZAK_FIELD(hanuzak_limits, status, 8, 1);

HANUZAK_SIZE(hanuzak_parameters, 24);
HANUZAK_FIELD(hanuzak_parameters, cell_high_voltage, 0, 2);
HANUZAK_FIELD(hanuzak_parameters, cell_low_voltage, 2, 2);
HANUZAK_FIELD(hanuzak_parameters, cell_under_voltage, 4, 2);
HANUZAK_FIELD(hanuzak_parameters, charge_high_temperature, 6, 2);
HANUZAK_FIELD(hanuzak_parameters, charge_low_temperature, 8, 2);
HANUZAK_FIELD(hanuzak_parameters, charge_current, 10, 2);
HANUZAK_FIELD(hanuzak_parameters, module_high_voltage, 12, 2);
HANUZAK_FIELD(hanuzak_parameters, module_low_voltage, 14, 2);
HANUZAK_FIELD(hanuzak_parameters, module_under_voltage, 16, 2);
HANUZAK_FIELD(hanuzak_parameters, discharge_high_temperature, 18, 2);
HANUZAK_FIELD(hanuzak_parameters, discharge_low_temperature, 20, 2);
HANUZAK_FIELD(hanuzak_parameters, discharge_current, 22, 2);

HANUZAK_SIZE(hanuzak_module, 164);
HANUZAK_FIELD(hanuzak_module, adr, 0, 1);
HANUZAK_FIELD(hanuzak_module, on, 1, 1);
HANUZAK_FIELD(hanuzak_module, link_fault, 2, 1);
HANUZAK_FIELD(hanuzak_module, analog, 4, 68);
HANUZAK_FIELD(hanuzak_module, alarm, 72, 34);
HANUZAK_FIELD(hanuzak_module, limits, 106, 10);
HANUZAK_FIELD(hanuzak_module, serial, 116, 16);
HANUZAK_FIELD(hanuzak_module, version, 132, 5);
HANUZAK_FIELD(hanuzak_module, parameters, 138, 24);

HANUZAK_SIZE(hanuzak_station, 33);
HANUZAK_FIELD(hanuzak_station, ver, 0, 1);
HANUZAK_FIELD(hanuzak_station, maker, 1, 32);

HANUZAK_SIZE(hanuzak_written, 16);
HANUZAK_FIELD(hanuzak_written, number, 0, 4);
HANUZAK_FIELD(hanuzak_written, length, 8, 8);

HANUZAK_SIZE(hanuzak_event, 24);
HANUZAK_FIELD(hanuzak_event, kind, 0, 4);
HANUZAK_FIELD(hanuzak_event, number, 4, 4);
HANUZAK_FIELD(hanuzak_event, ver, 8, 1);
HANUZAK_FIELD(hanuzak_event, adr, 9, 1);
HANUZAK_FIELD(hanuzak_event, cid1, 10, 1);
HANUZAK_FIELD(hanuzak_event, cid2, 11, 1);
HANUZAK_FIELD(hanuzak_event, place, 12, 4);
HANUZAK_FIELD(hanuzak_event, lenid, 16, 8);

HANUZAK_SIZE(hanuzak_receiver, 16);
HANUZAK_FIELD(hanuzak_receiver, open, 0, 8);
HANUZAK_FIELD(hanuzak_receiver, count, 8, 8);

HANUZAK_SIZE(hanuzak_stepped, 40);
HANUZAK_FIELD(hanuzak_stepped, next, 0, 16);
HANUZAK_FIELD(hanuzak_stepped, event, 16, 24);

HANUZAK_SIZE(hanuzak_ran, 56);
HANUZAK_FIELD(hanuzak_ran, next, 0, 16);
HANUZAK_FIELD(hanuzak_ran, event, 16, 24);
HANUZAK_FIELD(hanuzak_ran, taken, 40, 8);
HANUZAK_FIELD(hanuzak_ran, held, 48, 8);

HANUZAK_SIZE(hanuzak_listing, 32);
HANUZAK_FIELD(hanuzak_listing, receiver, 0, 16);
HANUZAK_FIELD(hanuzak_listing, offset, 16, 4);
HANUZAK_FIELD(hanuzak_listing, frames, 20, 4);
HANUZAK_FIELD(hanuzak_listing, refusals, 24, 4);

HANUZAK_SIZE(hanuzak_listed, 56);
HANUZAK_FIELD(hanuzak_listed, next, 0, 32);
HANUZAK_FIELD(hanuzak_listed, taken, 32, 8);
HANUZAK_FIELD(hanuzak_listed, written, 40, 16);

HANUZAK_SIZE(hanuzak_answered, 16);
HANUZAK_FIELD(hanuzak_answered, kind, 0, 4);
HANUZAK_FIELD(hanuzak_answered, number, 4, 4);
HANUZAK_FIELD(hanuzak_answered, length, 8, 8);

HANUZAK_SIZE(hanuzak_question, 3);
HANUZAK_FIELD(hanuzak_question, adr, 0, 1);
HANUZAK_FIELD(hanuzak_question, cid2, 1, 1);
HANUZAK_FIELD(hanuzak_question, command, 2, 1);

HANUZAK_SIZE(hanuzak_reply, 48);
HANUZAK_FIELD(hanuzak_reply, kind, 0, 4);
HANUZAK_FIELD(hanuzak_reply, number, 4, 4);
HANUZAK_FIELD(hanuzak_reply, ver, 8, 1);
HANUZAK_FIELD(hanuzak_reply, code, 9, 1);
HANUZAK_FIELD(hanuzak_reply, flag, 10, 1);
HANUZAK_FIELD(hanuzak_reply, maker, 11, 32);
HANUZAK_FIELD(hanuzak_reply, place, 44, 4);

#undef HANUZAK_FIELD
#undef HANUZAK_SIZE
#undef HANUZAK_LAYOUT

/* ---- frames and the receiver (PROTOCOL 2 and 3) */

/* Judges the bytes between SOI and CR: a frame, or refused with 1 above 4,110 bytes, then 3, then 4 or 9, then 5 to 8. */
hanuzak_event hanuzak_judge(const uint8_t *stretch, size_t stretch_bytes);

/*
 * A fresh receiver, waiting.  Go on with one where the port says that bytes were lost: the front of a frame and the back of a
 * later one can add up to a frame that nobody sent (docs/DAMAGE.md, which says what comes of other damage on the line).
 */
hanuzak_receiver hanuzak_receiver_new(void);

/*
 * One byte of the stream: the receiver then, and the event.  After a frame the store has the bytes between SOI and CR, as
 * hanuzak_answer and hanuzak_read_reply take them, at its first 16 + lenid places; INFO is the lenid characters from place 12 on.
 * After 3 to 9 it has them at its first count places, with the count of the receiver that was given: a stand-in takes these too, and
 * answers 5 to 8.
 * A character is stored at place count, and nothing else writes to the store.  Refused: 32 for a store below 4,110 bytes, then
 * 35 for an open receiver with a count above 4,110, and the receiver comes back (open as 0 or 1, and count 0 where it waits);
 * 2 for SOI inside, open again with count 0; 1 for a 4,111th character, which is not stored, and 3 to 9 at CR, then waiting.
 */
hanuzak_stepped hanuzak_step(hanuzak_receiver receiver, uint8_t *store, size_t store_bytes, uint8_t byte);

/*
 * The same over the bytes of a piece, up to and including the byte that gives an event, or all of it with no event: call it again
 * with the rest.  With a frame and with 3 to 9 the stretch is the first held bytes of the store.  Refused as by hanuzak_step; 32
 * and 35 take no byte.
 */
hanuzak_ran hanuzak_run(hanuzak_receiver receiver, uint8_t *store, size_t store_bytes, const uint8_t *piece, size_t piece_bytes);

/* ---- writers: they return the length, write at the front of out and leave its other bytes; a refusal leaves all of it */

/*
 * A frame from SOI to CR around INFO, 18 + 2 * info_bytes bytes.  Refused: 33 for INFO above 2,047 bytes, then 32.
 * A question is one with CID1 46H and the command as CID2; its INFO is the byte Command, with 47H, 4FH and 51H none.
 */
hanuzak_written hanuzak_write_frame(uint8_t ver, uint8_t adr, uint8_t cid1, uint8_t cid2, const uint8_t *info, size_t info_bytes,
                                    uint8_t *out, size_t out_bytes);

/* INFO of 42H for one module, at most 69 bytes.  Refused: 33 where ADR or a value of analog can't be encoded, then 32. */
hanuzak_written hanuzak_write_analog(hanuzak_module module, uint8_t flag, uint8_t *out, size_t out_bytes);

/* INFO of 44H for one module, at most 36 bytes.  Refused: 33 where ADR or a value of alarm can't be encoded, then 32. */
hanuzak_written hanuzak_write_alarm(hanuzak_module module, uint8_t flag, uint8_t *out, size_t out_bytes);

/* INFO of 47H, 25 bytes.  Refused: 33 for an ADR outside the address rule, then 32. */
hanuzak_written hanuzak_write_parameters(hanuzak_module module, uint8_t flag, uint8_t *out, size_t out_bytes);

/* INFO of 92H, 10 bytes.  Refused: 33 for an ADR outside the address rule, then 32. */
hanuzak_written hanuzak_write_limits(hanuzak_module module, uint8_t *out, size_t out_bytes);

/* INFO of 93H, 17 bytes.  Refused: 33 for an ADR outside the address rule, then 32. */
hanuzak_written hanuzak_write_serial(hanuzak_module module, uint8_t *out, size_t out_bytes);

/* INFO of 96H, 6 bytes.  Refused: 33 for an ADR outside the address rule, then 32. */
hanuzak_written hanuzak_write_version(hanuzak_module module, uint8_t *out, size_t out_bytes);

/* INFO of 42H for Command FFH, with the records of the members that are on, at most 806 bytes.  Refused: 31, then 32. */
hanuzak_written hanuzak_write_analog_group(const hanuzak_module *table, size_t records, uint8_t flag, uint8_t *out,
                                           size_t out_bytes);

/* INFO of 44H for Command FFH, with the records of the members that are on, at most 410 bytes.  Refused: 31, then 32. */
hanuzak_written hanuzak_write_alarm_group(const hanuzak_module *table, size_t records, uint8_t flag, uint8_t *out,
                                          size_t out_bytes);

/* ---- the table (PROTOCOL 5) */

/*
 * A new record: on, no link fault, one cell and one temperature in analog and in alarm, and 0 in every other place.  So until a
 * reply is read into it, its cell has 0 mV, its temperature says -273.1 C, and limits asks to stop charging and discharging.
 * parameters has no limits until a reply to 47H is read: its voltages and currents are 0, its temperatures say -273.1 C.
 * It keeps the table's rule by itself where ADR keeps the address rule.
 */
hanuzak_module hanuzak_module_new(uint8_t adr);

/*
 * 0 where the records keep the table's rule, else 31: one to 12 records in rising ADR, all with one m, on and link_fault 0 or 1,
 * and every value of analog and alarm one that can be encoded.  A record of zeros can't: its counts are below 1.
 */
uint8_t hanuzak_table(const hanuzak_module *table, size_t records);

/* A copy of table[at], or other where at is records or more. */
hanuzak_module hanuzak_record(const hanuzak_module *table, size_t records, size_t at, hanuzak_module other);

/* table[at] = module; nothing changes where at is records or more. */
void hanuzak_replace(hanuzak_module *table, size_t records, size_t at, hanuzak_module module);

/* table[at].on = 0, and every other field as it was; nothing changes where at is records or more. */
void hanuzak_switch_off(hanuzak_module *table, size_t records, size_t at);

/* ---- the stand-in (PROTOCOL 7) */

/*
 * The answer to a question, given the bytes between SOI and CR.  Refused: 32 for a buffer below 4,112 bytes, then 31; buffer and
 * table stay.  Then silence, with no byte written and the table as it was: the stretch is refused with 1, 3, 4 or 9 by
 * hanuzak_judge, or its ADR names no member that is on.  Otherwise a reply stands at the front of out from SOI to CR, the other
 * bytes stay, and its return code is the first of these that applies:
 *   03H the stretch is refused with 5; 05H with 6 or 7; 02H with 8
 *   05H CID1 is not 46H
 *   04H the command is none of the nine
 *   01H VER is not station.ver (not asked of 4FH)
 *   05H INFO is not the one byte Command (with 47H, 4FH and 51H: not empty)
 *   06H Command is FFH, but not at the master with 42H or 44H
 *   90H Command is neither FFH nor ADR
 *   91H a link fault of the module, or with FFH of any member that is on (47H, 4FH and 51H answer in spite of it)
 *   00H otherwise, with the data
 * An accepted 95H switches its module off in the table, and nothing else changes the table.
 */
hanuzak_answered hanuzak_answer(hanuzak_module *table, size_t records, hanuzak_station station, const uint8_t *stretch,
                                size_t stretch_bytes, uint8_t *out, size_t out_bytes);

/* ---- the reply reader (PROTOCOL 8) */

/*
 * Reads the reply to a question from the bytes between SOI and CR into the table: the fields that its command carries, of the
 * asked record, or with Command FFH of each member that is on.  Read: VER, the return code and the flag; a code other than 00H
 * changes no record, nor do replies to 4FH, 51H and 95H.  on and link_fault never change: call hanuzak_switch_off after a 95H that
 * was read with 00H, or the next reply to FFH is refused with 22.
 * Refused: 31, then 34, then 23 for an ADR that is not in the table, then 1 or 3 to 9 of the stretch, then 11 to 22 of the reply;
 * the table stays.
 * A reply does not name its command: one to another command whose bytes happen to fit is read as if it were the one asked.
 */
hanuzak_reply hanuzak_read_reply(hanuzak_module *table, size_t records, hanuzak_question question, const uint8_t *stretch,
                                 size_t stretch_bytes);

/* ---- the listing of a capture (PROTOCOL 11) */

/* A fresh listing: offset 0, both totals 0, the receiver waiting. */
hanuzak_listing hanuzak_listing_new(void);

/*
 * Lists the bytes of a piece: the lines of its frames and refused stretches stand at the front of out, and its other bytes stay.
 * A refused stretch has the lines at= and refused=, and with 4 and 9 a third, place=, in decimal.
 * It takes a byte only while 4,200 bytes of out are left, and none from offset 1,073,741,824 of the stream on; call it again with
 * the rest and the emptied buffer, unless next.offset is HANUZAK_LIMIT: then nothing more is taken.  Refused: 32 for a store below
 * 4,110 bytes or a buffer below 4,200, then 35 for an open receiver with a count above 4,110: no byte is taken, store and buffer
 * stay, and the listing comes back, its receiver as from hanuzak_step.
 */
hanuzak_listed hanuzak_list(hanuzak_listing listing, uint8_t *store, size_t store_bytes, const uint8_t *piece, size_t piece_bytes,
                            uint8_t *out, size_t out_bytes);

/* The two totals, the listing's last lines, at the front of out; its other bytes stay.  Refused: 32 for a buffer below 38 bytes. */
hanuzak_written hanuzak_list_close(hanuzak_listing listing, uint8_t *out, size_t out_bytes);

/* ---- what numbers mean (PROTOCOL 9.10, 9.11) */

/* A temperature as on the wire, in tenths of a degree Celsius: raw - 2731. */
int32_t hanuzak_tenths_celsius(int16_t raw);

/* A current in milliamps: current * 100. */
int32_t hanuzak_milliamps(int16_t current);

#ifdef __cplusplus
}
#endif
#endif
