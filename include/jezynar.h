/* The simulated M-Bus segment: the entry points of the static library.
 *
 * libjezynar.a is for x86-64 Linux; `./archive` proves it and writes it to target/staticlib/.
 *
 * A segment is an image, JEZYNAR_IMAGE_LEN bytes that the caller keeps between the calls; the library has no state of
 * its own. The first call on new memory is jezynar_segment_new. (Any bytes are an image; but a first opening that is
 * refused leaves what was there.) An image belongs to one version of the library: store meter lists, not images;
 * jezynar_segment_export writes one.
 * Each segment has one image: jezynar_segment_new, jezynar_segment_tidy and an accepted opening write it, and every
 * other call keeps it so. Equal segments then have equal images.
 *
 * A slice crosses as a pointer and its length, an array as a pointer to exactly that many bytes. The image, and a
 * buffer that is written, overlap no other memory of the same call. An empty slice may have any pointer. A thread with
 * 64 KiB of stack is enough for every call. Calls on different images may run at once.
 *
 * A call that can be refused answers 0, or the number of its refusal (enum jezynar_refusal); an opening, a send, an
 * export and the telegram writer answer more than the number, as is said there. A refused call leaves every byte of the
 * image and of the buffers unchanged. Every value of the arguments is taken.
 *
 * The clock of a send or a search: secs, the seconds of the instant, on one scale with the origin of the opening (the
 * meters' values grow with secs - origin; seconds since 1970 for both will do); and the date and time that meters
 * write: year 1970..9999, month 1..12, day 1..31, hour 0..23, minute 0..59.
 *
 * Numbers in what a call writes are little-endian.
 */
#ifndef JEZYNAR_H
#define JEZYNAR_H

#include <stdbool.h>
#include <stddef.h>
#include <stdint.h>

#ifdef __cplusplus
extern "C" {
#endif

/* At most so many meters in a list, and entries of a search. */
#define JEZYNAR_METERS 64

/* Lengths in bytes. */
#define JEZYNAR_IMAGE_LEN 5974
#define JEZYNAR_ENTRY_LEN 16
#define JEZYNAR_SUMMARY_LEN 12
#define JEZYNAR_DESCRIPTION_LEN 16
#define JEZYNAR_PIECE_LEN 1024   /* the longest piece of a send */
#define JEZYNAR_QUEUE_LEN 4096   /* the most that is queued */
#define JEZYNAR_TELEGRAM_LEN 261 /* the longest telegram */
#define JEZYNAR_EXPORT_LEN 2947  /* the longest list of an export: 3 + 46 * JEZYNAR_METERS */

/* Why a call was refused. */
enum jezynar_refusal {
    JEZYNAR_ACCEPTED = 0,
    JEZYNAR_LIST_VERSION = 1,      /* a list under 3 bytes, or its version is not 1 */
    JEZYNAR_LIST_LENGTH = 2,       /* a length in the list does not fit */
    JEZYNAR_LIST_METERS = 3,       /* more than JEZYNAR_METERS meters */
    JEZYNAR_METER_PRIMARY = 4,     /* a primary address over 250 */
    JEZYNAR_METER_ID = 5,          /* an id that is not eight digits */
    JEZYNAR_METER_MANUFACTURER = 6,/* a manufacturer that is not three capital letters (none for heat_old) */
    JEZYNAR_METER_MEDIUM = 7,      /* a medium that is no key */
    JEZYNAR_METER_BAUD = 8,        /* an own baud that is no rate */
    JEZYNAR_METER_FAULT = 9,       /* a fault that is no key */
    JEZYNAR_BAUD = 10,             /* a bus baud that is no rate */
    JEZYNAR_DATA_LENGTH = 11,      /* more than 252 data bytes for a telegram */
    JEZYNAR_BUFFER_LENGTH = 12,    /* a buffer too short for the telegram or the list */
    JEZYNAR_PIECE_TOO_LONG = 13,   /* a piece over JEZYNAR_PIECE_LEN bytes */
    JEZYNAR_CLOCK = 14,            /* a clock field out of range */
    JEZYNAR_QUEUE_FULL = 15,       /* the queue would pass JEZYNAR_QUEUE_LEN bytes */
    JEZYNAR_NOT_EMPTY = 16,        /* input waits or replies are queued, so that a search cannot begin */
    JEZYNAR_TOO_FEW_ENTRIES = 17,  /* fewer entries lent than meters opened */
    JEZYNAR_HIGH_PRIMARY = 18      /* a meter's primary address is over 250, so that no list can have it */
};

/* What an entry of a search is. */
enum jezynar_entry_kind {
    JEZYNAR_ONE = 1,  /* a meter that was found and read: its id */
    JEZYNAR_MUTE = 2, /* a mask that one meter answers whose reading fails */
    JEZYNAR_MANY = 3  /* an id that several meters have */
};

/* What parse says of the bytes in front. */
enum jezynar_parse {
    JEZYNAR_COMPLETE = 0,
    JEZYNAR_INCOMPLETE = 1, /* more bytes are needed */
    JEZYNAR_BAD_CHECKSUM = 2,
    JEZYNAR_BAD_STOP = 3,
    JEZYNAR_BAD_HEADER = 4,
    JEZYNAR_BAD_LENGTH = 5,
    JEZYNAR_BAD_START = 6
};

/* Kinds of telegrams. */
enum jezynar_kind { JEZYNAR_ACK = 0, JEZYNAR_SHORT = 1, JEZYNAR_LONG = 2 };

/* EN 13757-2 and -3. */
enum jezynar_protocol {
    JEZYNAR_E5 = 0xE5,              /* the single character of an ACK */
    JEZYNAR_C_SND_NKE = 0x40,
    JEZYNAR_C_SND_UD = 0x53,
    JEZYNAR_C_REQ_UD2 = 0x5B,       /* with FCB clear; | JEZYNAR_FCB with it set */
    JEZYNAR_C_RSP_UD = 0x08,
    JEZYNAR_FCB = 0x20,
    JEZYNAR_CI_RESET = 0x50,
    JEZYNAR_CI_DATA_SEND = 0x51,
    JEZYNAR_CI_SELECT = 0x52,
    JEZYNAR_CI_ERROR = 0x70,
    JEZYNAR_CI_RESPONSE = 0x72,
    JEZYNAR_CI_RESPONSE_FIXED = 0x73,
    JEZYNAR_ADDR_SELECTED = 0xFD,
    JEZYNAR_ADDR_ALL_REPLY = 0xFE,
    JEZYNAR_ADDR_ALL = 0xFF
};

/* ---- the segment */

/* How many bytes an image has: JEZYNAR_IMAGE_LEN. */
size_t jezynar_segment_image_len(void);

/* A segment with no meters, 2400 Bd, origin 0, whatever the memory held. */
void jezynar_segment_new(uint8_t image[JEZYNAR_IMAGE_LEN]);

/* Writes the one image of the segment that the bytes mean, for an image that came from elsewhere. */
void jezynar_segment_tidy(uint8_t image[JEZYNAR_IMAGE_LEN]);

/* Opens the segment of a list of meters at a bus baud.
 * The list: the byte 01; in two bytes, the high one first, how many bytes follow; a record for each meter.
 * A record: one byte, the length of its rest; primary (at most 250); version (any byte); own baud in four bytes, the
 * high one first (0: the bus's at opening); four texts, each after a byte with its length: id (eight digits),
 * manufacturer (three capital letters; or none for heat_old), medium, fault.
 *   rates  300 600 1200 2400 4800 9600 19200 38400
 *   media  heat cooling water cold_water warm_water gas electricity heat_old
 *   faults none checksum truncated busy wrong_address flaky too_many
 * practice: for exercises. Every meter's values then begin alike, and a meter whose own baud is the bus baud is put to
 * 2400, so that one stays at another rate. For a site it is false.
 * origin: the instant from which the meters' values grow, on the scale of the clock's secs.
 * Accepted: 0, and the segment is built anew. Refused: number + 256 * index (1 to 10), and the former segment stays in
 * use. 1 to 3 are checked before any record, 10 after all of them. For 4 to 9 the first failing record in list order is
 * named: its index, from 0, with the first of 4 to 9, in this order, that it fails with. Elsewhere the index is 0. */
uint32_t jezynar_segment_open(uint8_t image[JEZYNAR_IMAGE_LEN], const uint8_t *list, size_t list_len, uint32_t baud,
                              bool practice, double origin);

/* Sends a piece of bytes at a clock. The piece joins the input that waits; complete telegrams are handled in turn and
 * their replies queued; an incomplete one waits for the next piece; an invalid one drops all the rest of the input.
 * Answers number * 65536 + due. Accepted: number 0, and due is the least number of further bytes after which what waits
 * could be other than incomplete; 1 where nothing waits, never 0. A caller that reads exactly so many bytes before its
 * next send misses no telegram and reads past the end of none. Refused with 13, 14, 15 (due 0). */
uint32_t jezynar_segment_send(uint8_t image[JEZYNAR_IMAGE_LEN], const uint8_t *piece, size_t piece_len, double secs,
                              uint32_t year, uint32_t month, uint32_t day, uint32_t hour, uint32_t minute);

/* Hands out the least of 32, the buffer's length and the queued bytes, and answers how many; the rest of the buffer is
 * unchanged. Never refused. */
size_t jezynar_segment_receive(uint8_t image[JEZYNAR_IMAGE_LEN], uint8_t *buffer, size_t buffer_len);

/* Empties the queue, nothing else. Never refused. */
void jezynar_segment_clear(uint8_t image[JEZYNAR_IMAGE_LEN]);

/* Sets the bus baud and empties the waiting input. Refused with 10. */
uint32_t jezynar_segment_set_baud(uint8_t image[JEZYNAR_IMAGE_LEN], uint32_t baud);

/* Finds the meters of a site: searches for their ids, with an allowance of probes, at a clock.
 * The entries lent are entries_len / JEZYNAR_ENTRY_LEN; those found are written from the front, the rest is unchanged:
 *   0      enum jezynar_entry_kind
 *   1..8   eight digits, most significant first: the id; of a mute the mask, 15 for an unknown digit
 *   9..12  count: how many acknowledged
 *   13..15 0
 * The summary is three numbers of 4 bytes: entries written; probes made; 1 where the allowance was spent, else 0.
 * Refused with 14, 16, 17. */
uint32_t jezynar_segment_search(uint8_t image[JEZYNAR_IMAGE_LEN], double secs, uint32_t year, uint32_t month,
                                uint32_t day, uint32_t hour, uint32_t minute, uint32_t allowance, uint8_t *entries,
                                size_t entries_len, uint8_t summary[JEZYNAR_SUMMARY_LEN]);

/* Writes the segment back as a meter list, for a site that changed addresses or bauds: the meters as they are now, in
 * segment order, also those at other rates, in the layout of jezynar_segment_open. The own baud is 0 where it equals
 * the bus baud, the id eight digits, the manufacturer three capital letters (none for a heat_old without one). The list
 * goes to the front of the buffer; the rest of the buffer, and the image, are unchanged. JEZYNAR_EXPORT_LEN bytes are
 * always enough.
 * Opened at the same bus baud without the practice flag, the list is accepted, and its meters are the same in primary
 * address, id, manufacturer, version, medium, fault and baud. Two segments at one bus baud, neither refused, have the
 * same list exactly if their meters agree in these. (An image that did not come from calls can have a list that an
 * opening refuses.)
 * The list does not say the bus baud: keep it beside the list. At another one the meters with own baud 0 take that one.
 * Nor does it hold the origin, the practice flag, the waiting input and the queue; nor, of a meter, the seed from which
 * its values rise, access number, selection, part, last FCB, readouts, and whether a flaky one hears next. All this
 * begins anew at the opening. So meters that were opened with the practice flag need not read the same values
 * afterwards; others do, with the same origin.
 * Answers number * 65536 + bytes written; refused with 18, then 12 (0 written). 18: a telegram gave a meter a primary
 * address over 250, which no list can have; export again once it has another. */
uint32_t jezynar_segment_export(const uint8_t image[JEZYNAR_IMAGE_LEN], uint8_t *buffer, size_t buffer_len);

/* ---- telegrams */

/* The telegram in front of some bytes. Answers an enum jezynar_parse, with 256 * due added to JEZYNAR_INCOMPLETE: the
 * least number of further bytes after which the telegram could be other than incomplete. It is 4 for a lone 10, 3 for a
 * lone 68, what is left of the telegram once its header is there, 1 for no bytes.
 * out, unchanged where it is not complete:
 *   0      enum jezynar_kind
 *   1..3   control, address, CI; 0 where there is none
 *   4..7   how many data bytes, which begin at byte 7 of a long telegram
 *   8..11  how many bytes the telegram has
 *   12..15 0 */
uint32_t jezynar_frame_parse(const uint8_t *bytes, size_t bytes_len, uint8_t out[JEZYNAR_DESCRIPTION_LEN]);

/* Writes a telegram to the front of a buffer; the rest is unchanged.
 * kind: 0 ACK, 1 short, any other long. ACK takes no field, short takes control and address; data are of a long one.
 * Answers number * 65536 + bytes written; refused with 11, 12 (0 written). */
uint32_t jezynar_frame_encode(uint8_t kind, uint8_t control, uint8_t address, uint8_t ci, const uint8_t *data,
                              size_t data_len, uint8_t *buffer, size_t buffer_len);

/* ---- inline: a clock as a struct, and readers of what the calls write */

struct jezynar_clock {
    double secs;
    uint32_t year, month, day, hour, minute;
};

static inline uint32_t jezynar_send(uint8_t *image, const uint8_t *piece, size_t piece_len,
                                    const struct jezynar_clock *clock)
{
    return jezynar_segment_send(image, piece, piece_len, clock->secs, clock->year, clock->month, clock->day,
                                clock->hour, clock->minute);
}

static inline uint32_t jezynar_search(uint8_t *image, const struct jezynar_clock *clock, uint32_t allowance,
                                      uint8_t *entries, size_t entries_len, uint8_t *summary)
{
    return jezynar_segment_search(image, clock->secs, clock->year, clock->month, clock->day, clock->hour, clock->minute,
                                  allowance, entries, entries_len, summary);
}

/* Of what an opening answers: the number, and the index. For 4 to 9 they are of the first failing record in list order:
 * its first number, and its place, from 0. Elsewhere the index is 0. */
static inline uint32_t jezynar_open_number(uint32_t answer)
{
    return answer % 256;
}

static inline uint32_t jezynar_open_index(uint32_t answer)
{
    return answer / 256;
}

/* Of what a send answers: the number, and how many bytes are due. */
static inline uint32_t jezynar_sent_number(uint32_t answer)
{
    return answer / 65536;
}

static inline uint32_t jezynar_sent_due(uint32_t answer)
{
    return answer % 65536;
}

/* Of what an export answers: the number, and how many bytes were written. */
static inline uint32_t jezynar_exported_number(uint32_t answer)
{
    return answer / 65536;
}

static inline uint32_t jezynar_exported_len(uint32_t answer)
{
    return answer % 65536;
}

/* Of what parse answers: what it says of the bytes, and how many are due, 0 where they are not incomplete. */
static inline enum jezynar_parse jezynar_parse_result(uint32_t answer)
{
    return (enum jezynar_parse)(answer % 256);
}

static inline uint32_t jezynar_parse_due(uint32_t answer)
{
    return answer / 256;
}

/* Of what encode answers: the number, and how many bytes were written. */
static inline uint32_t jezynar_encode_number(uint32_t answer)
{
    return answer / 65536;
}

static inline uint32_t jezynar_encode_len(uint32_t answer)
{
    return answer % 65536;
}

static inline uint32_t jezynar_number_at(const uint8_t *bytes)
{
    return (uint32_t)bytes[0] | (uint32_t)bytes[1] << 8 | (uint32_t)bytes[2] << 16 | (uint32_t)bytes[3] << 24;
}

/* The entry at a place of what a search wrote. */
struct jezynar_entry {
    enum jezynar_entry_kind kind;
    char digits[9]; /* eight digits as text, F for an unknown one, and a final 0 */
    uint32_t count;
};

static inline struct jezynar_entry jezynar_entry_at(const uint8_t *entries, size_t place)
{
    const uint8_t *bytes = entries + place * JEZYNAR_ENTRY_LEN;
    struct jezynar_entry entry;
    int i;
    entry.kind = (enum jezynar_entry_kind)bytes[0];
    for (i = 0; i < 8; i++)
        entry.digits[i] = (char)(bytes[1 + i] < 10 ? '0' + bytes[1 + i] : 'A' + (bytes[1 + i] - 10));
    entry.digits[8] = 0;
    entry.count = jezynar_number_at(bytes + 9);
    return entry;
}

struct jezynar_summary {
    uint32_t entries, probes;
    bool spent;
};

static inline struct jezynar_summary jezynar_read_summary(const uint8_t summary[JEZYNAR_SUMMARY_LEN])
{
    struct jezynar_summary read;
    read.entries = jezynar_number_at(summary);
    read.probes = jezynar_number_at(summary + 4);
    read.spent = jezynar_number_at(summary + 8) != 0;
    return read;
}

/* The description that parse wrote of a complete telegram. */
struct jezynar_description {
    enum jezynar_kind kind;
    uint8_t control, address, ci;
    uint32_t data_len, telegram_len;
};

static inline struct jezynar_description jezynar_read_description(const uint8_t out[JEZYNAR_DESCRIPTION_LEN])
{
    struct jezynar_description read;
    read.kind = (enum jezynar_kind)out[0];
    read.control = out[1];
    read.address = out[2];
    read.ci = out[3];
    read.data_len = jezynar_number_at(out + 4);
    read.telegram_len = jezynar_number_at(out + 8);
    return read;
}

/* What a refusal's number means, in a few words. */
static inline const char *jezynar_refusal_text(uint32_t number)
{
    static const char *const texts[] = {
        "accepted",
        "the list is under 3 bytes, or its version is not 1",
        "a length in the list does not fit",
        "more than 64 meters",
        "a primary address over 250",
        "an id that is not eight digits",
        "a manufacturer that is not three capital letters",
        "an unknown medium",
        "an own baud that is no rate",
        "an unknown fault",
        "a bus baud that is no rate",
        "more than 252 data bytes",
        "a buffer too short for the telegram or the list",
        "a piece over 1,024 bytes",
        "a clock field out of range",
        "the queue would pass 4,096 bytes",
        "input waits or replies are queued",
        "fewer entries lent than meters opened",
        "a meter's primary address is over 250",
    };
    return number < sizeof texts / sizeof texts[0] ? texts[number] : "no refusal has this number";
}

#ifdef __cplusplus
}
#endif

#endif
